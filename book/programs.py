"""Code of Rattle: what each name in a function, a type or a constant means."""

import re

import antt
import words
from meanings import Kit, Local, Scope

RESERVED = set(
    "_ as break const continue crate else enum extern false fn for ghost if impl in let loop match mod move mut pub "
    "ref return "
    "self Self static struct super trait true type unsafe use where while requires ensures".split()
)
BUILTIN = set(
    "u8 u16 u32 u64 u128 usize i8 i16 i32 i64 i128 isize f32 f64 bool char str Option Some None Result Ok Err Box Vec "
    "String Clone Copy Default Drop PartialEq Eq PartialOrd Ord From Into TryFrom TryInto Iterator IntoIterator "
    "HostRuntime Print Eprint Input Alloc AllocGlobal Fn FnMut FnOnce drop".split()
)
#: What a contract writes behind a parameter that is a reference.
POINTED = {
    "now": "what it points to",
    "old": "what it points to on entry",
    "new": "what it points to on return",
    "entry": "the parameter on entry",
    "exit": "the parameter on return",
}
MACROS = set(
    "print println eprint eprintln write writeln format vec matches assert assert_eq assert_ne unreachable".split()
)
OPEN, CLOSE = ("(", "{", "["), (")", "}", "]")
#: What stands before the bar that begins a closure.
BEFORE_CLOSURE = ("(", "[", "{", "}", ",", ";", "=", "=>", "move", "return")


def closing(toks, i):
    """The place of the bracket that closes the one at i."""
    depth = 0
    for j in range(i, len(toks)):
        if toks[j].kind == "mark":
            depth += (toks[j].text in OPEN) - (toks[j].text in CLOSE)
            if depth == 0:
                return j
    return len(toks) - 1


def until_bar(toks, i):
    """The place of the bar that ends what a closure takes."""
    while i < len(toks) and toks[i].text != "|":
        i = closing(toks, i) + 1 if toks[i].text in OPEN else i + 1
    return i


class Programs(antt.Reader):
    """Walks code. What a let or an arm of a match binds holds to the end of the braces around it."""

    #: What stands before the dot where the walk is.
    last = None

    def path_meaning(self, path):
        """What a path means: crate::name, Type::Variant, crate::Type::Variant, and names of the kit's crates."""
        head, rest = path[0], path[1:]
        own = head in ("crate", "self", "super") or self.house.source_module(self.file.crate, head) is not None
        crate = self.file.crate if own else self.house.crates.get(head)
        if crate is not None and rest:
            items = self.house.crate_items(crate)
            while rest[0] not in items and len(rest) > 1:
                rest = rest[1:]  # a module within the crate
            meaning, rest = items.get(rest[0], [None])[0], rest[1:]
        else:
            meaning = self.code.find(head)
            if meaning is None and (head in BUILTIN or head in self.house.kit_crates):
                return Kit("::".join(path))
        for word in rest:
            if meaning is None or isinstance(meaning, Kit):
                return meaning
            inner = [d for d in meaning.fields if d.name == word]
            inner += [d for d in self.house.methods.get(word, []) if d.owner == meaning.name]
            meaning = inner[0] if inner else None
        return meaning

    def name(self, toks, i, scope):
        """A name or a path of code; answers the place behind it."""
        path, j = [toks[i]], i + 1
        if path[0].text in MACROS and j + 1 < len(toks) and toks[j].text == "!" and toks[j + 1].text in OPEN:
            self.mark(path[0].start, path[0].end, "kit", "a macro of the language's own")
            self.last = None
            return j + 1
        while j + 1 < len(toks) and toks[j].text == "::" and toks[j + 1].kind == "name":
            path.append(toks[j + 1])
            j += 2
        crate = self.file.crate
        if len(path) > 1 and isinstance(scope.find(path[0].text), Local):  # a type's parameter, and what its bounds give
            self.mark(path[0].start, path[0].end, "local")
            for t in path[1:]:
                self.mark(t.start, t.end, "kit", "a member of a bound")
            self.last = None
            return j
        for k, t in enumerate(path, 1):
            if len(path) > 1 and (k == 1 and t.text in self.house.crates or t.text in RESERVED):
                if t.text not in RESERVED:
                    crate = self.house.crates[t.text]
                    self.mark(t.start, t.end, "module", crate)
                continue
            module = self.house.source_module(crate, t.text) if k < len(path) else None
            if module is not None:
                self.mark(t.start, t.end, "module", module)
                continue
            meaning = scope.find(t.text) if len(path) == 1 else None
            if meaning is None:
                meaning = self.path_meaning([x.text for x in path[:k]])
            self.last = meaning
            if meaning is None:
                self.unknown(t)
                break
            self.refer(t, meaning)
        return j

    def types(self, toks, decl):
        """The types that a struct, an enum or the head of an impl names."""
        own = {}
        for d in [decl, *decl.fields, *(x for f in decl.fields for x in f.fields)] if decl else []:
            own[d.start] = d
        scope, i = Scope(self.code), 0
        while i < len(toks):
            t = toks[i]
            if t.start in own:
                self.mark(t.start, t.end, "decl", own[t.start])
            if i in (1, 2) and t.text == "<" and toks[0].text in ("impl", "struct", "enum", "type"):
                i = self.generics(toks, i, scope)
                continue
            if t.start not in own and t.kind == "name" and t.text not in RESERVED:
                i = self.name(toks, i, scope)
                continue
            i += 1

    # ---- functions

    def function(self, decl, toks, owner):
        """A function or a constant: its parameters, its contract, its body."""
        scope = Scope(self.code)
        self.generics(decl.around, 0, scope)
        self.mark(toks[1].start, toks[1].end, "decl", decl)
        if decl.kind == "const":
            self.body(toks[2:], scope)
            return
        first = self.generics(toks, 2, scope)
        end = closing(toks, first)
        self.parameters(toks[first + 1 : end], scope, owner)
        i = end + 1
        while toks[i].start < decl.open:
            t = toks[i]
            if t.text in ("requires", "ensures"):
                inside = i + 1
                if toks[inside].kind == "name":
                    self.mark(toks[inside].start, toks[inside].end, "label")
                    inside += 1
                end = closing(toks, inside)
                result = Local(self.told(decl)) if t.text == "ensures" else None
                self.contract(toks[inside].end, toks[end].start, toks[inside].line, scope, result)
                i = end + 1
                continue
            i = self.name(toks, i, scope) if t.kind == "name" and t.text not in RESERVED else i + 1
        self.body(toks[i:], scope)

    def generics(self, toks, i, scope):
        """The parameters in angles, where there are some: lifetimes, and types with their bounds; answers the place
        behind them."""
        if i >= len(toks) or toks[i].text != "<":
            return i
        depth, end = 0, i
        while end < len(toks):
            depth += (toks[end].text == "<") - (toks[end].text == ">") - 2 * (toks[end].text == ">>")
            if depth <= 0:
                break
            end += 1
        inner, k = toks[i + 1 : end], 0
        while k < len(inner):
            t = inner[k]
            if t.kind != "name" or t.text in RESERVED:
                k += 1
            elif k == 0 or inner[k - 1].text in (",", "const"):
                scope.bind(t.text, Local())
                self.mark(t.start, t.end, "local")
                k += 1
            else:
                k = self.name(inner, k, scope)
        return end + 1

    def contract(self, start, end, line, scope, result):
        """A contract: a term of antt over the parameters, with `result` and the values that a reference points to."""
        inner = Scope(self.ghosts)
        if result is not None:
            inner.bind("result", result)
        for name, meaning in scope.names.items():
            inner.bind(name, meaning)
        self.file.marks = [m for m in self.file.marks if not start <= m[0] < end]
        self.walk(words.tokens(self.file.text, start, end, line), inner)

    def field(self, t, of):
        if t.text in POINTED:
            self.mark(t.start, t.end, "kit", POINTED[t.text])
            return of
        return super().field(t, of)

    def parameters(self, toks, scope, owner):
        depth = i = 0
        while i < len(toks):
            t = toks[i]
            if t.kind == "mark":
                depth += (t.text in OPEN) - (t.text in CLOSE)
            elif t.text == "self":
                scope.bind("self", Local(self.code.find(owner)))
            elif t.kind == "name" and depth == 0 and i + 1 < len(toks) and toks[i + 1].text == ":":
                names = [x for x in toks[i + 2 :] if x.kind == "name" and x.text not in RESERVED]
                plain = names and toks[i + 2].text != "["
                scope.bind(t.text, Local(self.house.struct_of(self.code.find(names[0].text)) if plain else None))
                self.mark(t.start, t.end, "local")
            elif t.kind == "name" and t.text not in RESERVED:
                i = self.name(toks, i, scope)
                continue
            i += 1

    def told(self, decl):
        """The type that a function says it answers, where it is one of ours."""
        found = re.search(r"->\s*([A-Za-z_]\w*)\s*(?:requires|ensures|$)", decl.type)
        name = decl.owner if found and found[1] == "Self" else found[1] if found else None
        return self.house.type_named(name, decl.file) if name else None

    # ---- bodies

    def body(self, toks, scope):
        """Statements and expressions."""
        here, i = Scope(scope), 0
        self.last = None
        while i < len(toks):
            t = toks[i]
            after = toks[i + 1] if i + 1 < len(toks) else None
            if t.text == "match":
                i = self.match(toks, i + 1, here)
            elif t.text in ("|", "||") and (i == 0 or toks[i - 1].text in BEFORE_CLOSURE):
                i = self.closure(toks, i, here)
            elif t.text in ("let", "for"):
                i = self.let_code(toks, i + 1, here, t.text)
            elif t.text == "." and after is not None and after.kind in ("name", "number"):
                if after.kind == "name":
                    self.member(after, i + 2 < len(toks) and toks[i + 2].text in ("(", "::"))
                i += 2
            elif t.kind != "name" or t.text in RESERVED:
                self.last = here.find("self") if t.text == "self" else None
                if t.text in OPEN:
                    here = Scope(here)
                elif t.text in CLOSE:
                    here = here.outer or here
                i += 1
            elif after is not None and after.text == ":" and toks[i - 1].text in ("{", ","):
                self.entry(t, here)
                i += 2
            else:
                i = self.name(toks, i, here)
                if i < len(toks) and toks[i].text == "{" and getattr(self.last, "kind", "") in ("struct", "variant"):
                    here = Scope(here)
                    here.names["{"] = self.last  # whose literal it is
                    i += 1

    def closure(self, toks, i, scope):
        """What a closure takes, which holds to the end of the brackets around it; answers the place behind."""
        if toks[i].text == "||":
            return i + 1
        end = until_bar(toks, i + 1)
        k = i + 1
        while k < end:
            stop = k
            while stop < end and toks[stop].text not in (",", ":"):
                stop = closing(toks, stop) + 1 if toks[stop].text in OPEN else stop + 1
            self.code_pattern(toks[k:stop], scope)
            while stop < end and toks[stop].text != ",":
                if toks[stop].kind == "name" and toks[stop].text not in RESERVED:
                    self.name(toks, stop, scope)
                stop += 1
            k = stop + 1
        return end + 1

    def entry(self, t, scope):
        """The label of an entry of a struct's literal."""
        found = [d for d in getattr(scope.find("{"), "fields", []) if d.name == t.text]
        if found:
            self.mark(t.start, t.end, "link", found[0])
        else:
            self.unknown(t)

    def member(self, t, call):
        """What stands behind a dot: a method, ours or the language's own, or a field."""
        crate, last = self.file.crate, self.last
        of = self.house.struct_of(last.head if isinstance(last, Local) else last)
        if call:
            found = [
                d
                for d in self.house.methods.get(t.text, [])
                if d.file.crate is crate or d.file.crate.name in crate.below
            ]
            found = [
                d for d in found if of is not None and d.owner == of.name and d.file.crate is of.file.crate
            ] or found
        else:
            found = self.house.fields(t.text, crate, "rt")
            found = [d for d in found if d.parent is of] or found
        if found:
            self.mark(t.start, t.end, "link", found if len(found) > 1 else found[0])
        elif call:
            self.mark(t.start, t.end, "kit", "a method of the language's own")
        else:
            self.unknown(t)
        self.last = found[0] if len(found) == 1 and not call else None

    def match(self, toks, i, scope):
        """A match, from behind its word: what it looks at, then each arm; answers the place behind it."""
        inside = i
        while toks[inside].text != "{":
            inside = closing(toks, inside) + 1 if toks[inside].text in OPEN else inside + 1
        self.body(toks[i:inside], scope)
        end, j = closing(toks, inside), inside + 1
        while j < end:
            arrow = j
            while toks[arrow].text != "=>":
                arrow += 1
            arm = Scope(scope)
            guard = next((k for k in range(j, arrow) if toks[k].text == "if"), arrow)
            self.code_pattern(toks[j:guard], arm)
            if guard < arrow:
                self.body(toks[guard + 1 : arrow], arm)
            j = arrow + 1
            last = closing(toks, j) + 1 if toks[j].text == "{" else j
            while last < end and toks[last].text != ",":
                if toks[j].text == "{" and last == closing(toks, j) + 1:
                    break
                last = closing(toks, last) + 1 if toks[last].text in OPEN else last + 1
            self.body(toks[j:last], arm)
            j = last + 1 if last < end and toks[last].text == "," else last
        self.last = None
        return end + 1

    def code_pattern(self, toks, scope):
        """A pattern: paths are referred to, small letters bound, labels are fields."""
        i, of = 0, None
        while i < len(toks):
            t = toks[i]
            after = toks[i + 1].text if i + 1 < len(toks) else ""
            if t.kind != "name" or t.text in RESERVED or t.text == "_":
                i += 1
            elif after == "::" or t.text[0].isupper():
                i = self.name(toks, i, scope)
                of = self.last
            else:
                inner = [d for d in getattr(of, "fields", []) if d.name == t.text]
                if inner:
                    self.mark(t.start, t.end, "link", inner[0])
                else:
                    self.mark(t.start, t.end, "local")
                if after != ":" or not inner:
                    scope.bind(t.text, Local())
                i += 1

    def let_code(self, toks, i, scope, word):
        """A let or a for: its pattern and its type; what it binds holds from here on."""
        stop, end, depth, colon = ("=", ";") if word == "let" else ("in",), i, 0, None
        while end < len(toks) and (depth or toks[end].text not in stop):
            depth += (toks[end].text in OPEN) - (toks[end].text in CLOSE)
            if depth == 0 and toks[end].text == ":" and colon is None:
                colon = end
            end += 1
        left, inner = toks[i : colon if colon is not None else end], Scope(scope)
        self.code_pattern(left, inner)
        told = self.value_type(toks, end + 1)
        if colon is not None:
            k = colon + 1
            while k < end:
                named = toks[k].kind == "name" and toks[k].text not in RESERVED
                k = self.name(toks, k, scope) if named else k + 1
            told = self.code.find(toks[colon + 1].text)
        whole = len(inner.names) == 1 and not any(t.text in ("::", "(", "{") for t in left)
        for name in inner.names:
            scope.bind(name, Local(self.house.struct_of(told) if whole else None))
        return end + 1

    def value_type(self, toks, i):
        """The type of a value, where it is a literal or a call of a function that says it."""
        path = []
        while i < len(toks) and toks[i].kind == "name" and toks[i].text not in RESERVED:
            path.append(toks[i].text)
            if i + 1 >= len(toks) or toks[i + 1].text != "::":
                break
            i += 2
        meaning = self.path_meaning(path) if path else None
        if getattr(meaning, "kind", "") in ("function", "method"):
            return self.told(meaning)
        return meaning if getattr(meaning, "kind", "") in ("struct", "enum") else None
