"""Reads files of Rattle: functions, types and constants, and where their contracts and bodies stand."""

import re

import words
from meanings import Kit, Scope
from programs import BUILTIN, RESERVED, Programs, closing
from words import Token

TOKEN = re.compile(
    r"(?P<space>\s+)|(?P<comment>//[^\n]*)|(?P<string>b?\"(?:\\.|[^\"\\])*\"|b?'(?:\\.[^']*|[^'\\])')"
    r"|(?P<number>[0-9][0-9a-zA-Z_]*)|(?P<name>[A-Za-z_][A-Za-z0-9_]*)"
    r"|(?P<mark>'[a-z_]+|::|=>|->|\.\.=?|[=!<>]=|<<|>>|&&|\|\||.)",
    re.S,
)


def tokens(text, mark):
    """The tokens of a text; comments, quoted texts and numbers are marked, and comments left out."""
    found, line, col0, first = [], 1, 0, True
    for match in TOKEN.finditer(text):
        kind, word = match.lastgroup, match.group()
        if kind == "space":
            if "\n" in word:
                first, col0 = True, match.start() + word.rindex("\n") + 1
                line += word.count("\n")
            continue
        if kind in ("comment", "string", "number"):
            mark(match.start(), match.end(), kind)
        if kind != "comment":
            found.append(Token(word, match.start(), line, match.start() - col0, first, kind))
            first = False
        line += word.count("\n")
    return found


def until(toks, i, *ends):
    """The place from i on of the first of some marks that stands outside of brackets."""
    while i < len(toks) and toks[i].text not in ends:
        i = closing(toks, i) + 1 if toks[i].text in ("(", "[", "{") else i + 1
    return i


class Reader(Programs):
    """Reads one file of Rattle; its contracts are read as terms of antt."""

    def declare(self):
        file = self.file
        file.comment = file.head_comment()
        self.tokens = tokens(file.text, self.mark)
        self.heads, self.bodies, self.uses, self.around = [], [], [], []
        self.declare_items(self.tokens, None)

    def declare_items(self, toks, owner):
        """The items of a file, or of an impl, whose owner is then the type. An item begins where the last one ended."""
        begin = i = 0
        while i < len(toks):
            text = toks[i].text
            if text == "mod" and toks[i + 2].text == "{":  # a module that stands in the file itself
                end = closing(toks, i + 2)
                self.declare_items(toks[i + 3 : end], owner)
            elif text in ("use", "mod") and (i == 0 or toks[i - 1].text in (";", "}", "ghost", "pub", "]")):
                end = until(toks, i, ";")
                self.uses.append((toks[i : end + 1], i > 0 and toks[i - 1].text == "ghost"))
            elif text in ("struct", "enum"):
                end = self.declare_type(toks, i, begin)
            elif text == "type" and owner is None:
                end = self.declare_alias(toks, i, begin)
            elif text == "impl":
                inside = until(toks, i, "{")
                end = closing(toks, inside)
                self.heads.append((None, toks[i:inside]))
                outer, self.around = self.around, toks[i + 1 : inside]
                self.declare_items(toks[inside + 1 : end], self.owner(self.around))
                self.around = outer
            elif text in ("const", "static") and toks[i + 1].text.isupper():
                end = self.declare_constant(toks, i, begin)
            elif text == "fn":
                end = self.declare_function(toks, i, begin, owner)
            else:
                i += 1
                continue
            begin = i = end + 1

    @staticmethod
    def owner(head):
        """The type that an impl is of: behind its `for`, where it is of a trait, without what stands in angles."""
        depth, name = 0, ""
        for t in head:
            depth += (t.text == "<") - (t.text == ">") - 2 * (t.text == ">>")
            if t.text == "where":
                break
            if depth == 0 and t.kind == "name" and t.text not in RESERVED:
                name = t.text
        return name

    def declare_type(self, toks, i, begin):
        name = toks[i + 1]
        decl = self.file.declare(name.text, toks[i].text, name)
        decl.marks = {x.text for x in toks[begin:i]}
        inside = i + 2
        while toks[inside].text not in ("{", "(", ";"):
            inside += 1
        end = closing(toks, inside) if toks[inside].text != ";" else inside
        decl.type, decl.last = f"{decl.kind} {decl.name}", toks[end].line
        self.heads.append((decl, toks[i:end]))
        self.declare_members(decl, toks[inside + 1 : end])
        return end

    def declare_alias(self, toks, i, begin):
        """A name for another type, which is shown as a type of its own that has no member."""
        decl = self.file.declare(toks[i + 1].text, "struct", toks[i + 1])
        end = until(toks, i, ";")
        decl.marks = {x.text for x in toks[begin:i]}
        decl.type, decl.last = f"type {decl.name}", toks[end].line
        self.heads.append((decl, toks[i:end]))
        return end

    def declare_members(self, decl, toks):
        """The fields of a struct, or the variants of an enum with theirs."""
        depth, begins = 0, True
        for i, t in enumerate(toks):
            labelled = i + 1 < len(toks) and toks[i + 1].text == ":"
            if t.kind == "mark":
                depth += (t.text in ("(", "{", "[")) - (t.text in (")", "}", "]"))
                begins = depth == 0 and t.text == ","
            elif t.kind != "name" or t.text == "pub":
                continue
            elif depth == 0 and (begins or i == 0 or toks[i - 1].text == "pub"):
                if decl.kind == "enum" or labelled:
                    inner = self.file.declare(t.text, "field" if decl.kind == "struct" else "variant", t, decl)
                    inner.type = self.file.lines[t.line - 1].strip().rstrip(",")
                    told = toks[i + 2] if decl.kind == "struct" and i + 2 < len(toks) else None
                    inner.head = told.text if told is not None and told.kind == "name" else ""
                    decl.fields.append(inner)
                begins = False
            elif depth == 1 and decl.kind == "enum" and decl.fields and labelled:
                variant = decl.fields[-1]
                inner = self.file.declare(t.text, "field", t, variant)
                inner.type = f"{variant.name} {{ {t.text} }}"
                variant.fields.append(inner)

    def declare_constant(self, toks, i, begin):
        decl = self.file.declare(toks[i + 1].text, "const", toks[i + 1])
        end = until(toks, i, ";")
        decl.type = " ".join(self.file.text[toks[i].start : toks[end].start].split())[:120]
        decl.last, decl.marks, decl.around = toks[end].line, {x.text for x in toks[begin:i]}, []
        self.bodies.append((decl, toks[i:end], None))
        return end

    def declare_function(self, toks, i, begin, owner):
        """A function: its head goes to the brace that opens its body, which stands behind its contract."""
        decl = self.file.declare(toks[i + 1].text, "method" if owner else "function", toks[i + 1], owner and "impl")
        decl.owner, decl.marks, decl.around = owner, {x.text for x in toks[begin:i]}, self.around
        body = i + 2
        while not self.opens(toks, body):
            body = closing(toks, body) + 1 if toks[body].text in ("(", "[", "{") else body + 1
        end = closing(toks, body) if toks[body].text == "{" else body
        decl.type = self.file.text[toks[begin].start : toks[body].start].rstrip()
        decl.open, decl.end = toks[body].start, toks[end].end
        decl.first, decl.last = toks[begin].line, toks[end].line
        decl.comment = self.file.comment_above(decl.first)
        self.bodies.append((decl, toks[i : end + 1], owner))
        return end

    @staticmethod
    def opens(toks, i):
        """Whether a brace opens a body, and not a clause with a name or without; a semicolon stands for no body."""
        clause = {toks[i - 1].text, toks[i - 2].text} & {"requires", "ensures"}
        return toks[i].text == ";" or toks[i].text == "{" and not clause

    # ---- what the names mean

    def resolve(self):
        house, file = self.house, self.file
        scope = Scope(house.prelude)
        self.code = Scope(None)  # the names of code
        self.ghosts = Scope(scope)  # the names of contracts
        for name in BUILTIN:
            scope.bind(name, Kit(name))
        for name, decls in house.crate_items(file.crate).items():
            decl = next((d for d in decls if d.kind in ("function", "struct", "enum", "const")), None)
            if decl is not None:
                self.code_bind(name, decl)
        for toks, ghost in self.uses:
            if toks[0].text == "mod":
                child = house.source_at(file, toks[1].text)
                if child is None:
                    self.unknown(toks[1])
                else:
                    self.mark(toks[1].start, toks[1].end, "module", child)
            elif ghost:
                line = words.tokens(file.text, toks[0].start, toks[-1].start, toks[0].line)
                self.use(line, scope, self.ghosts.bind)
            else:
                self.code_use(toks)
        for decl, toks in self.heads:
            self.types(toks, decl)
        for decl, toks, owner in self.bodies:
            self.function(decl, toks, owner)
        for t in self.tokens:
            if t.kind == "name" and t.text in RESERVED:
                self.mark(t.start, t.end, "word")

    def code_use(self, toks):
        """A use line of code: use crate::name; use crate::name as other; use crate::{one, module::{two, three}};"""
        self.brought([t for t in toks[1:-1] if t.text not in ("::", ",")], [])

    def brought(self, toks, before):
        """Names of a use line behind a path, each with a path of its own, an alias, or a group behind it."""
        path, i = list(before), 0
        while i < len(toks):
            t, after = toks[i], toks[i + 1].text if i + 1 < len(toks) else ""
            if t.text == "{":
                end = closing(toks, i)
                self.brought(toks[i + 1 : end], path)
                path, i = list(before), end + 1
                continue
            if t.text == "*":  # a crate's own names are in scope
                path, i = list(before), i + 1
                continue
            if t.text != "self" or not path:  # io::{self}: the module itself
                path.append(t)
            if after == "as":
                self.bring(path, toks[i + 2])
                path, i = list(before), i + 3
                continue
            joined = i + 1 < len(toks) and self.file.text[t.end : toks[i + 1].start].strip() == "::"
            if not joined:
                self.bring(path, None)
                path = list(before)
            i += 1

    def bring(self, path, alias):
        """One name of a use line, under its own name or another."""
        meaning = self.path_meaning([t.text for t in path])
        for t in path[:-1]:
            if t.text in self.house.crates:
                self.mark(t.start, t.end, "module", self.house.crates[t.text])
            elif t.text not in RESERVED:
                module = self.house.source_module(self.file.crate, t.text)
                self.mark(t.start, t.end, "kit" if module is None else "module", module or t.text)
        if meaning is None:
            self.unknown(path[-1])
            return
        for t in (path[-1], alias):
            if t is not None:
                self.refer(t, meaning)
        self.code_bind((alias or path[-1]).text, meaning)

    def code_bind(self, name, meaning):
        """A name of code; a contract cannot call functions, and sees the others too."""
        self.code.bind(name, meaning)
        if getattr(meaning, "kind", "") != "function":
            self.ghosts.bind(name, meaning)
