"""Reads files of antt, and contracts in files of Rattle: what is declared, and what each name means where it stands."""

from meanings import Constants, Kit, Local, Made, Module, Scope, Variants
from terms import Terms, deeper
from words import SIGNS, Item, bracket, items, split_at, tokens


class Reader(Terms):
    """Reads one file: first what it declares, then what each name means."""

    def __init__(self, house, file):
        self.house, self.file = house, file
        self.scope = None

    def mark(self, start, end, cls, meaning=None):
        self.file.marks.append((start, end, cls, meaning))

    # ---- what is declared

    def declare(self):
        file = self.file
        self.tokens = tokens(file.text, mark=self.mark)
        self.items = [Item(x) for x in items(self.tokens)]
        file.comment = file.head_comment()
        self.declare_block(self.items, None)

    def text_of(self, toks):
        return " ".join(self.file.text[toks[0].start : toks[-1].end].split()) if toks else ""

    def declare_block(self, block, parent):
        last = None
        for item in block:
            marks = {t.text for t in item.marks}
            if item.kind in ("module", "mutual"):
                self.declare_block(item.block, parent)
            elif item.kind in ("record", "data"):
                decl = self.file.declare(item.toks[1].text, item.kind, item.toks[1], None)
                decl.marks, decl.type = marks, self.text_of(item.all[len(item.marks) :])
                decl.last = item.all[-1].line
                item.decls = [decl]
                last = decl
                for sub in item.block:
                    if sub.kind == "signature":
                        left, right = split_at(sub.toks, ":")
                        for t in left:
                            if t.kind == "name":
                                inner = self.file.declare(
                                    t.text, "field" if item.kind == "record" else "constructor", t, decl
                                )
                                inner.type = self.text_of(sub.toks)
                                inner.head = right[1].text if len(right) > 1 and right[1].kind == "name" else ""
                                inner.last = sub.all[-1].line
                                decl.fields.append(inner)
                                sub.decls.append(inner)
                    elif sub.kind == "deriving":
                        t = sub.toks[-1]
                        sub.decls = [self.file.declare(t.text, "definition", t, None)]
            elif item.kind == "signature":
                left, right = split_at(item.toks, ":")
                t = left[0]
                decl = self.file.declare(t.text, "law", t, parent)
                decl.marks, decl.type = marks, self.text_of(item.toks)
                decl.last = item.all[-1].line
                decl.head, decl.takes, decl.signature = self.result(right), takes(right[1:]), decl.last
                decl.goal = right[1].text if len(right) == 4 and right[2].text == "." else ""
                if (
                    marks & {"abbrev", "unfoldable"}
                    or right[-1].text == "0"
                    and len(right) > 1
                    and right[-2].text == "Type"
                ):
                    decl.kind = "definition"
                item.decls = [decl]
                last = decl
            elif last is not None and item.kind in ("clause", "unfolding"):
                last.last = item.all[-1].line
                item.of = last

    @staticmethod
    def result(right):
        """The head of a signature's result: the word behind its last arrow outside of brackets."""
        depth, head, at = 0, None, True
        for t in right[1:]:
            if t.kind == "mark":
                depth += (t.text in "({") - (t.text in ")}")
            elif depth == 0:
                if t.text == "→":
                    at = True
                    continue
                if at:
                    head = t.text
            at = False if depth == 0 else at
        return head or ""

    # ---- what a name means

    def imports(self):
        """The scope of the file: what the language brings, what the use lines bring, and what the file declares."""
        scope = Scope(self.house.prelude)
        for item in self.items:
            if item.kind == "use":
                self.use(item.toks, scope)
            elif item.kind == "mod":
                t = item.toks[-1]
                child = self.house.file_at(
                    self.file.crate.name,
                    self.file.folder,
                    (self.file.module + "/" if self.file.module != "Lib" else "") + t.text,
                )
                if child is None:
                    self.unknown(t)
                else:
                    scope.bind(t.text, Module(child))
                    self.mark(t.start, t.end, "module", child)
        own = Scope(scope)
        for name, decls in self.file.names.items():
            plain = [d for d in decls if d.kind != "field"]
            if plain:
                own.bind(name, plain if len(plain) > 1 else plain[0])
        return own

    def use(self, toks, scope, bind=None):
        """A use line: marks its names and binds what it brings."""
        bind = bind or scope.bind
        self.mark(toks[0].start, toks[0].end, "word")
        group = next((i for i, t in enumerate(toks) if t.text == "{"), None)
        path = [t for t in toks[1 : group if group is not None else len(toks)] if t.kind == "name"]
        alias = None
        if group is None and len(path) > 2 and path[-2].text == "as":
            self.mark(path[-2].start, path[-2].end, "word")
            alias, path = path[-1], path[:-2]
        words = [t.text for t in path]
        if words and words[0] == "package":
            self.mark(path[0].start, path[0].end, "word")
            path, words = path[1:], words[1:]
        module = self.house.module(words, self.file)
        known = scope.find(words[0]) if module is None else None
        if known is not None:
            module = known
            for word in words[1:]:
                module = self.house.member(module, word, self.file)
        if module is None:
            for t in path:
                self.unknown(t)
            return
        self.mark(path[0].start, path[-1].end, "module", self.house.place(module))
        if group is None:
            bind((alias or path[-1]).text, module)
            if alias:
                self.mark(alias.start, alias.end, "module", self.house.place(module))
            return
        inner = [t for t in toks[group + 1 :] if t.kind == "name"]
        i = 0
        while i < len(inner):
            t = inner[i]
            meaning = self.house.member(module, t.text, self.file)
            if meaning is None:
                self.unknown(t)
                meaning = Kit("?")
            else:
                self.refer(t, meaning)
            name = t.text
            if i + 2 < len(inner) and inner[i + 1].text == "as":
                self.mark(inner[i + 1].start, inner[i + 1].end, "word")
                name = inner[i + 2].text
                self.refer(inner[i + 2], meaning)
                i += 2
            bind(name, meaning)
            i += 1

    def unknown(self, t):
        self.file.unresolved.append((t.line, t.text))
        self.mark(t.start, t.end, "unknown")

    def refer(self, t, meaning):
        """Marks a name by what it means."""
        if isinstance(meaning, Local):
            self.mark(t.start, t.end, "local")
        elif isinstance(meaning, Kit):
            self.mark(t.start, t.end, "kit", meaning.path)
        elif isinstance(meaning, Made):
            self.mark(t.start, t.end, "made", meaning.decl)
        elif isinstance(meaning, Module):
            self.mark(t.start, t.end, "module", meaning.file)
        elif isinstance(meaning, Variants):
            self.mark(t.start, t.end, "module", meaning.decl)
        elif isinstance(meaning, Constants):
            self.mark(t.start, t.end, "module", meaning.crate)
        else:
            self.mark(t.start, t.end, "link", meaning)

    def resolve(self):
        self.scope = self.imports()
        self.block(self.items, self.scope)

    def block(self, block, scope):
        for item in block:
            for t in item.marks:
                self.mark(t.start, t.end, "word")
            getattr(self, "item_" + item.kind, self.item_other)(item, scope)

    def item_use(self, item, scope):
        pass

    def item_mod(self, item, scope):
        self.mark(item.toks[0].start, item.toks[0].end, "word")

    def item_other(self, item, scope):
        """infix, unfolding, open, ruleset: a word, then names."""
        self.mark(item.toks[0].start, item.toks[0].end, "word")
        self.walk(item.toks[1:], scope)

    def item_open(self, item, scope):
        """open VALUE use {field, field as name, field.{field}}: the fields of a value, as names of the block."""
        at = next((i for i, t in enumerate(item.toks) if t.text == "use"), None)
        if at is None:
            self.item_other(item, scope)
            return
        self.mark(item.toks[0].start, item.toks[0].end, "word")
        self.walk(item.toks[1:at], scope)
        self.mark(item.toks[at].start, item.toks[at].end, "word")
        value = scope.find(item.toks[1].text) if at == 2 else None
        names = [t for t in item.toks[at + 1 :] if t.text != "*"]
        i = 0
        while i < len(names):
            t, after = names[i], names[i + 1].text if i + 1 < len(names) else ""
            if t.kind != "name":
                i += 1
                continue
            meaning = self.field(t, value) or Local()
            if after == "as" and i + 2 < len(names):
                self.mark(names[i + 1].start, names[i + 1].end, "word")
                self.mark(names[i + 2].start, names[i + 2].end, "local")
                i += 2
            if after != ".":
                scope.bind(names[i].text, meaning)
            i += 1

    def item_deriving(self, item, scope):
        self.mark(item.toks[0].start, item.toks[0].end, "word")
        for t in item.toks[1:]:
            if t.text == "as":
                self.mark(t.start, t.end, "word")
            elif item.decls and t is item.toks[-1]:
                self.mark(t.start, t.end, "decl", item.decls[0])
            else:
                self.mark(t.start, t.end, "kit", "Prim")

    def item_mutual(self, item, scope):
        self.mark(item.toks[0].start, item.toks[0].end, "word")
        self.block(item.block, scope)

    def item_module(self, item, scope):
        inner = Scope(scope)
        self.mark(item.toks[0].start, item.toks[0].end, "word")
        self.walk(item.head[1:], scope, into=inner)
        if item.where:
            self.mark(item.where.start, item.where.end, "word")
        self.block(item.block, inner)

    def item_record(self, item, scope):
        inner = Scope(scope)
        self.mark(item.toks[0].start, item.toks[0].end, "word")
        self.mark(item.toks[1].start, item.toks[1].end, "decl", item.decls[0])
        left, right = split_at(item.head[2:], ":")
        self.walk(left, scope, into=inner)
        if right:
            self.walk(right, inner)
        if item.where:
            self.mark(item.where.start, item.where.end, "word")
        for sub in item.block:
            for t in sub.marks:
                self.mark(t.start, t.end, "word")
            if sub.kind == "signature":
                left, right = split_at(sub.toks, ":")
                self.walk(right, inner)
                for t, decl in zip([t for t in left if t.kind == "name"], sub.decls):
                    self.mark(t.start, t.end, "decl", decl)
                    if item.kind == "record":
                        inner.bind(decl.name, decl)
            else:
                getattr(self, "item_" + sub.kind, self.item_other)(sub, inner)

    item_data = item_record

    def item_signature(self, item, scope):
        left, right = split_at(item.toks, ":")
        inner = Scope(scope)
        for i, t in enumerate(left):
            if t.kind == "name":
                if i == 0 and item.decls:
                    self.mark(t.start, t.end, "decl", item.decls[0])
                else:
                    inner.bind(t.text, Local())
                    self.mark(t.start, t.end, "local")
        self.walk(right, inner)

    def item_clause(self, item, scope):
        inner = Scope(scope)
        left, right = split_at(item.body, "=")
        of = getattr(item, "of", None)
        self.pattern(left, inner, of)
        if item.block:
            self.declare_helpers(item.block, inner)
        if right:
            self.walk(right, inner)
        if item.where:
            self.mark(item.where.start, item.where.end, "word")
            self.block(item.block, inner)

    def declare_helpers(self, block, scope):
        last = None
        for item in block:
            if item.kind == "signature":
                t = item.toks[0]
                left, right = split_at(item.toks, ":")
                decl = self.file.declare(t.text, "helper", t, "where")
                decl.type, decl.marks = self.text_of(item.toks), {x.text for x in item.marks}
                decl.head, decl.takes = self.result(right), takes(right[1:])
                item.decls = [decl]
                scope.bind(t.text, decl)
                last = decl
            elif item.kind == "clause":
                item.of = last


def takes(toks):
    """The types of the explicit arguments that a signature takes, in their order."""
    found, i = [], 0
    while i < len(toks):
        t = toks[i]
        if t.text == "{":
            i = bracket(toks, i) + 1
            continue
        if t.text == "→":
            i += 1
            continue
        if t.text == "(":
            end = bracket(toks, i)
            inner, k = toks[i + 1 : end], 0
            while k < len(inner) and inner[k].kind == "name" and inner[k].text not in SIGNS - {"_"}:
                k += 1
            if 0 < k < len(inner) and inner[k].text == ":":
                found += [inner[k + 1 :]] * k
                i = end + 1
                continue
        depth, end = 0, i
        while end < len(toks) and not (depth == 0 and toks[end].text == "→"):
            depth += deeper(toks[end])
            end += 1
        if end == len(toks):
            break
        found.append(toks[i:end])
        i = end
    return found
