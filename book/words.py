"""Tokens of antt, and its declarations by their columns."""

import re

RESERVED = set(
    "data record deriving module where use mod pub package using open as unfoldable abbrev axiom unfold unfolding "
    "ruleset mutual infix infixl "
    "infixr elim let in do λ ∀ Type 𝕀 𝔽 coe fcoe tcoe hcom com V vin vproj inS outS ∨ ∧".split()
)
SIGNS = set("→ : = × | ↦ ← _ [ ] ⊔ ⌜ ⌝ ∗".split())
TOKEN = re.compile(
    r'(?P<space>\s+)|(?P<block>\{-.*?-\})|(?P<comment>--(?=[\s-]|$)[^\n]*)|(?P<string>"(?:\\.|[^"\\])*")'
    r'|(?P<name>«[^»]*»|[^\s(){}.;,@"«»]+)|(?P<mark>.)',
    re.S,
)


class Token:
    """A word or a mark, and where it stands."""

    __slots__ = ("text", "start", "end", "line", "col", "first", "kind")

    def __init__(self, text, start, line, col, first, kind):
        self.text, self.start, self.end, self.line, self.col, self.first, self.kind = (
            text,
            start,
            start + len(text),
            line,
            col,
            first,
            kind,
        )


def tokens(text, start=0, end=None, line=1, mark=None):
    """The tokens of a text, or of a stretch of it; comments and quoted texts are marked and left out."""
    found, first, col0 = [], True, start
    for match in TOKEN.finditer(text, start, len(text) if end is None else end):
        kind, word = match.lastgroup, match.group()
        if kind == "space":
            if "\n" in word:
                first, col0 = True, match.start() + word.rindex("\n") + 1
                line += word.count("\n")
            continue
        if kind in ("comment", "block", "string"):
            if mark:
                mark(match.start(), match.end(), "comment" if kind != "string" else "string")
            if kind == "string":
                found.append(Token(word, match.start(), line, match.start() - col0, first, "string"))
                first = False
            line += word.count("\n")
            continue
        found.append(Token(word, match.start(), line, match.start() - col0, first, kind))
        first = False
    return found


def numeral(word):
    return word[0].isdigit() and re.fullmatch(r"0x[0-9a-f_]+|0b[01_]+|0o[0-7_]+|[0-9][0-9_]*", word) is not None


MARKS = ("unfoldable", "abbrev", "pub", "axiom", "local")


def items(toks):
    """A block's items: each begins at the column of the block's first token."""
    found, depth = [], 0
    if not toks:
        return found
    col = toks[0].col
    for t in toks:
        if t.first and t.col <= col and depth == 0 and t.text not in (")", "}", "]") or not found:
            found.append([])
        found[-1].append(t)
        depth += (t.text in ("(", "{", "[")) - (t.text in (")", "}", "]"))
    return found


def split_at(toks, word):
    """What stands before a word outside of brackets, and from it on; the second is None where it does not stand."""
    depth = 0
    for i, t in enumerate(toks):
        if t.kind == "mark":
            depth += (t.text in "({") - (t.text in ")}")
        if depth == 0 and t.text == word and t.kind == "name":
            return toks[:i], toks[i:]
    return toks, None


def bracket(toks, i):
    """The place of the bracket that closes the one at i."""
    depth = 0
    for j in range(i, len(toks)):
        if toks[j].kind == "mark":
            depth += (toks[j].text in "({") - (toks[j].text in ")}")
            if depth == 0:
                return j
    return len(toks) - 1


class Item:
    """One declaration, clause or line of a block."""

    def __init__(self, toks):
        self.all = toks
        i = 0
        while i < len(toks) and toks[i].text in MARKS and i + 1 < len(toks) and toks[i + 1].text != ":":
            i += 1
        self.marks, self.toks = toks[:i], toks[i:]
        self.decls, self.block, self.kind = [], [], "clause"
        head = self.toks[0].text if self.toks else ""
        if head in (
            "use",
            "mod",
            "module",
            "record",
            "data",
            "mutual",
            "infix",
            "infixl",
            "infixr",
            "unfolding",
            "open",
            "deriving",
            "ruleset",
        ):
            self.kind = head
        else:
            left, right = split_at(self.toks, ":")
            before, equals = split_at(self.toks, "=")
            if right is not None and (equals is None or len(left) < len(before)) and self.signs(left):
                self.kind = "signature"
        if self.kind in ("module", "record", "data", "mutual"):
            left, right = split_at(self.toks, "where" if self.kind != "mutual" else "mutual")
            self.head = left if self.kind != "mutual" else []
            self.where = right[0] if right else None
            self.block = [Item(x) for x in items(right[1:])] if right else []
        elif self.kind == "clause":
            left, right = split_at(self.toks, "where")
            self.body = left
            self.where = right[0] if right else None
            self.block = [Item(x) for x in items(right[1:])] if right else []

    @staticmethod
    def signs(left):
        depth = 0
        for t in left:
            if t.kind == "mark":
                if t.text not in "{},":
                    return False
                depth += (t.text == "{") - (t.text == "}")
        return bool(left) and left[0].kind == "name"
