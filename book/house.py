"""What the book is made from: the crates with their files, and every name that a file declares."""

import bisect
import itertools
import os
import re
import subprocess

ROOT = os.path.dirname(os.path.dirname(os.path.abspath(__file__)))


class Decl:
    """A declared name: where it stands, what is said of it, and who cites it."""

    def __init__(self, name, kind, file, token, parent=None):
        self.name, self.kind, self.file, self.parent = name, kind, file, parent
        self.line, self.start = token.line, token.start
        self.marks, self.comment, self.type, self.fields = set(), "", "", []
        self.cited, self.believed, self.last = set(), False, token.line
        self.goal = ""  # of an answer: what stands before the dot of the goal that it answers
        self.head, self.takes = "", []  # of a function: the head of its result, the types of its arguments
        self.signature = token.line  # the last line of its signature
        taken = file.anchors
        self.anchor = name
        while self.anchor in taken:
            self.anchor += "′"
        taken.add(self.anchor)

    def __repr__(self):
        return f"{self.file.path}:{self.line}: {self.name}"


class File:
    """A source: its text, its tokens, the names it declares, and what each stretch of it means."""

    def __init__(self, crate, path):
        self.crate, self.path = crate, path
        with open(os.path.join(ROOT, path), encoding="utf-8") as file:
            self.text = file.read()
        self.lines = self.text.split("\n")
        self.starts = [0, *itertools.accumulate(len(line) + 1 for line in self.lines)]  # where each line begins
        self.language = path.rsplit(".", 1)[1]
        self.anchors, self.decls, self.names = set(), [], {}
        self.begins, self.tops = None, []
        self.marks = []  # (start, end, class, meaning): the meaning a Decl, a list of them, or a word
        self.unresolved = []
        self.comment = ""
        inner = path.split("/")[2:]
        self.folder = inner[0]
        self.module = os.path.splitext("/".join(inner[1:]))[0]

    def declare(self, name, kind, token, parent=None):
        decl = Decl(name, kind, self, token, parent)
        decl.comment = self.comment_above(token.line)
        self.decls.append(decl)
        if parent is None or kind in ("constructor", "field"):
            self.names.setdefault(name, []).append(decl)
        return decl

    def mark_at(self, start):
        """The place of the first mark that begins at a place of the text or behind it."""
        if self.begins is None:
            self.begins = [m[0] for m in self.marks]
        return bisect.bisect_left(self.begins, start)

    def comment_above(self, line):
        """The lines of comment that stand right above a line."""
        said, at = [], line - 2
        mark = "//" if self.language == "rt" else "--"
        while at >= 0 and re.match(r"\s*#\[", self.lines[at]):
            at -= 1
        while at >= 0 and self.lines[at].lstrip().startswith(mark):
            text = self.lines[at].strip()[2:].strip()
            if text.startswith("----") or text.startswith("-- "):
                break
            said.append(text)
            at -= 1
        return " ".join(reversed(said))

    def head_comment(self):
        """The first comment of the file, which says what it is about."""
        mark, said = ("//" if self.language == "rt" else "--"), []
        for line in self.lines:
            if not line.startswith(mark):
                break
            said.append(line[2:].strip())
        return " ".join(said)


class Crate:
    """A crate: what it stands on, and its files."""

    def __init__(self, name, needs):
        self.name, self.needs = name, needs
        self.files, self.edits = [], []
        self.items = {}  # what other crates call it: name -> Decls
        self.below = set()


def crates():
    """The crates of crates.txt, with their files, in the order of their layers: what a crate needs comes before it."""
    listed = {}
    with open(os.path.join(ROOT, "crates.txt"), encoding="utf-8") as file:
        for line in file:
            line = line.split("#")[0].strip()
            if ":" in line:
                name, needs = line.split(":", 1)
                name = name.split()[0]  # behind it stands what it is built as
                listed[name] = Crate(name, needs.split())
    order, seen = [], set()

    def visit(name):
        if name in seen or name not in listed:
            return
        seen.add(name)
        for need in listed[name].needs:
            visit(need)
        order.append(listed[name])

    for name in listed:
        visit(name)
    for crate in order:
        for need in crate.needs:
            if need in listed:
                crate.below |= {need} | listed[need].below
        folder = os.path.join(ROOT, "crates", crate.name)
        for where, folders, files in os.walk(folder):
            folders[:] = sorted(f for f in folders if f != "out")  # what the tool makes
            for name in sorted(files):
                path = os.path.relpath(os.path.join(where, name), ROOT)
                if name.endswith((".antt", ".rt")):
                    crate.files.append(File(crate, path))
                elif name.endswith(".edit"):
                    crate.edits.append(path)
    return {crate.name: crate for crate in order}


def believed_names():
    """What tests/definitions says must be believed: (file, name) -> lines, in its order, and the sum."""
    command = [os.path.join(ROOT, "tests", "definitions"), "--names"]
    said = subprocess.run(command, check=True, capture_output=True).stdout.decode()
    found, file, total = {}, "", 0
    for line in said.splitlines():
        if match := re.match(r"^ {6} *(\d+)  (\S+)$", line):
            found[file, match[2]] = int(match[1])
        elif match := re.match(r"^ *(\d+)  lines$", line):
            total = int(match[1])
        elif match := re.match(r"^ *(\d+)  (\S+)$", line):
            file = match[2]
    return found, total
