"""docs/PROMISES.md: its promises, one by one, and what each name in them leads to."""

import os
import re

from house import ROOT, Decl
from names import Names

DOCUMENT = "docs/PROMISES.md"
#: What may stand below a promise.
LABELS = ("definition", "shown by", "refused")


class Edit:
    """A wrong program: a must-fail edit, what it says, and both answers on its input."""

    def __init__(self, crate, path):
        self.crate = crate
        self.label = crate.name + "/" + os.path.splitext(os.path.basename(path))[0]
        self.page = f"wrong/{self.label}.html"
        self.changes, self.inputs, self.answers, self.rows = [], [], [], []
        self.call, self.function = "", None  # what is called on its input, and the function that it edits
        said, changed = [], ""
        with open(os.path.join(ROOT, path), encoding="utf-8") as file:
            for line in file.read().split("\n"):
                word, _, rest = line.partition(" ")
                if word.startswith("#"):
                    said.append(line[1:].strip())
                elif word == "file:":
                    changed = rest
                elif word == "old:":
                    self.changes.append([rest, ""])
                elif word == "new:":
                    self.changes[-1][1] = rest
        self.comment, self.file, self.source = " ".join(said), changed, f"crates/{crate.name}/{changed}"


class Row:
    """A promise: its sentence, or a field and what it says, then what stands below it, and the names in each of
    these texts."""

    def __init__(self, block):
        first, *items = block.split("\n- ")
        bold, says = re.fullmatch(r"\*\*(.+?)\*\*:? ?(.*)", first).groups()
        self.head, self.texts, self.page = (["field", "says"], [bold, says], "") if says else (["sentence"], [bold], "")
        for item in items:
            label, _, text = item.partition(":")
            if label in LABELS:
                self.head.append(label)
                self.texts.append(text.strip())
            else:
                self.texts[-1] += "\n- " + item
        self.pieces, self.named = [], []  # for each text: its parts as Names.pieces gives them, and what it names

    def place(self, label):
        """The place of the text with that label, None where there is none."""
        return self.head.index(label) if label in self.head else None

    def names(self, label):
        i = self.place(label)
        return self.named[i] if i is not None else []


class Section:
    """A section of the document: its title, its promises, all its blocks with these among them, and the records that
    it is about."""

    def __init__(self, title):
        self.title, self.blocks, self.rows, self.about, self.page = title, [], [], [], ""


def sections_of(text):
    """The sections of the document. A block that begins in bold is a promise; a line goes on where no item of a list
    begins."""
    sections = [Section("")]
    for block in re.split(r"\n{2,}", text.strip()):
        block = re.sub(r"\n(?!- )\s*", " ", block)
        if block.startswith("## "):
            sections.append(Section(block[3:].strip()))
        elif block.startswith("**"):
            sections[-1].rows.append(Row(block))
            sections[-1].blocks.append(sections[-1].rows[-1])
        elif not block.startswith("# "):
            sections[-1].blocks.append(block)
    return sections


def records(told):
    return [d for d in told if isinstance(d, Decl) and d.kind == "record"]


def resolve(row, previous, names, about, lost):
    """Reads the names of a promise. What stands below the sentence is read first: it says which files the sentence
    means."""
    names.reset()
    names.pieces(" ; ".join(row.texts[1:]))
    told = records(reversed(names.told))
    names.reset()
    names.records = told
    names.fields_meant = row.head[0] == "field" or re.search(r"\bfields?\b", " ".join(row.texts)) is not None
    row.pieces = [None] * len(row.texts)
    for i in [*range(1, len(row.texts)), 0]:
        if i == 0 and row.head[0] == "field":
            names.records = about
        row.pieces[i] = names.pieces(row.texts[i], lost)
    row.named = [[m for _, m, _ in parts if m is not None] for parts in row.pieces]
    for i, text in enumerate(row.texts):
        if text.startswith("the same") and previous is not None:
            above = previous.names(row.head[i])
            row.named[i] = above + [n for n in row.named[i] if n not in above]


def read(house, edits):
    """The sections of the document, the reader of its names, and the names in it that lead nowhere."""
    with open(os.path.join(ROOT, DOCUMENT), encoding="utf-8") as file:
        sections = sections_of(file.read())
    names, lost = Names(house, edits), []
    for section in sections:
        names.reset()
        names.about, previous = [], None
        names.pieces(" ".join(block for block in section.blocks if isinstance(block, str)), lost)
        section.about = names.about = records(names.told)
        for row in section.rows:
            resolve(row, previous, names, section.about, lost)
            previous = row
    return sections, names, lost
