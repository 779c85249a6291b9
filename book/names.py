"""What a name in a document leads to, by what stands around it."""

import os
import re

from house import ROOT, Decl, File

SPAN = re.compile(r"`([^`]+)`")
FILE = re.compile(r"\b[A-Z][A-Za-z0-9]*(?:/[A-Z][A-Za-z0-9]*)*")
#: What may stand behind the name of a file.
BEHIND = re.compile(r"[.,;:|)]|$| by | and | or ")


def is_name(text):
    """Whether a span of code is a name, and not a path with a place to fill in, a type or a word of the language."""
    return not re.search(r"[\[\];*&]|\bNAME\b|\bX\b", text) and text not in ("requires", "ensures")


class Names:
    """Reads the names in a text. What was named before says which of several is meant."""

    def __init__(self, house, edits):
        self.house, self.edits = house, edits
        self.modules, self.anywhere = {}, {}  # files by the ends of their paths; declarations by their names
        self.about = []  # the records that the section is about
        for file in house.files.values():
            if file.language == "antt" and file.folder != "proofs":
                parts = file.module.split("/")
                for i in range(len(parts)):
                    self.modules.setdefault("/".join(parts[i:]), []).append(file)
            for decl in file.decls:
                if decl.kind != "helper":
                    self.anywhere.setdefault(decl.name, []).append(decl)
        self.reset()

    def reset(self):
        self.crate, self.file = None, None  # what was named last
        self.told = []  # the declarations and files that were named before
        self.records, self.fields_meant = [], False  # the records that are named, and whether it is about their fields

    def crates(self):
        """The crates that were named, the last one first."""
        told = [d if isinstance(d, File) else d.file for d in reversed(self.told)]
        return [c for c in [self.crate, *(f.crate for f in told), *(r.file.crate for r in self.about)] if c is not None]

    def module(self, name):
        """The file of that name: in a crate that was named, or the only one."""
        found = self.modules.get(name, [])
        found = [f for f in found if f.module == name] + [f for f in found if f.module != name]
        near = (f for crate in self.crates() for f in found if f.crate is crate)
        return next(near, found[0] if len(found) == 1 else None)

    # ---- spans of code

    def code(self, text, before, after=""):
        """What a span of code names, by the text right before and behind it. None where it names nothing."""
        behind = re.search(r"([A-Z][A-Za-z0-9/]*)\.$", before)
        if self.fields_meant and behind is None and not re.match(r" [A-Z]", after):
            if found := self.field_of(self.records, text):
                return found
        if text in self.house.crates and ("field" not in before or re.match(r" [A-Z]", after)):
            self.crate, self.file = self.house.crates[text], None
            if not re.search(r"[.,:/]$", before):
                return self.crate
        if text in self.edits:
            return self.edits[text]
        if text.endswith((".rt", ".antt")):
            own = f"crates/{self.crate.name}/{text}" if self.crate else ""
            return next((self.house.files[p] for p in (text, "crates/" + text, own) if p in self.house.files), None)
        if "/" in text and os.path.exists(os.path.join(ROOT, text)):
            return None
        if "::" in text:
            return self.item(*text.split("::"))
        if whole := re.fullmatch(r"([A-Z][\w/]*)\.(\S+)", text):
            return self.behind(whole[1], whole[2])
        return self.behind(behind[1], text) if behind and self.behind(behind[1], text) else self.nearest(text)

    @staticmethod
    def field_of(records, name):
        return next((d for record in records for d in record.fields if d.name == name), None)

    @staticmethod
    def within(file, name, fields=True):
        """The declaration of that name in a file; a field only where fields are meant too."""
        found = file.names.get(name, []) or file.names.get(f"◌{name}◌", [])
        found = [d for d in found if d.kind != "field"] or (found if fields else [])
        return found[0] if found else None

    def item(self, crate, name, inner=None):
        """An item of a crate or of a module in it: a function, a type, a variant."""
        self.crate, self.file = self.house.crates.get(crate, self.crate), None
        files = self.crate.files if crate in self.house.crates else []
        if files and inner and self.house.source_module(self.crate, name) is not None:
            name, inner = inner, None
        decl = next((d for f in files if f.language == "rt" for d in f.decls if d.name == name), None)
        if decl is not None:
            self.file = decl.file
        return self.field_of([decl], inner) or decl if decl is not None and inner else decl

    def behind(self, module, name):
        """A name behind a file and a dot, or a field behind its record."""
        file = self.module(module)
        if file is not None:
            self.file, self.crate = file, file.crate
            if found := self.within(file, name):
                return found
        return self.field_of(self.anywhere.get(module, []), name)

    def nearest(self, text):
        """A name alone: in the file that was named last, in the crates that were named, or anywhere; fields at last."""
        if self.file is not None and (found := self.within(self.file, text, False)):
            return found
        everywhere = self.anywhere.get(text, []) or self.anywhere.get(f"◌{text}◌", [])
        for fields in (False, True):
            for crate in self.crates():
                near = [d for d in everywhere if d.file.crate is crate and (d.kind == "field") is fields]
                near.sort(key=lambda d: (not d.believed, d.file.folder == "proofs", d.file.path.count("/")))
                if near:
                    return near[0]
        return next((d for d in everywhere if d.believed), everywhere[0] if everywhere else None)

    # ---- whole texts

    def pieces(self, text, lost=None):
        """A text in parts: (words, what they lead to or None, whether they are code). Names that lead nowhere are
        noted."""
        out, at = [], 0
        for m in SPAN.finditer(text):
            out += self.plain(text[at : m.start()])
            at = m.end()
            if " " in m[1]:
                words = re.findall(r"[^\s()]+|[\s()]+", m[1])
                out += [(w, self.code(w, "") if len(w) > 1 and w.strip(" ()") else None, True) for w in words]
                continue
            meaning = self.code(m[1], text[max(0, m.start() - 60) : m.start()], text[at : at + 3])
            if meaning is None and lost is not None and is_name(m[1]) and not os.path.exists(os.path.join(ROOT, m[1])):
                lost.append(m[1])
            if isinstance(meaning, Decl):
                self.told.append(meaning)
            out.append((m[1], meaning, True))
        return out + self.plain(text[at:])

    def plain(self, text):
        """Words outside of code: names of files lead to their pages."""
        out, at = [], 0
        for m in FILE.finditer(text):
            file = self.module(m[0]) if "/" in m[0] or self.crate is not None else None
            if file is None or text[m.start() - 1 : m.start()] in ('"', "'"):
                continue
            if "/" not in m[0] and (file.crate is not self.crate or not BEHIND.match(text[m.end() :])):
                continue
            out += [(text[at : m.start()], None, False), (m[0], file, False)]
            self.told.append(file)
            self.file, self.crate, at = file, file.crate, m.end()
        return out + [(text[at:], None, False)]
