"""The entry points: their prototypes, contracts, rules, promises and wrong programs."""

import os
import re

from house import ROOT, Decl

HEADER = "include/pattern.h"
#: The crate whose functions a user of Rattle calls.
PUBLIC = "pattern"
COMMENT = r"/\*((?:[^*]|\*(?!/))*)\*/"
PROTOTYPE = re.compile(r"^(?:u?int\d+_t|void|size_t|pattern_\w+) \*?(pattern_\w+)\([^;{]*\);", re.M | re.S)


class Entry:
    """One function of the header."""

    def __init__(self, name, comment, prototype):
        self.name, self.prototype = name, prototype.rstrip(";")
        lines = [re.sub(r"^\s*\* ?", "", line) for line in comment.strip("\n").split("\n")]
        self.comment = "\n".join(lines).strip()
        self.short = name[len("pattern_") :]
        self.page = f"entries/{self.short}.html"
        self.function = self.inner = None  # the function for C, and the one of Rattle that it comes to
        self.through = []  # from the one to the other, both among them
        self.cited = []  # what their contracts cite
        self.rows, self.edits, self.rules, self.fields = [], [], [], []

    def parameters(self):
        """What the prototype takes: a list is a pointer and a length, and one that is not const is lent."""
        inside = re.search(r"\((.*)\)$", self.prototype, re.S)[1]
        words = [re.match(r"(const )?(\w+) (\*?)(\w+)$", " ".join(p.split())).groups() for p in inside.split(",")]
        found, i = [], 0
        while i < len(words):
            const, kind, star, name = words[i]
            one = {"name": name, "type": kind}
            if star:
                one["list"] = True
                if not const:
                    one.update(out=True, room=8192)
                if name == "sheet" or name == "record" and "sheet" not in [p["name"] for p in found]:
                    one[name] = True
            found.append(one)
            i += 2 if star else 1
        return found


def header():
    with open(os.path.join(ROOT, HEADER), encoding="utf-8") as file:
        return file.read()


def declared():
    """The functions that the header declares, in its order, each with the comment above it."""
    text = header()
    comments = list(re.finditer(COMMENT, text))
    bare = re.sub(COMMENT, lambda m: re.sub(r"[^\n]", " ", m[0]), text)
    found = []
    for m in PROTOTYPE.finditer(bare):
        above = [c for c in comments if c.end() <= m.start()]
        found.append(Entry(m[1], above[-1][1] if above else "", re.sub(r" +\n", "\n", m[0])))
    return found


def rule_names():
    """The rules of the header: number -> (name, what it says)."""
    body = re.search(r"enum pattern_rule \{(.*?)\n\};", header(), re.S)[1]
    found = re.finditer(r"(PATTERN_\w+)\s*=\s*(\d+),?\s*/\*(.*?)\*/", body, re.S)
    return {int(m[2]): (m[1], " ".join(m[3].split())) for m in found}


def contract_names(decl):
    """The names of ours that the contract of a function cites, in its order."""
    found = []
    for start, _, _, meaning in decl.file.marks:
        if decl.start < start < decl.open and isinstance(meaning, Decl):
            if meaning.file.language == "antt" and meaning not in found:
                found.append(meaning)
    return found


# ---- the rules that refuse


class Rules:
    """Reads the sets of rules that the record of refusals names."""

    def __init__(self, anywhere):
        self.anywhere = anywhere

    def definition(self, name):
        """The right side of an abbreviation of one clause."""
        for decl in self.anywhere.get(name, []):
            text = "\n".join(decl.file.lines[decl.line - 1 : decl.last])
            if m := re.search(r"^\s*" + re.escape(name) + r"(?: \w+)? = (.*)$", text, re.M):
                return m[1]
        return None

    @staticmethod
    def parts(text, sign):
        """A text, parted by a sign outside of brackets."""
        depth, out, last = 0, [], 0
        for i, c in enumerate(text):
            depth += (c == "(") - (c == ")")
            if depth == 0 and text.startswith(sign, i):
                out.append(text[last:i])
                last = i + len(sign)
        return out + [text[last:]]

    def set(self, text):
        """A set of rules, in the order in which it lists them."""
        text = text.strip()
        while text.startswith("(") and len(self.parts(text, " ")) == 1 and text.endswith(")"):
            text = text[1:-1].strip()
        if m := re.match(r"λ \w+\. (.*)$", text):
            return self.set(m[1])
        several = self.parts(text, "⊎")
        if len(several) > 1:
            return [k for part in several for k in self.set(part)]
        if m := re.match(r"Rule (\d+) (\d+)", text):
            return list(range(int(m[1]), int(m[2]) + 1))
        if m := re.match(r"But (\d+) (.*?)(?: k)?$", text):
            return [k for k in self.set(m[2]) if k != int(m[1])]
        if m := re.match(r"Among \w+ (.*)$", text):
            return self.list(m[1])
        if m := re.match(r"\w+ ≡ (\d+)$", text):
            return [int(m[1])]
        inner = self.definition(text.split()[0]) if text else None
        return self.set(inner) if inner else []

    def list(self, text):
        """A list of rules, as it is written."""
        text = text.strip()
        while text.startswith("(") and text.endswith(")"):
            text = text[1:-1].strip()
        if m := re.match(r"(\d+) ∷ (.*)$", text):
            return [int(m[1])] + self.list(m[2])
        inner = self.definition(text) if text != "[]" else None
        return self.list(inner) if inner else []


def tried(comment, others):
    """The rules that the words of the header list, in the order in which they are tried: "Tries rules 1 to 10, then
    17."."""
    said = re.search(r"\b(?:Tries (?:the )?rules?|Rules) (.*?)\.(?:\s|$)", comment, re.S)
    if not said:
        return []
    if name := re.match(r"of (pattern_\w+)", said[1]):
        return tried(others.get(name[1], ""), {})
    order = []
    for m in re.finditer(r"(\d+)(?:\s+to\s+(\d+))?", re.sub(r"\([^)]*\)", "", said[1])):
        order += [k for k in range(int(m[1]), int(m[2] or m[1]) + 1) if k not in order]
    return order


def in_order(listed, proved, names):
    """The rules that refuse, in the order in which they are tried: as the header lists them; what it does not list
    stands
    behind the rule that its own words name."""
    order = [k for k in listed if k in proved or not proved]
    for k in proved:
        if k not in order:
            after = re.search(r"\bafter (\d+)\b", names.get(k, ("", ""))[1])
            known = after and int(after[1]) in order
            order.insert(order.index(int(after[1])) + 1 if known else len(order) - (17 in order), k)
    return order


def refused(entry, refusals, rules):
    """The fields of the record of refusals that speak of an entry point, and the rules that they name."""
    fields, found = [], []
    for field in refusals.fields if refusals else []:
        by = re.search(r"\bBy (\([^()]*(?:\([^()]*\)[^()]*)*\)|\S+) \((\S+)", field.type)
        among = re.search(r"→ (\S+) [^→]*≡ \w+ k → (Among k .*)$", field.type)
        head, these = (by[2], by[1]) if by else (among[1], among[2]) if among else (None, None)
        if head and any(d.name == head for d in entry.cited):
            fields.append(field)
            found += [k for k in rules.set(these) if k not in found]
    return fields, found


# ---- all of it


def called(word, entries):
    """The entry points that a call of tests/wrong/inputs means."""
    word = word.removeprefix("c_")
    return [e for e in entries if e.short == word] or [e for e in entries if word and e.short.startswith(word + "_")]


def through(function, short):
    """From a function for C to the one that it comes to: each calls the next, of a crate that it needs, down to a crate
    that stands on no other of entry points."""
    found = [function]
    while len(found) == 1 or PUBLIC in found[-1].file.crate.below:
        last = found[-1]
        inside = [m[3] for m in last.file.marks if last.open < m[0] < last.end and isinstance(m[3], Decl)]
        calls = [d for d in inside if d.kind == "function" and d.file.crate.name in last.file.crate.needs]
        if not calls:
            break
        found.append(next((d for d in calls if d.name.removeprefix("pattern_").startswith(short)), calls[0]))
    return found


def read(house, names, sections, edits):
    """The entry points of the header, in its order, and the rules."""
    functions = {d.name: d for f in house.files.values() if f.language == "rt" for d in f.decls if d.kind == "function"}
    entries = [e for e in declared() if e.name in functions]
    rules, known, said = Rules(names.anywhere), rule_names(), {e.name: e.comment for e in entries}
    refusals = next((d for d in names.anywhere.get("Refusals", []) if d.kind == "record"), None)
    for entry in entries:
        entry.function = functions[entry.name]
        entry.through = through(entry.function, entry.short)
        entry.inner = entry.through[-1] if len(entry.through) > 1 else None
        entry.cited = list(dict.fromkeys(name for f in entry.through for name in contract_names(f)))
        entry.fields, proved = refused(entry, refusals, rules)
        listed = tried(entry.comment, said)
        # 17, and what the header's words single out, are not in the sets of the fields
        more = [k for k in listed if proved and k not in proved and (k == 17 or re.search(rf"\b{k} \(", entry.comment))]
        entry.rules = in_order(listed, proved + more, known)
    for entry in entries:
        own = {d for d in entry.cited if sum(d in e.cited for e in entries) <= 2} | set(entry.through)
        own |= {f for f in refusals.fields if f in entry.fields} if refusals else set()
        for row in (row for section in sections for row in section.rows):
            if any(n in own for cell in row.named for n in cell if isinstance(n, Decl)):
                entry.rows.append(row)
                entry.edits += [n for n in row.names("refused") if n in edits.values() and n not in entry.edits]
    for edit in edits.values():
        touched = [e for e in entries if edit.function is not None and edit.function in e.through]
        for entry in touched + called(edit.call, entries):
            if edit not in entry.edits:
                entry.edits.append(edit)
    return entries, known
