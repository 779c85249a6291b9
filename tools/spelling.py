#!/usr/bin/env python3
"""Brings the repository's own names of definitions, laws and fields to the spelling of Rattle's library.

usage: tools/spelling.py        at the top, once, after the kit's port.py

    verdictNumber -> verdict_number       setOf-below -> set_of-below       length-is, a field -> length_is

Words are in snake case; a dash stays where it joins two names, as in a law's, and goes from fields and definitions. It
writes the .antt and .rt files of crates/, the edits and the documents, and says which names would fall together.
"""
import collections
import glob
import os
import re
import sys

ROOT = os.path.dirname(os.path.dirname(os.path.abspath(__file__)))
NAME = r"[^\s:(){}.,;λ→\[\]\"`«»@\\]+"
WORDS = r"(?:abbrev|unfoldable|pub|opaque|record|data)"
DECLARED = re.compile(rf"^\s*(?:\|\s*)?((?:{WORDS}\s+)*)({NAME})\s*(?:\{{[^}}]*\}}\s*|\([^)]*\)\s*)*:\s")
TOKEN = re.compile(r"[^\s(){}.,;:λ\[\]\"`«»@\\|/]+")
OF_STD = re.compile(r"use (?:Rattle\.std|borrow|mathlib|lib|native|Prim|base|denote)\b[^{]*\{([^}]*)\}")
# Library words that older names of laws still cite in their older form, and definitions that end otherwise than by rule.
HEADS = {"getD": "get_or"}
# Names that the rule would make fall together with another: what stands for them.
NAMED = {
    "Answer-of": "AnswerOf",
    "all_in": "all_in_lem",
    "constraints-in-range": "constraints_fit",
    "digits_number": "digits-number",
    "each_two": "each_two_lem",
    "elements-in-range": "elements_fit",
    "ends-ascend": "ends-ascend",
    "heldCount": "held_count_of",
    "heldItems": "held_items_of",
    "is-line": "is_a_line",
    "is-over": "is-over",
    "is_open": "is_open_lem",
    "kindsIn": "kinds_in_bytes",
    "oneLeft": "one_is_left",
    "oneMore": "one_more_of",
    "openMerges": "open_merges_of",
    "partSteps": "part_steps_of",
    "savedSteps": "saved_steps_of",
    "sheetIn": "sheet_in_columns",
    "size-bit": "size-bit",
    "with_each": "with_each_lem",
}


def snake(part):
    part = HEADS.get(part, part)
    if not re.match(r"[a-z]", part):
        return part
    return re.sub(r"(?<=[a-z0-9])([A-Z])", lambda it: "_" + it[1].lower(), part)


def names(files):
    """The declared names: of laws and others, of definitions, and of fields."""
    every, definitions, fields = set(), set(), set()
    for path in files:
        inside = None
        for line in open(path, encoding="utf-8"):
            if line.lstrip().startswith("--") or not line.strip():
                continue
            depth = len(line) - len(line.lstrip())
            if inside is not None and depth <= inside:
                inside = None
            found = DECLARED.match(line)
            if found and found[2] not in ("|", "let", "where"):
                every.add(found[2])
                if inside is not None:
                    fields.add(found[2])
                elif re.search("abbrev|unfoldable", found[1]):
                    definitions.add(found[2])
            if re.match(r"\s*(?:pub\s+)*(?:record|data)\s", line) and "where" in line:
                inside = depth
    return every, definitions, fields


def renamed(every, definitions, fields):
    turned = {}
    for name in every:
        new = "-".join(snake(part) for part in name.split("-"))
        if (name in fields or name in definitions) and "invariant-loop" not in name and "decreases-loop" not in name:
            new = new.replace("-", "_")
        new = NAMED.get(name, new)
        if new != name:
            turned[name] = new
    return turned


def main():
    antt = sorted(glob.glob(ROOT + "/crates/*/specs/**/*.antt", recursive=True))
    proofs = sorted(glob.glob(ROOT + "/crates/*/proofs/**/*.antt", recursive=True))
    every, definitions, fields = names(antt + proofs)
    of_std = set()
    for path in antt + proofs:
        for group in OF_STD.findall(open(path, encoding="utf-8").read()):
            of_std |= {it.strip().split(" ")[0] for it in group.split(",")}
    turned = {old: new for old, new in renamed(every, definitions, fields).items() if old not in of_std}
    by_new = collections.defaultdict(list)
    for old, new in turned.items():
        by_new[new].append(old)
    for new, olds in sorted(by_new.items()):
        there = (new in every and new not in turned) or new in of_std
        if len(olds) > 1 or there:
            print(f"look: {', '.join(sorted(olds))} -> {new}" + (", which is there" if there else ""))
    others = glob.glob(ROOT + "/crates/*/src/**/*.rt", recursive=True) + glob.glob(ROOT + "/crates/*/must-fail/*.edit")
    pages = glob.glob(ROOT + "/*.md") + glob.glob(ROOT + "/docs/*.md")
    of_code = set()
    for path in glob.glob(ROOT + "/js/*") + glob.glob(ROOT + "/python/*.py") + glob.glob(ROOT + "/page/src/*"):
        if os.path.isfile(path):
            of_code |= set(re.findall(r"\w+", open(path, encoding="utf-8", errors="replace").read()))
    changed = 0
    for path in antt + proofs + others + pages:
        text = open(path, encoding="utf-8").read()
        page = path.endswith(".md")

        def turn(it):
            word = it[0]
            if page and (word in of_code or word not in turned):
                return word
            # A page's word is a name only where it cannot be an English one.
            if page and not re.search(r"[a-z][A-Z]", word):
                return word
            return turned.get(word, word)

        new = TOKEN.sub(turn, text)
        if new != text:
            open(path, "w", encoding="utf-8").write(new)
            changed += 1
    print(f"{len(turned)} names in {changed} files")


if __name__ == "__main__":
    sys.exit(main())
