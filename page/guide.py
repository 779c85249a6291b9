"""Prints what the page takes from the guide, as JSON: the words on each verdict, and the examples with their texts.

The words are docs/GUIDE.md's own, the texts those of examples/text: neither stands a second time anywhere."""

import json
import os
import re

ROOT = os.path.dirname(os.path.dirname(os.path.abspath(__file__)))
#: What the page shows beside the verdicts: the headings of the guide, by the names that the page has for them.
CHAPTERS = {
    "count": "The five verdicts",
    "refused": "When something is refused",
    "warnings": "What a verdict does not say",
    "steps": "Step by step",
    "rules": "Taking over saved plans",
    "mistakes": "Common mistakes",
}
SPAN = re.compile(r"`([^`]+)`|\*\*([^*]+)\*\*|!?\[([^\]]*)\]\([^)]*\)")


def read(*path):
    """A file of the repository as text."""
    with open(os.path.join(ROOT, *path), encoding="utf-8") as file:
        return file.read()


def spans(text):
    """A line of the guide as pieces: plain, code or bold; of a link the words."""
    pieces, at = [], 0
    for found in SPAN.finditer(text):
        pieces.append(["text", text[at : found.start()]])
        code, bold, link = found.groups()
        kind = "code" if code else "bold" if bold else "text"
        pieces.append([kind, code or bold or link])
        at = found.end()
    pieces.append(["text", text[at:]])
    return [piece for piece in pieces if piece[1]]


def blocks(lines):
    """A section as blocks: paragraphs, lists, code, tables and pictures, by the name of their example."""
    found = []
    for block in re.split(r"\n\s*\n", "\n".join(lines)):
        rows = [row for row in block.split("\n") if row.strip()]
        if not rows:
            continue
        first = rows[0].strip()
        picture = re.match(r"!\[([^\]]*)\]\(pictures/([\w-]+)\.svg\)", first)
        if picture:
            for row in rows:
                picture = re.match(r"\s*!\[([^\]]*)\]\(pictures/([\w-]+)\.svg\)", row)
                found.append({"kind": "example", "name": picture[2], "title": picture[1]})
        elif all(row.startswith("    ") for row in rows):
            found.append({"kind": "code", "text": "\n".join(row[4:] for row in rows)})
        elif first.startswith("|"):
            cells = [[spans(cell.strip()) for cell in row.strip().strip("|").split("|")] for row in rows]
            found.append({"kind": "table", "rows": [cells[0], *cells[2:]]})
        elif first.startswith("- "):
            items = re.split(r"\n- ", "\n" + "\n".join(rows))[1:]
            found.append({"kind": "list", "items": [spans(" ".join(item.split())) for item in items]})
        else:
            found.append({"kind": "words", "spans": spans(" ".join(" ".join(rows).split()))})
    return found


def sections(guide):
    """The sections of the guide by their headings, in order."""
    found, heading = {}, None
    for line in guide.split("\n"):
        title = re.match(r"#+ (.*)", line)
        if title:
            heading = title[1]
            found[heading] = []
        elif heading:
            found[heading].append(line)
    return {heading: blocks(lines) for heading, lines in found.items()}


def examples(guide, chapters):
    """The examples in the order of the guide, and the text with mistakes that it mends."""
    folder = os.path.join(ROOT, "examples", "text")
    names = {name[: -len(".txt")] for name in os.listdir(folder) if name.endswith(".txt")}
    found = []
    for heading, content in chapters.items():
        for block in content:
            if block["kind"] == "example" and block["name"] in names:
                names.remove(block["name"])
                text = read("examples", "text", block["name"] + ".txt")
                found.append({"name": block["name"], "title": block["title"], "heading": heading, "text": text})
    if names:
        raise SystemExit(f"docs/GUIDE.md shows no picture of {', '.join(sorted(names))}")
    mended = re.search(r"printf '([^']*)' \| pattern check -", guide)
    text = mended[1].replace("\\n", "\n")
    found.append({"name": "mistakes", "title": CHAPTERS["refused"], "heading": CHAPTERS["refused"], "text": text})
    return found


def main():
    guide = read("docs", "GUIDE.md")
    chapters = sections(guide)
    verdicts = {}
    for name in ("well", "under", "over", "stuck", "angle"):
        heading = next(heading for heading in chapters if heading.startswith(name + ": "))
        verdicts[name] = {"title": heading, "blocks": chapters[heading]}
    told = {name: {"title": heading, "blocks": chapters[heading]} for name, heading in CHAPTERS.items()}
    answer = {"verdicts": verdicts, "chapters": told, "examples": examples(guide, chapters)}
    print(json.dumps(answer, ensure_ascii=False, separators=(",", ":")).replace("<", "\\u003c"))


if __name__ == "__main__":
    main()
