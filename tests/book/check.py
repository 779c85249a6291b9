"""Makes the book and looks at it: no name without a place, no dead link, no request to anywhere else. check.py
[FOLDER]"""

import gc
import html
import os
import posixpath
import re
import sys
import time
from urllib.parse import unquote

ROOT = os.path.dirname(os.path.dirname(os.path.dirname(os.path.abspath(__file__))))
sys.path.insert(0, os.path.join(ROOT, "book"))
import antt  # noqa: E402
import book  # noqa: E402
import names  # noqa: E402
import promises  # noqa: E402
import rattle  # noqa: E402

TAG = re.compile(r"<[a-zA-Z][^>]*>")
ID = re.compile(r'\sid="([^"]*)"')
LINK = re.compile(r'\s(?:href|src)="([^"]*)"')
failed = []


def must(holds, what):
    if not holds:
        failed.append(what)


def read_pages(folder):
    """Each page by its path: its text, its anchors and its links."""
    pages = {}
    for where, _, names in os.walk(folder):
        for name in names:
            path = posixpath.relpath(os.path.join(where, name), folder)
            pages[path] = ("", set(), [])
            if name.endswith(".html"):
                with open(os.path.join(where, name), encoding="utf-8") as file:
                    text = file.read()
                tags = TAG.findall(text)
                anchors = {html.unescape(i) for t in tags for i in ID.findall(t)}
                pages[path] = (text, anchors, [html.unescape(i) for t in tags for i in LINK.findall(t)])
    return pages


def links_live(pages):
    """Every link leads to a page, and to an anchor on it; none leads outside."""
    count = 0
    for path, (_, _, links) in pages.items():
        for link in links:
            count += 1
            must(not re.match(r"[a-z]+:|//", link), f"{path}: {link} leads outside")
            target, _, anchor = link.partition("#")
            to = posixpath.normpath(posixpath.join(posixpath.dirname(path), unquote(target))) if target else path
            if to not in pages:
                failed.append(f"{path}: {link}: no such page")
            elif anchor and unquote(anchor) not in pages[to][1]:
                failed.append(f"{path}: {link}: no such anchor")
    return count


def wrong_name_seen(house, path, old, new):
    """A name that is declared nowhere is counted: the source at a path, with one word changed."""
    file = house.files[path]
    must(old in file.text, f"{path}: {old} does not stand there")
    kept = dict(vars(file))
    file.text = file.text.replace(old, new, 1)
    file.lines = file.text.split("\n")
    file.marks, file.decls, file.names, file.unresolved, file.anchors = [], [], {}, [], set()
    reader = (rattle if file.language == "rt" else antt).Reader(house, file)
    reader.declare()
    reader.resolve()
    must(len(file.unresolved) > 0, f"{path}: {new.strip()} for {old.strip()} is not seen")
    vars(file).update(kept)


def main():
    gc.disable()
    began = time.process_time()
    folder = os.path.abspath(sys.argv[1] if len(sys.argv) > 1 else os.path.join(ROOT, "target/book"))
    made = book.write(folder)
    took = time.process_time() - began
    house = made.house
    for path, line, name in house.unresolved:
        failed.append(f"{path}:{line}: {name} leads nowhere")
    for name in made.lost:
        failed.append(f"docs/PROMISES.md: {name} leads nowhere")

    pages = read_pages(folder)
    count = links_live(pages)
    for path, (text, _, _) in pages.items():
        must(not re.search(r'class="u"', text), f"{path}: a name that leads nowhere")

    # every source has its page, every declaration its anchor, every believed definition a place in the reading order
    for file in house.files.values():
        anchors = pages.get(file.path + ".html", ("", set(), []))[1]
        for decl in file.decls:
            must(decl.anchor in anchors, f"{file.path}: {decl.name} has no anchor")
    must(f"<b>{house.count} lines</b>" in pages["believe.html"][0], "the count of what must be believed")
    must(
        len(made.read) == len(house.believed),
        f"{len(made.read)} of {len(house.believed)} definitions in the reading order",
    )

    # every name in the promises is a link, and each promise, entry point, wrong program and crate has its page
    chapter = pages["docs/PROMISES.html"][0]
    for code in re.findall(r"<code>([^<]*)</code>", chapter):
        must(not names.is_name(html.unescape(code)), f"docs/PROMISES.md: {code} is no link")
    for row in made.rows:
        must(row.page in pages, f"no page for {row.texts[0]}")
        labelled = row.head[0] == "field" or len(row.head) > 1 and "\n- " not in "".join(row.texts)
        must(labelled, f"docs/PROMISES.md: {row.texts[0]}: below it stands more than {', '.join(promises.LABELS)}")
    with open(os.path.join(ROOT, "include/pattern.h"), encoding="utf-8") as file:
        declared = set(re.findall(r"^\w+ \*?(pattern_\w+)\(", file.read(), re.M))
    must(declared == {e.name for e in made.entries}, f"entry points: {declared ^ {e.name for e in made.entries}}")
    for entry in made.entries:
        must(entry.inner is not None, f"{entry.name}: no function of Rattle behind it")
    for edit in made.edits.values():
        must(edit.page in pages and edit.function is not None, f"{edit.label}: nothing that it edits")

    # a name that is declared nowhere would be seen, of either language, in a term, a pattern, a contract and a use line
    laws = next(
        f for f in house.files.values() if f.language == "antt" and re.search(r"^use Rattle\.[^{]*\{", f.text, re.M)
    )
    brought = re.search(r"^use Rattle\.[^{]*\{([^,}\s]+)", laws.text, re.M)[1]
    wrong_name_seen(house, laws.path, "{" + brought, "{nowhere")
    ensured = "ensures { result ≡ "
    root = next(f for f in house.files.values() if f.language == "rt" and "    let " in f.text and ensured in f.text)
    wrong_name_seen(house, root.path, ensured, "ensures { nowhere ≡ ")
    wrong_name_seen(house, root.path, "    let ", "    nowhere(1); let ")

    for what in failed[:40]:
        print(what)
    print(f"the book: {len(pages)} files, {count} links, {len(failed)} faults, made in {took:.1f} s of a processor")
    return 1 if failed else 0


if __name__ == "__main__":
    sys.exit(main())
