#!/usr/bin/env python3
"""Makes the book, a site of static pages from the sources as they are: book.py [FOLDER], by default target/book."""

import base64
import gc
import json
import os
import re
import shutil
import sys
import time

import entries
import promises
import wrong
from documents import Documents
from entry_pages import EntryPages
from house import ROOT
from house_pages import HousePages
from links import chapter_page
from markdown import Renderer
from pages import Site, escape, page_of, slug
from promise_pages import PromisePages
from resolve import House
from source_pages import SourcePages

HERE = os.path.dirname(os.path.abspath(__file__))
TITLE = "The book of Pattern"


class Book(SourcePages, PromisePages, EntryPages, Documents, HousePages):
    """Everything that the pages are made from, and the pages."""

    def __init__(self, folder):
        self.house = House()
        self.edits = wrong.read(self.house)
        self.sections, self.names, self.lost = promises.read(self.house, self.edits)
        self.rows = [row for section in self.sections for row in section.rows]
        self.entries, self.rules = entries.read(self.house, self.names, self.sections, self.edits)
        self.site = Site(folder, TITLE)
        self.place()

    def make(self):
        self.sources()
        self.believe()
        self.promise_pages()
        self.wrong_pages()
        self.entry_pages()
        self.documents()
        self.house_pages()
        self.front()
        self.data()

    def front(self):
        """The first page: the ways into the book, and every promise."""
        page = "index.html"
        with open(os.path.join(ROOT, "README.md"), encoding="utf-8") as file:
            first = re.search(r"\n\n((?:[^#\n|`].*\n)+)", "\n\n" + re.sub(r"^#.*\n", "", file.read()))
        renderer = Renderer(
            lambda t: self.code_span(page, t), lambda t, label: self.document_link("README.md", page, t, label)
        )
        cards = [
            (
                "What you must believe",
                "believe.html",
                f"{self.house.count} lines of definitions, in the order in which they build on each other. All else "
                "is checked.",
            ),
            (
                "Promises",
                "promises/index.html",
                f"{len(self.rows)} sentences of the papers, each with its definition, theorem and wrong programs.",
            ),
            (
                "Entry points",
                "entries/index.html",
                f"{len(self.entries)} functions: prototype, contract, rules, promises, a call to try.",
            ),
            (
                "Wrong programs",
                "wrong/index.html",
                f"{len(self.edits)} programs that the prover refuses, each with an input on which it answers wrongly.",
            ),
            (
                "The house",
                "house/index.html",
                f"{len(self.house.crates)} crates in {len(self.layers())} layers, {len(self.house.files)} files.",
            ),
            ("Documents", "docs/index.html", "Readme, guide, format, trust, architecture, decisions."),
        ]
        out = [f"<h1>{TITLE}</h1>", f"<p>{renderer.inline(first[1].strip())}</p>" if first else ""]
        out.append(
            "<p>From each promise to its proof by clicks: the sentence, the definition that renders it, the theorem "
            "that shows "
            "it, the code that keeps it, and the wrong programs that are refused.</p>"
        )
        shown = (f"<li><h3>{self.link(page, to, title)}</h3><p>{words}</p></li>" for title, to, words in cards)
        out.append(f'<ul class="cards">{"".join(shown)}</ul>')
        for section in self.sections:
            if section.rows:
                title = self.link(page, section.page, section.title, slug(section.title))
                items = "".join(f"<li>{self.promise(page, r, 150)}</li>" for r in section.rows)
                out.append(f"<h2>{title}</h2><ul>{items}</ul>")
        calls = " · ".join(f"<code>{self.link(page, e.page, e.name)}</code>" for e in self.entries)
        chapters = " · ".join(self.link(page, chapter_page(p), t) for p, t in self.chapters)
        out.append(f"<h2>Entry points</h2><p>{calls}</p><h2>Documents</h2><p>{chapters}</p>")
        self.site.write(page, TITLE, "\n".join(out), "front")

    def data(self):
        """What search, hover, unfolding and the calls to try read, and the scripts."""
        pages, names, code = {}, [], {}
        for file in self.house.files.values():
            at = pages.setdefault(page_of(file), len(pages))
            for d in file.decls:
                whole = "\n".join(file.lines[d.line - 1 : d.last]) if d.kind in ("record", "data") else d.type
                names.append([d.name, d.kind, at, d.anchor, d.comment[:300], whole[:500], int(d.believed)])
            for decl in (d for d in file.tops if d.believed):
                text = self.site.decl_code("index.html", decl)
                code.update({f"{page_of(d)}#{d.anchor}": text for d in (decl, *decl.fields)})
        self.script("names", "BOOK", {"pages": list(pages), "names": names, "words": self.site.sections})
        self.script("code", "CODE", code)
        if self.wasm:
            with open(self.wasm, "rb") as module:
                self.script("wasm", "WASM", base64.b64encode(module.read()).decode())
        for name in ("book.css", "book.js", "try.js"):
            shutil.copyfile(os.path.join(HERE, name), os.path.join(self.site.folder, name))

    def script(self, name, variable, value):
        """Data as a script, which a page can load from a folder without a server."""
        folder = os.path.join(self.site.folder, "data")
        os.makedirs(folder, exist_ok=True)
        with open(os.path.join(folder, name + ".js"), "w", encoding="utf-8") as file:
            file.write(f"window.{variable}={json.dumps(value, ensure_ascii=False, separators=(',', ':'))};\n")


def write(folder):
    """Makes the book in a folder, in the place of what stands there."""
    shutil.rmtree(folder, ignore_errors=True)
    os.makedirs(folder)
    made = Book(folder)
    made.make()
    return made


def main():
    gc.disable()
    began = time.time()
    folder = os.path.abspath(sys.argv[1] if len(sys.argv) > 1 else os.path.join(ROOT, "target/book"))
    made = write(folder)
    lost = [f"{path}:{line}: {name}" for path, line, name in made.house.unresolved]
    lost += [f"{promises.DOCUMENT}: {name}" for name in made.lost]
    for place in lost:
        print(f"{place} leads nowhere")
    links = sum(m[2] in ("link", "made") for f in made.house.files.values() for m in f.marks)
    print(
        f"{os.path.relpath(folder)}/index.html: {len(made.site.pages)} pages, {links} names linked, {len(lost)} not "
        "resolved, "
        f"{time.time() - began:.1f} s"
    )
    return 1 if lost else 0


if __name__ == "__main__":
    sys.exit(main())
