"""The documents as chapters, with their links, pictures and the names of ours in them."""

import html
import os
import posixpath
import re
import shutil

import promises
from house import ROOT
from links import CHAPTERS, Links, chapter_page
from markdown import Renderer
from pages import escape, slug

INDEX = "docs/index.html"


class Documents(Links):
    def documents(self):
        self.chapters = []
        for path in CHAPTERS:
            if os.path.exists(os.path.join(ROOT, path)):
                title = self.chapter(path)
                self.chapters.append((path, title))
        items = "".join(
            f"<li>{self.link(INDEX, chapter_page(p), t)} <small>{escape(p)}</small></li>" for p, t in self.chapters
        )
        self.site.write(INDEX, "Documents", f"<h1>Documents</h1><ul>{items}</ul>")

    def chapter(self, path):
        """One document; answers its title."""
        page = chapter_page(path)
        with open(os.path.join(ROOT, path), encoding="utf-8") as file:
            text = file.read()
        if path == promises.DOCUMENT:
            title, body = "Promises", self.promises_chapter(page)
        else:
            renderer = Renderer(
                lambda code: self.code_span(page, code),
                lambda target, label: self.document_link(path, page, target, label),
                lambda target, words: self.picture(path, page, target, words),
            )
            body = renderer.render(text)
            title = next((t for level, t, _ in renderer.headings if level == 1), os.path.basename(path))
            anchors = {t: a for _, t, a in renderer.headings}
            for part in re.split(r"\n(?=##? )", text):
                if name := re.match(r"\n*#+ (.*)", part):
                    heading = name[1].replace("`", "").strip()
                    words = " ".join(part.split())
                    self.site.sections.append(
                        (f"{heading} ({os.path.basename(path)})", page, anchors.get(heading, ""), words)
                    )
        self.site.write(page, title, body, "chapter", [("Documents", INDEX)])
        return title

    def promises_chapter(self, page):
        """The document of promises as it stands, every name in it a link."""
        out = ["<h1>Promises</h1>"]
        for section in self.sections:
            if section.title:
                out.append(f'<h2 id="{slug(section.title)}">{self.link(page, section.page, section.title)}</h2>')
            self.names.reset()
            self.names.about = self.names.records = section.about
            self.names.fields_meant = bool(section.rows) and section.rows[0].head[0] == "field"
            for block in section.blocks:
                told = isinstance(block, str)
                out.append(self.listed(page, self.names.pieces(block)) if told else self.promise_block(page, block))
        return "\n".join(out)

    def promise_block(self, page, row):
        """A promise as the document has it: the field and what it says, or the sentence and a list below it."""
        first = f"<strong>{self.words(page, row.pieces[0])}</strong>"
        if row.head[0] == "field":
            return self.listed(page, row.pieces[1], first + ": ")
        below = "".join(f"<li>{label}: {self.words(page, p)}</li>" for label, p in zip(row.head[1:], row.pieces[1:]))
        return f"<p>{first}</p><ul>{below}</ul>"

    # ---- links and pictures

    def document_link(self, path, page, target, label):
        """A link of a document: to its page in the book. What lies outside is named, and no link."""
        if re.match(r"https?:|mailto:", target):
            return (
                f"{label} (<code>{escape(target)}</code>)"
                if label != escape(target)
                else f"<code>{escape(target)}</code>"
            )
        name, _, anchor = target.partition("#")
        full = posixpath.normpath(posixpath.join(posixpath.dirname(path), name)) if name else path
        crate = self.house.crates.get(full.split("/")[1]) if full.startswith("crates/") else None
        if full in CHAPTERS:
            to = chapter_page(full)
        elif os.path.isfile(os.path.join(ROOT, full)):
            to = self.house.files.get(full) or self.copied(full)
        elif crate is not None:
            to = crate
        else:
            return label
        return f'<a href="{self.site.href(page, to, anchor or None)}">{label}</a>'

    def copied(self, path):
        """A file that a document leads to, beside the pages: a text as a page of its own, a picture as it is."""
        name = "files/" + path
        try:
            with open(os.path.join(ROOT, path), encoding="utf-8") as file:
                text = file.read()
        except UnicodeDecodeError:
            text = None
        if text is not None and not path.endswith((".svg", ".html")):
            if name + ".html" not in self.site.pages:
                body = f'<h1>{escape(path)}</h1><pre class="block">{escape(text)}</pre>'
                self.site.write(name + ".html", path, body, "file", [("Documents", INDEX)])
            return name + ".html"
        to = os.path.join(self.site.folder, name)
        os.makedirs(os.path.dirname(to), exist_ok=True)
        shutil.copyfile(os.path.join(ROOT, path), to)
        return name

    def picture(self, path, page, target, words):
        full = posixpath.normpath(posixpath.join(posixpath.dirname(path), target))
        if not os.path.isfile(os.path.join(ROOT, full)):
            return escape(words)
        return f'<img src="{self.site.href(page, self.copied(full))}" alt="{html.escape(words)}">'
