"""What every kind of page needs: links to whatever has a page, and the words of a promise."""

import os
import re

from house import ROOT, Crate, Decl, File
from pages import escape

#: The chapters, where they stand; what is not there is left out.
CHAPTERS = [
    "README.md",
    "docs/GUIDE.md",
    "docs/FORMAT.md",
    "docs/EMBEDDING.md",
    "docs/PROMISES.md",
    "docs/TRUST.md",
    "docs/ARCHITECTURE.md",
    "docs/DECISIONS.md",
    "CONTRIBUTING.md",
    "CHANGELOG.md",
]


def chapter_page(path):
    return "docs/" + os.path.splitext(os.path.basename(path))[0] + ".html"


def sentence(row, most=None):
    """The words of a promise: its sentence, or the field that it is about and what it says."""
    text = row.texts[0] if row.head[0] == "sentence" else row.texts[0] + ": " + row.texts[1]
    text = re.sub(r"`([^`]*)`", r"\1", text.replace(":\n- ", ": ").replace("\n- ", "; "))
    return shortened(text[:1].upper() + text[1:], most)


def shortened(text, most):
    """A text, cut behind a word where it has more letters than so many."""
    return text if most is None or len(text) <= most else text[:most].rsplit(" ", 1)[0] + " …"


class Links:
    """Links to anything that has a page. Whoever uses them has `site`, `house`, `names`, `entries` and `edits`."""

    def link(self, page, target, words, anchor=None):
        return f'<a href="{self.site.href(page, target, anchor)}">{escape(words)}</a>'

    def to(self, page, meaning, text=None, code=True):
        """A link to a declaration, a file, a crate or a wrong program."""
        if isinstance(meaning, Decl):
            link = self.site.ref(page, meaning, text)
        elif isinstance(meaning, File):
            link = self.link(page, meaning, text or meaning.module)
        elif isinstance(meaning, Crate):
            link = self.link(page, meaning, text or meaning.name)
        else:
            link = self.link(page, meaning.page, text or meaning.label)
        return f"<code>{link}</code>" if code else link

    def promise(self, page, row, most=None):
        return self.link(page, row.page, sentence(row, most))

    def words(self, page, pieces):
        """A text in its words, every name a link."""
        out = []
        for text, meaning, code in pieces:
            if meaning is not None:
                out.append(self.to(page, meaning, text, code))
            else:
                out.append(self.code_span(page, text) if code else escape(text))
        return "".join(out).replace("</code><code>", "")

    def listed(self, page, pieces, opening=""):
        """A text in its words, as a paragraph behind its opening; its lines that begin with a stroke are a list."""
        first, *items = ("\n" + self.words(page, pieces)).split("\n- ")
        first, shown = opening + first.strip(), "".join(f"<li>{item}</li>" for item in items)
        return (f"<p>{first}</p>" if first else "") + (f"<ul>{shown}</ul>" if items else "")

    def code_span(self, page, text):
        """A span of code in a document: a link where it names something of ours."""
        entry = next((e for e in self.entries if e.name == text), None)
        if entry is not None:
            return f"<code>{self.link(page, entry.page, text)}</code>"
        if text in self.edits or text in self.house.crates:
            return self.to(page, self.edits.get(text) or self.house.crates[text])
        chapter = next(
            (c for c in (text, "docs/" + text) if c in CHAPTERS and os.path.exists(os.path.join(ROOT, c))), None
        )
        if chapter:
            return f"<code>{self.link(page, chapter_page(chapter), text)}</code>"
        meaning = self.house.files.get(text)
        if meaning is None and "/" in text and os.path.isfile(os.path.join(ROOT, text)):
            return f"<code>{self.link(page, self.copied(text), text)}</code>"
        if meaning is None and ("::" in text or re.fullmatch(r"[A-Z][\w/]*\.[\w-]+", text)):
            self.names.reset()
            meaning = self.names.code(text.rstrip("()"), "")
        return self.to(page, meaning, text) if meaning is not None else f"<code>{escape(text)}</code>"
