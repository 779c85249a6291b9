"""Writes pages: the frame around each, and sources with their colours and links."""

import functools
import html
import os
import posixpath
import re
from urllib.parse import quote

from house import Crate, Decl, File

CLASSES = {"comment": "c", "string": "s", "number": "n", "word": "w", "kit": "x", "label": "b", "unknown": "u"}
SORTS = {"believed": "believed", "inner": "inner definition", "law": "law or proof", "program": "program"}
FOOT = [
    ("Contents", "index.html"),
    ("What you must believe", "believe.html"),
    ("Promises", "promises/index.html"),
    ("Entry points", "entries/index.html"),
    ("The house", "house/index.html"),
    ("Documents", "docs/index.html"),
]
PAGE = """<!doctype html>
<html lang="en"><head><meta charset="utf-8"><title>{title}</title>
<meta name="viewport" content="width=device-width, initial-scale=1"><link rel="stylesheet" href="{root}book.css">
<script defer src="{root}book.js"></script></head>
<body data-root="{root}" data-page="{page}" class="{kind}">
<header><nav>{trail}</nav><form role="search"><input id="q" type="search" placeholder="Search names and words  ( / )"
aria-label="Search" autocomplete="off"></form></header>
<div id="found" hidden></div>
<main>
{body}
</main>
<footer>{foot}</footer>
</body></html>
"""


def escape(text):
    return html.escape(text, quote=False)


def slug(text):
    """A text as a part of an address."""
    return re.sub(r"[^a-z0-9]+", "-", text.lower()).strip("-")[:60].strip("-") or "x"


def page_of(target):
    """The page, from the book's root, on which something stands."""
    if isinstance(target, File):
        return target.path + ".html"
    if isinstance(target, Decl):
        return target.file.path + ".html"
    return f"house/{target.name}.html" if isinstance(target, Crate) else target


@functools.lru_cache(None)
def quoted(anchor):
    return quote(anchor, safe="/+")


@functools.lru_cache(None)
def between(page, path):
    """The way from one page to another, nothing where they are the same."""
    return "" if path == page else quote(posixpath.relpath(path, posixpath.dirname(page) or "."), safe="/+")


def first_line(decl):
    """The line on which the comment of a declaration begins."""
    file, line = decl.file, getattr(decl, "first", decl.line)
    mark = "//" if file.language == "rt" else "--"
    while line >= 2 and file.lines[line - 2].lstrip().startswith((mark, "#[")):
        if re.match(r"\s*(--|//) ----", file.lines[line - 2]):
            break
        line -= 1
    return line


def sort(decl):
    """How a declaration looks: believed, an inner definition, a law or proof, a program."""
    if decl.file.language == "rt":
        return "program"
    if decl.believed:
        return "believed"
    return "inner" if decl.kind in ("definition", "record", "data") and decl.file.folder != "proofs" else "law"


def look(decl):
    """The class of a link by what it leads to."""
    believed = " B" if decl.believed else ""
    if decl.kind in ("constructor", "variant"):
        return "k" + believed
    if decl.kind == "field":
        return "f"
    if decl.file.language == "rt":
        return "p"
    return "d" + believed if believed or decl.kind in ("definition", "record", "data") else "l"


class Site:
    """The book as a folder of pages."""

    def __init__(self, folder, title):
        self.folder, self.title = folder, title
        self.pages, self.sections = {}, []  # page -> its title; what the search over words finds
        self.many = {}  # field name -> the fields that it can mean

    def href(self, page, target, anchor=None):
        """A link from a page to a target, as it stands in the page."""
        if anchor is None and isinstance(target, Decl):
            anchor = target.anchor
        return (between(page, page_of(target)) + ("#" + quoted(anchor) if anchor else "")) or "#"

    def write(self, page, title, body, kind="", up=()):
        """One page in its frame. `up` are the pages above it, as (title, page)."""
        path = os.path.join(self.folder, page)
        os.makedirs(os.path.dirname(path), exist_ok=True)
        link = lambda t, p: f'<a href="{self.href(page, p)}">{escape(t)}</a>'
        trail = " › ".join(link(t, p) for t, p in [(self.title, "index.html"), *up] if p != page)
        with open(path, "w", encoding="utf-8") as file:
            file.write(
                PAGE.format(
                    title=escape(title),
                    root="../" * page.count("/"),
                    page=html.escape(page),
                    kind=kind,
                    trail=trail,
                    body=body,
                    foot=" · ".join(link(t, p) for t, p in FOOT),
                )
            )
        self.pages[page] = title

    # ---- sources

    def ref(self, page, decl, text=None):
        """A link to a declaration."""
        return f'<a class="{look(decl)}" href="{self.href(page, decl)}">{escape(text or decl.name)}</a>'

    def code(self, page, file, start, end, own=False):
        """A stretch of a source with its colours and links; on the page of the file itself, with its anchors."""
        text, out, at = file.text, [], start
        for i in range(file.mark_at(start), len(file.marks)):
            s, e, cls, meaning = file.marks[i]
            if s >= end:
                break
            if s >= at and e <= end and cls != "local":
                out += (escape(text[at:s]), self.word(page, file, text[s:e], cls, meaning, own))
                at = e
        return "".join(out) + escape(text[at:end])

    def word(self, page, file, word, cls, meaning, own):
        """One word of a source, by what it means."""
        if cls == "decl" and own:
            anchor = f' id="{html.escape(meaning.anchor)}"' if meaning not in file.tops else ""
            return f'<b{anchor} class="{look(meaning)}">{escape(word)}</b>'
        if isinstance(meaning, list) and meaning[0].kind == "field":
            name = meaning[0].name
            self.many.setdefault(name, {}).update({id(d): d for d in meaning})
            return f'<a class="f" href="{self.href(page, "fields.html", name)}">{escape(word)}</a>'
        if isinstance(meaning, list):
            meaning = meaning[0]
        if isinstance(meaning, Decl):
            return (
                f'<a class="x" href="{self.href(page, meaning)}">{escape(word)}</a>'
                if cls == "made"
                else self.ref(page, meaning, word)
            )
        if isinstance(meaning, (File, Crate)):
            return f'<a class="m" href="{self.href(page, meaning)}">{escape(word)}</a>'
        if cls in ("kit", "module"):
            return f'<i class="x" title="{html.escape(str(meaning))}">{escape(word)}</i>'
        return f'<i class="{CLASSES[cls]}">{escape(word)}</i>'

    def decl_code(self, page, decl):
        """The source of one declaration, without its comment."""
        starts = decl.file.starts
        return self.code(page, decl.file, starts[getattr(decl, "first", decl.line) - 1], starts[decl.last]).rstrip()

    def source(self, file, below):
        """The page of a source: each declaration with what is said of it below."""
        page, tops, out, at = page_of(file), file.tops, [], 0
        for n, decl in enumerate(tops):
            begin = max(at, file.starts[first_line(decl) - 1])
            last = decl.last if n + 1 == len(tops) else min(decl.last, first_line(tops[n + 1]) - 1)
            end = file.starts[last]
            if end > begin:
                out.append(self.plain(page, file, at, begin))
                code = self.code(page, file, begin, end, True).rstrip()
                out.append(
                    f'<section id="{html.escape(decl.anchor)}" class="decl '
                    f'{sort(decl)}"><pre>{code}</pre>{below(page, decl)}</section>'
                )
                at = end
        out.append(self.plain(page, file, at, len(file.text)))
        self.sections.append((file.path, page, "", file.comment))
        key = " ".join(f'<span class="key {s}">{SORTS[s]}</span>' for s in SORTS if any(sort(d) == s for d in tops))
        title = f"{escape(file.module)} <small>{escape(file.crate.name)} · {escape(file.folder)}</small>"
        body = f"<h1>{title}</h1>\n<p>{key}</p>\n" + "\n".join(out)
        up = [("The house", "house/index.html"), (file.crate.name, page_of(file.crate))]
        self.write(page, f"{file.crate.name} {file.module}", body, "source", up)

    def plain(self, page, file, start, end):
        """What stands between declarations."""
        code = self.code(page, file, start, end, True).strip("\n")
        return f"<pre>{code}</pre>" if code.strip() else ""
