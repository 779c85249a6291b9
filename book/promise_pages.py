"""A page for each promise, one for each demand, and one for each wrong program."""

import re

import promises
import wrong
from house import Decl
from links import Links, sentence
from markdown import Renderer
from pages import escape, slug, sort

INDEX = "promises/index.html"


class PromisePages(Links):
    def place(self):
        """Gives each section and each row its page, and notes which rows name what."""
        taken, self.about = set(), {}
        for section in self.sections:
            demand = re.match(r"(Demand \d)", section.title)
            section.page = f"promises/{slug(demand[1] if demand else section.title)}.html"
            taken.add(section.page)
        for row in self.rows:
            name = slug(row.texts[0])
            while f"promises/{name}.html" in taken:
                name += "-"
            row.page = f"promises/{name}.html"
            taken.add(row.page)
            for meaning in (m for cell in row.named for m in cell):
                if isinstance(meaning, (Decl, promises.Edit)):
                    rows = meaning.rows if isinstance(meaning, promises.Edit) else self.about.setdefault(meaning, [])
                    if row not in rows:
                        rows.append(row)

    # ---- one promise

    def at_length(self, page, row, level=2):
        """A promise: the sentence, the definitions, the theorems with their proofs' ideas, the code, the wrong
        programs."""
        h, told = f"h{level}", set()
        out = [f"<blockquote><p>{self.words(page, row.pieces[0])}</p></blockquote>"]
        for label, title in (("says", "What it says"), ("definition", "Definition"), ("shown by", "Shown by")):
            i = row.place(label)
            if i is None:
                continue
            out.append(f"<{h}>{title}</{h}>{self.listed(page, row.pieces[i])}")
            for decl in (m for m in row.named[i] if isinstance(m, Decl)):
                whole = decl.parent if isinstance(decl.parent, Decl) else decl
                if whole not in told:
                    told.add(whole)
                    out.append(self.shown(page, whole))
        wrongs = [m for m in row.names("refused") if isinstance(m, promises.Edit)]
        i = row.place("refused")
        if wrongs:
            out.append(f"<{h}>Wrong programs that are refused</{h}>{self.wrongs(page, wrongs)}")
        elif i is not None:
            out.append(f"<{h}>Wrong programs that are refused</{h}><p>{self.words(page, row.pieces[i])}</p>")
        return "\n".join(out)

    def wrongs(self, page, edits):
        """Wrong programs, each to be opened."""
        return "\n".join(
            f"<details><summary>{self.to(page, e)}: "
            f"{escape(e.comment)}</summary>{wrong.body(self.site, self.house, page, e)}</details>"
            for e in edits
        )

    def shown(self, page, decl):
        """A declaration as a promise shows it: a definition whole, a theorem by its statement and its proof's idea, a
        function by its contract."""
        file, idea = decl.file, decl.comment
        if file.language == "rt":
            end = getattr(decl, "open", None) or file.starts[decl.last]
            code = self.site.code(page, file, file.starts[getattr(decl, "first", decl.line) - 1], end).rstrip()
        elif sort(decl) == "law":
            code = self.site.code(page, file, file.starts[decl.line - 1], file.starts[decl.signature]).rstrip()
            idea = f"{idea} The proof's idea: {file.comment}"
        else:
            code = self.site.decl_code(page, decl)
        where = f"{escape(file.crate.name)} {self.link(page, decl, file.module)}"
        return (
            f'<section class="decl {sort(decl)}"><pre>{code}</pre>'
            f'<div class="below"><span class="note">{where}</span> {escape(idea)}</div></section>'
        )

    # ---- pages

    def promise_pages(self):
        out = [
            "<h1>Promises</h1><p>What the papers promise, sentence by sentence: the definition that renders it, the "
            "theorem or "
            "contract that shows it, and the wrong programs that the prover refuses because of it.</p>"
        ]
        for section in self.sections:
            if section.rows:
                title = self.link(INDEX, section.page, section.title, slug(section.title))
                items = "".join(f"<li>{self.promise(INDEX, row, 200)}</li>" for row in section.rows)
                out.append(f"<h2>{title}</h2><ul>{items}</ul>")
        self.site.write(INDEX, "Promises", "\n".join(out))
        for section in self.sections:
            for n, row in enumerate(section.rows):
                self.promise_page(section, n, row)
        for page in dict.fromkeys(s.page for s in self.sections if s.rows):
            self.section_page(page, [s for s in self.sections if s.page == page])

    def promise_page(self, section, n, row):
        page, rows = row.page, section.rows
        links = [self.link(page, section.page, section.title, slug(section.title))]
        links += [self.link(page, rows[n - 1].page, "‹ before")] if n else []
        links += [self.link(page, rows[n + 1].page, "next ›")] if n + 1 < len(rows) else []
        body = f'<h1>{escape(sentence(row, 90))}</h1><p class="note">{" · ".join(links)}</p>{self.at_length(page, row)}'
        self.site.write(page, sentence(row, 80), body, "promise", [("Promises", INDEX)])
        self.site.sections.append((sentence(row, 120), page, "", " ".join(row.texts)))

    def section_page(self, page, sections):
        """The promises of a section, or of a demand, on one page, to be read from its top."""
        title = sections[0].title if len(sections) == 1 else re.match(r"Demand \d", sections[0].title)[0]
        body = [f"<h1>{escape(title)}</h1>"]
        for section in sections:
            tag = "h2" if len(sections) > 1 else "span"
            body.append(f'<{tag} id="{slug(section.title)}">{escape(section.title) if tag == "h2" else ""}</{tag}>')
            renderer = Renderer(code=lambda text: self.code_span(page, text))
            for block in section.blocks:
                if isinstance(block, str):
                    body.append(renderer.render(block))
                else:
                    body.append(f"<h3>{self.promise(page, block, 160)}</h3>{self.at_length(page, block, 4)}")
        self.site.write(page, title, "\n".join(body), "promise", [("Promises", INDEX)])

    def wrong_pages(self):
        page, crate = "wrong/index.html", None
        out = [
            f"<h1>Wrong programs</h1><p>{len(self.edits)} programs, each one edit away from the proved one, each "
            "refused by the "
            "prover. Each answers wrongly on the input that it names.</p>"
        ]
        for edit in self.edits.values():
            if edit.crate is not crate:
                out.append(
                    ("</ul>" if crate is not None else "") + f"<h2>{self.to(page, edit.crate, code=False)}</h2><ul>"
                )
                crate = edit.crate
            out.append(f"<li>{self.to(page, edit)} {escape(edit.comment)}</li>")
            self.wrong_page(edit)
        self.site.write(page, "Wrong programs", "\n".join(out) + "</ul>")

    def wrong_page(self, edit):
        page = edit.page
        body = f"<h1>{escape(edit.label)}</h1>" + wrong.body(self.site, self.house, page, edit)
        if edit.rows:
            body += (
                "<h2>Refused because of</h2><ul>"
                + "".join(f"<li>{self.promise(page, r)}</li>" for r in edit.rows)
                + "</ul>"
            )
        calls = [self.link(page, e.page, e.name) for e in self.entries if edit in e.edits]
        if calls:
            body += f"<h2>Entry points</h2><p><code>{', '.join(calls)}</code></p>"
        self.site.write(page, edit.label, body, "wrong", [("Wrong programs", "wrong/index.html")])
        self.site.sections.append((edit.label, page, "", edit.comment))
