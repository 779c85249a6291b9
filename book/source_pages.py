"""Sources as pages: what stands below each declaration, fields with several records, and what must be believed."""

import html

from house import Crate, Decl, File
from links import Links
from pages import escape, slug


class SourcePages(Links):
    def sources(self):
        """A page for each file, and one for the fields that several records have."""
        for file in self.house.files.values():
            self.site.source(file, self.below)
        page = "fields.html"
        out = [
            "<h1>Fields that several records have</h1><p>A field is written behind a dot; where its record cannot be "
            "told "
            "from the line, the link leads here.</p>"
        ]
        for name in sorted(self.site.many):
            out.append(f'<h3 id="{html.escape(name)}"><code>{escape(name)}</code></h3><ul>')
            for d in sorted(self.site.many[name].values(), key=lambda d: (d.file.path, d.line)):
                whole = f"{d.parent.name} .{d.name}" if isinstance(d.parent, Decl) else d.name
                where = f"{escape(d.file.crate.name)} {escape(d.file.module)}"
                out.append(f"<li><code>{self.site.ref(page, d, whole)}</code> {where}</li>")
            out.append("</ul>")
        self.site.write(page, "Fields", "\n".join(out), up=[("The house", "house/index.html")])

    def below(self, page, decl):
        """What stands below a declaration: the promises that name it, and who cites it."""
        out = [self.promised(page, decl, row) for row in self.about.get(decl, [])[:4]]
        by = {d for x in (decl, *decl.fields) for d in x.cited if d is not decl}
        if by:
            files = {}
            for d in sorted(by, key=lambda d: (d.file.crate.name, d.file.path, d.line)):
                files.setdefault(d.file, []).append(self.site.ref(page, d))
            items = "".join(
                f'<li><a class="m" href="{self.site.href(page, f)}">{escape(f.crate.name)} {escape(f.module)}</a>: '
                f'{", ".join(links)}</li>'
                for f, links in files.items()
            )
            out.append(
                f'<div class="below"><details><summary>cited by {len(by)}</summary><ul>{items}</ul></details></div>'
            )
        elif decl.kind in ("law", "definition") and "pub" in decl.marks:
            out.append('<div class="below">cited by no other declaration</div>')
        return "".join(out)

    def promised(self, page, decl, row):
        """A promise that names a declaration, with what else it names."""
        parts = [self.promise(page, row, 140)]
        for label, title in (("definition", "defined"), ("shown by", "shown by"), ("refused", "wrong programs")):
            meant = [m for m in row.names(label) if m is not decl and not isinstance(m, (File, Crate))]
            if meant:
                parts.append(f"<b>{title}</b> " + ", ".join(self.to(page, m) for m in meant[:12]))
        return f'<div class="promised">{"<br>".join(parts)}</div>'

    # ---- what must be believed

    def believe(self):
        """What must be believed, in the order in which it builds up."""
        page, files, self.read = "believe.html", {}, set()
        for (path, name), lines in self.house.believed.items():
            files.setdefault(path, []).append((name, lines))
        files = {self.house.files[path]: files[path] for path in self.reading_order(files)}
        out = [
            "<h1>What you must believe</h1><p>The contracts of the entry points cite definitions, and these cite "
            "others. They "
            f"are all that a reader has to take for the paper's meaning: <b>{self.house.count} lines</b> in "
            f"{len(files)} files, "
            "as <code>tests/definitions</code> counts them. Everything else is checked by the prover. They stand "
            "here in the "
            "order in which they build on each other: what is used comes before what uses it.</p><ol>"
        ]
        for file, names in files.items():
            title = f"{escape(file.crate.name)} {escape(file.module)}"
            out.append(
                f'<li><a href="#{slug(file.path)}">{title}</a> <small>{sum(n for _, n in names)} lines</small></li>'
            )
        out.append("</ol>")
        for file, names in files.items():
            title = self.link(page, file, f"{file.crate.name} {file.module}")
            out.append(f'<h2 id="{slug(file.path)}">{title}</h2><p>{escape(file.comment)}</p>')
            for name, _ in names:
                plain = (d for d in file.names.get(name, []) if d.kind not in ("field", "constructor"))
                decl = next(plain, None)
                if decl is not None and decl not in self.read:
                    self.read.add(decl)
                    comment = f'<i class="c">-- {escape(decl.comment)}</i>\n' if decl.comment else ""
                    code = self.site.decl_code(page, decl)
                    out.append(f'<section class="decl believed"><pre>{comment}{code}</pre></section>')
        self.site.write(page, "What you must believe", "\n".join(out))

    def reading_order(self, files):
        """The files of believed definitions, each behind those that its definitions cite."""
        cites = {path: set() for path in files}
        for path in files:
            for decl in self.house.files[path].tops:
                for by in decl.cited if decl.believed else ():
                    if by.believed and by.file.path != path and by.file.path in cites:
                        cites[by.file.path].add(path)
        order, seen, places = [], set(), list(files)

        def visit(path):
            if path not in seen:
                seen.add(path)
                for below in sorted(cites[path], key=places.index):
                    visit(below)
                order.append(path)

        for path in files:
            visit(path)
        return order
