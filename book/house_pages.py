"""The house: the crates in their layers as a picture, their sizes, and what an edit of each rechecks."""

from links import Links, shortened
from pages import escape, page_of, sort

INDEX = "house/index.html"
SORTS = {
    "code": "code",
    "believed": "believed definitions",
    "inner": "inner definitions",
    "laws": "laws",
    "proofs": "proofs of functions",
}
IMPORTS = ("use ", "pub use ", "ghost use ", "unfoldable pub use ", "pub mod ", "mod ")
#: The picture: how wide and high a crate is drawn, how far apart they stand, and how far the layers.
WIDTH, HEIGHT, GAP, LAYER = 118, 44, 14, 74


def sizes(crate):
    """Lines of a crate that say something: no comments, imports or blanks."""
    count = dict.fromkeys(SORTS, 0)
    for file in crate.files:
        comment = "//" if file.language == "rt" else "--"
        said = [
            n
            for n, line in enumerate(file.lines, 1)
            if line.strip() and not line.lstrip().startswith((comment, *IMPORTS))
        ]
        if file.language == "rt":
            count["code"] += len(said)
        elif file.folder == "proofs":
            count["proofs"] += len(said)
        else:
            kinds = {line: sort(d) for d in file.tops for line in range(d.line, d.last + 1)}
            for line in said:
                count[kinds[line] if kinds.get(line) in ("believed", "inner") else "laws"] += 1
    return count


class HousePages(Links):
    def layers(self):
        """The crates by height: each stands one above the highest that it needs."""
        height, rows = {}, {}
        for crate in self.house.crates.values():
            height[crate.name] = 1 + max((height[n] for n in crate.needs if n in height), default=-1)
            rows.setdefault(height[crate.name], []).append(crate)
        return rows

    def above(self, crate):
        """The crates that an edit of a crate rechecks, beside itself."""
        return [c for c in self.house.crates.values() if crate.name in c.below]

    def house_pages(self):
        count = {c.name: sizes(c) for c in self.house.crates.values()}
        titles = "".join(f"<th>{t}</th>" for t in ("crate", *SORTS.values(), "an edit of it rechecks"))
        number = lambda n: f'<td class="number">{n}</td>'
        body = []
        for c in self.house.crates.values():
            rechecked = number(f"{len(self.above(c)) + 1} crates")
            body.append(
                f"<tr><td>{self.to(INDEX, c)}</td>{''.join(map(number, count[c.name].values()))}{rechecked}</tr>"
            )
        sums = "".join(number(f"<b>{sum(c[k] for c in count.values())}</b>") for k in SORTS)
        body.append(f"<tr><th>all</th>{sums}{number(f'{len(self.house.crates)} crates')}</tr>")
        self.site.write(
            INDEX,
            "The house",
            (
                "<h1>The house</h1><p>The crates in their layers: each stands on those below it, to which lines "
                "lead. Under its name: lines "
                "of code, of believed definitions (a golden frame), and of all else that proves it. Click a crate "
                "for its files.</p>"
                f"{self.drawn(count)}<h2>Sizes, in lines without comments, imports and blanks</h2>"
                "<div "
                f'class="table"><table><thead><tr>{titles}</tr></thead><tbody>{"".join(body)}</tbody></table></div>'
            ),
        )
        for crate in self.house.crates.values():
            self.crate_page(crate, count[crate.name])

    def drawn(self, count):
        """The layers as a picture whose crates are links."""
        rows = self.layers()
        total, top = max(len(r) for r in rows.values()) * (WIDTH + GAP) + GAP, max(rows)
        places, lines, boxes = {}, [], []
        for height, crates in rows.items():
            left = (total - len(crates) * (WIDTH + GAP) + GAP) / 2
            for i, crate in enumerate(crates):
                places[crate.name] = (left + (i + 0.5) * (WIDTH + GAP) - GAP / 2, (top - height) * LAYER + 10)
        for crate in self.house.crates.values():
            (x, y), needs = places[crate.name], [n for n in crate.needs if n in places]
            for need in needs:
                if not any(need in self.house.crates[n].below for n in needs):
                    a, b = places[need]
                    curve = f"M{x:.0f} {y + HEIGHT} C{x:.0f} {y + HEIGHT + 18} {a:.0f} {b - 18} {a:.0f} {b}"
                    lines.append(f'<path d="{curve}" fill="none" stroke="currentColor" opacity=".22"/>')
            c = count[crate.name]
            frame = "--gold" if c["believed"] else "--pale"
            boxes.append(
                f'<a href="{self.site.href(INDEX, crate)}"><rect x="{x - WIDTH / 2:.0f}" y="{y}" width="{WIDTH}" '
                f'height="{HEIGHT}" rx="6" '
                f'fill="var(--shade)" stroke="var({frame})"/><text x="{x:.0f}" y="{y + 19}" '
                f'text-anchor="middle">{escape(crate.name)}</text>'
                f'<text x="{x:.0f}" y="{y + 35}" text-anchor="middle" opacity=".6">'
                f'{c["code"]} · {c["believed"]} · {c["inner"] + c["laws"] + c["proofs"]}</text></a>'
            )
        return (
            f'<div class="table"><svg viewBox="0 0 {total} {(top + 1) * LAYER}" width="{total}" role="img" '
            f'aria-label="The crates in their layers">{"".join(lines + boxes)}</svg></div>'
        )

    def crate_page(self, crate, count):
        page, out = page_of(crate), [f"<h1>{escape(crate.name)}</h1>"]
        root = next((f for f in crate.files if f.language == "rt"), None)
        if root is not None:
            out.append(f"<p>{escape(root.comment)}</p>")
        kit = '<code><i class="x" title="a crate of the kit">{}</i></code>'
        needs = [
            self.to(page, self.house.crates[n]) if n in self.house.crates else kit.format(escape(n))
            for n in crate.needs
        ]
        rechecked = ", ".join(self.to(page, c) for c in [crate, *self.above(crate)])
        out.append(f'<p>Stands on: {", ".join(needs) or "nothing"}.<br>An edit of it rechecks: {rechecked}.</p>')
        out.append(f'<p class="note">Lines: {", ".join(f"{title} {count[k]}" for k, title in SORTS.items())}.</p>')
        for folder in sorted({f.folder for f in crate.files}, key=lambda x: (x != "src", x == "proofs", x)):
            items = []
            for file in (f for f in crate.files if f.folder == folder):
                believed = sum(d.believed for d in file.tops)
                note = f' <span class="key believed">{believed} believed</span>' if believed else ""
                items.append(
                    f"<li>{self.link(page, file, file.module)}{note} <small>{escape(shortened(file.comment, 180))}</small></li>"
                )
            out.append(f'<h2>{escape(folder)}</h2><ul>{"".join(items)}</ul>')
        edits = [f"<li>{self.to(page, e)} {escape(e.comment)}</li>" for e in self.edits.values() if e.crate is crate]
        if edits:
            out.append(f'<h2>Wrong programs</h2><ul>{"".join(edits)}</ul>')
        self.site.write(page, crate.name, "\n".join(out), "crate", [("The house", INDEX)])
