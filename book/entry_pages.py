"""A page for each entry point: prototype, contract, rules, promises, wrong programs, and a call to try."""

import html
import json
import os
import re

import entries
from house import ROOT
from links import Links
from pages import escape

#: Where the library stands when it was made for WebAssembly.
WASM = [os.path.join(ROOT, "target/targets", path) for path in ("js/pattern.wasm", "wasm32/pattern.wasm")]
#: What stands in the fields of a call to try, by the name of the parameter.
EXAMPLES = {
    "sheet": "pppp 0-1 0-2 1-2 1-3 2-3",
    "record": "pppp 0-1 0-2 1-2 1-3",
    "plan": "0 1 2 3 4 5",
    "a": "7",
    "b": "14",
    "n": "5",
    "number": "6",
    "from": "0",
    "to": "3",
    "steps": "0",
    "first": "2",
    "second": "3",
    "map": "1",
    "size": "300",
    "held": "4",
    "opening": "1",
    "e": "3",
    "kinds": "0 0 0 0 0",
    "firsts": "0 0 1",
    "seconds": "1 2 2",
    "maps": "1 1 1",
    "sizes": "300 300 300",
    "prices": "1 1 1 1 1 1",
}
SHEET = re.compile(r"=?([plk]|c\d+)+( [\d:a-z-]+)+$")


class EntryPages(Links):
    def entry_pages(self):
        self.wasm = next((path for path in WASM if os.path.exists(path)), None)
        page = "entries/index.html"
        out = [f"<h1>Entry points</h1><p>What a program calls, as <code>{entries.HEADER}</code> declares it.</p><ul>"]
        for e in self.entries:
            out.append(f"<li><code>{self.link(page, e.page, e.name)}</code> {escape(e.comment.split('.')[0])}.</li>")
            self.site.write(e.page, e.name, self.entry(e), "entry", [("Entry points", page)])
            self.site.sections.append((e.name, e.page, "", e.comment))
        self.site.write(page, "Entry points", "\n".join(out) + "</ul>")

    def entry(self, e):
        page = e.page
        out = [f"<h1>{e.name}</h1>", f'<pre class="block">{escape(e.prototype)};</pre>']
        for text in re.split(r"\n\s*\n", e.comment):
            out.append(
                f'<pre class="block">{escape(text)}</pre>' if text.startswith("  ") else f"<p>{escape(text)}</p>"
            )
        out.append(
            "<h2>The contract, unfolded a step at a time</h2><p>Click a name with a golden line and its definition "
            "opens below; "
            f'every one is among {self.link(page, "believe.html", "what must be believed")}.</p>'
        )
        for decl, language in ((e.function, "for C"), (e.inner, "in Rattle")):
            if decl is not None:
                out.append(self.unfolded(page, decl, language))
        out.append(self.refusing(page, e))
        if e.rows:
            out.append(
                "<h2>Promises about it</h2><ul>"
                + "".join(f"<li>{self.promise(page, r)}</li>" for r in e.rows)
                + "</ul>"
            )
        if e.edits:
            out.append(f"<h2>Wrong programs that are refused because of it</h2>{self.wrongs(page, e.edits)}")
        return "\n".join(out) + self.call(page, e)

    def unfolded(self, page, decl, language):
        """The head of a function, and what its contract cites, each to be opened."""
        head = self.site.code(page, decl.file, decl.file.starts[decl.first - 1], decl.open).rstrip()
        name = self.to(page, decl, f"{decl.file.crate.name}::{decl.name}")
        out = [f'<div class="unfold"><p class="note">{language}: {name}</p><pre>{head}</pre>']
        for cited in entries.contract_names(decl):
            out.append(
                f'<details class="unfold"><summary>{self.to(page, cited)} {escape(cited.comment)}</summary>'
                f"<pre>{self.site.decl_code(page, cited)}</pre></details>"
            )
        return "".join(out) + "</div>"

    def refusing(self, page, e):
        """The rules that refuse a call, in their order, and what shows that no other does."""
        if not e.rules:
            return "<h2>No rule refuses it</h2><p>Every call gets an answer.</p>"
        out = ['<h2>The rules that refuse it, in the order in which they are tried</h2><ol class="rules">']
        for k in e.rules:
            name, says = self.rules.get(k, ("", ""))
            out.append(f'<li value="{k}"><code>{name}</code> {escape(says)}</li>')
        out.append("</ol>")
        if e.fields:
            fields = ", ".join(self.to(page, f, f"{f.parent.name} .{f.name}") for f in e.fields)
            short = " Rule 17 where the space is shorter than the answer." if 17 in e.rules else ""
            out.append(f'<p class="note">No other rule refuses it: {fields}.{short}</p>')
        return "".join(out)

    # ---- a call to try

    def call(self, page, e):
        """A call to try: by the proved library in the page where it was made for WebAssembly, and one whose answer
        is kept."""
        mine = [x for x in e.edits if x.answers and e in entries.called(x.call, self.entries)]
        out = [self.form(page, e, mine)] if self.wasm else []
        if mine:
            given, answer = mine[0].inputs[0], mine[0].answers[0][0]
            out.append(
                f'<p class="note">Kept from the tests: <code>{escape(given)}</code> answers '
                f"<code>{escape(answer[:300])}</code></p>"
            )
        return "<h2>A call to try</h2>" + "\n".join(out) if out else ""

    def form(self, page, e, mine):
        asked, given = e.parameters(), dict(EXAMPLES)
        # a sheet that a test calls it on, where it takes nothing else and is not refused
        told = [x.inputs[0].split(None, 2)[2:] for x in mine if not x.answers[0][0].startswith("refused")]
        sheets = [t[0] for t in told if t and SHEET.match(t[0]) and len(t[0]) < 90]
        if sheets and [p["name"] for p in asked if not p.get("out")] == ["sheet"]:
            given["sheet"] = sheets[0]
        sets = re.search(r"by number:[^.]*\bbit \w\s+for element", e.comment) is not None
        call = {
            "name": e.name,
            "parameters": asked,
            "rules": {k: says for k, (_, says) in self.rules.items()},
            "sets": sets,
        }
        out = [
            f'<form class="try" data-call="{html.escape(json.dumps(call))}">'
            '<p class="note">The proved library runs in this page, as WebAssembly.</p>'
        ]
        for p in asked:
            if p.get("out") and not p.get("record"):
                continue
            words = p["type"] + (" list" if p.get("list") else "")
            if p.get("sheet") or p.get("record"):
                words = (
                    "held first: " if p.get("record") else ""
                ) + "a sheet: p, l or c300 for each element, then its constraints"
            value = html.escape(given.get(p["name"], ""))
            out.append(f'<label>{p["name"]} <small>{words}</small><input name="{p["name"]}" value="{value}"></label>')
        out.append(f'<button>call {e.name}</button><output></output></form><script defer src="../try.js"></script>')
        return "".join(out)
