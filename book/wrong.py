"""The wrong programs: each must-fail edit as a diff, with its input and both answers."""

import os

from house import ROOT
from pages import escape
from promises import Edit

#: How many lines stand around a changed one.
AROUND = 3


def read(house):
    """Every edit by its label, with the inputs that tests/wrong keeps and the answers on them."""
    edits = {}
    for crate in house.crates.values():
        for path in crate.edits:
            edit = Edit(crate, path)
            edits[edit.label] = edit
    for label, rest in kept("inputs"):
        if label in edits:
            edits[label].inputs.append(rest)
    for label, rest in kept("answers"):
        if label in edits:
            edits[label].answers.append(rest.split("\t"))
    for edit in edits.values():
        edit.call = edit.inputs[0].split()[0] if edit.inputs else ""
        file = house.files.get(edit.source)
        for at in list(places(file, edit))[:1] if file else ():
            inside = [d for d in file.tops if getattr(d, "first", d.line) <= at + 1 <= d.last]
            edit.function = inside[-1] if inside else None
    return edits


def kept(name):
    """The lines of a file of tests/wrong: a label, and the rest."""
    path = os.path.join(ROOT, "tests/wrong", name)
    if os.path.exists(path):
        with open(path, encoding="utf-8") as file:
            for line in file:
                label, _, rest = line.rstrip("\n").replace("\t", " ", 1).partition(" ")
                if rest.strip() and not label.startswith("#"):
                    yield label, rest.strip()


def places(file, edit):
    """The lines that an edit changes, from 0: what each becomes."""
    found = {}
    for old, new in edit.changes:
        at = next((i for i, line in enumerate(file.lines) if old in line), None)
        if at is not None:
            found[at] = file.lines[at].replace(old, new, 1)
    return found


def changed(file, edit):
    """The lines that the edit changes, with some around them, as a diff."""
    found, out, last = places(file, edit), [], None
    for i, line in enumerate(file.lines):
        if any(abs(i - at) <= AROUND for at in found):
            if last is not None and i != last + 1:
                out.append('<i class="c">…</i>')
            last = i
            out.append(f'<i class="minus">- {escape(line)}</i>' if i in found else "  " + escape(line))
            if i in found:
                out.append(f'<i class="plus">+ {escape(found[i])}</i>')
    return "\n".join(out)


def parting(right, wrong):
    """Both answers, what is the same at their beginning in grey."""
    n = len(os.path.commonprefix([right, wrong]))
    shown = lambda x: f'<span class="same">{escape(x[:n])}</span><mark>{escape(x[n:]) or "(ends)"}</mark>'
    return shown(right), shown(wrong)


def body(site, house, page, edit):
    """A wrong program, as it stands on its own page and in others."""
    file = house.files.get(edit.source)
    where = escape(edit.source)
    if edit.function is not None:
        where += f" in {site.ref(page, edit.function, edit.crate.name + '::' + edit.function.name)}"
    out = [
        f"<p>{escape(edit.comment[:1].upper() + edit.comment[1:])}.</p>",
        f'<p class="note">{where}. The prover refuses it: the contract does not hold of it.</p>',
    ]
    if file is not None:
        out.append(f'<pre class="diff">{changed(file, edit)}</pre>')
    for i, words in enumerate(edit.inputs):
        rows = [("call, places lent, input", f"<code>{escape(words)}</code>")]
        if i < len(edit.answers) and len(edit.answers[i]) == 2:
            right, wrong = parting(*edit.answers[i])
            rows += [("proved answer", f"<code>{right}</code>"), ("wrong answer", f"<code>{wrong}</code>")]
        lines = "".join(f"<tr><th>{a}</th><td>{b}</td></tr>" for a, b in rows)
        out.append(f'<div class="table"><table class="answers">{lines}</table></div>')
    return "\n".join(out)
