"""Parts, plan, training room, files and print of the sketch page, with real mouse and keys; what is then on the screen is
compared with the command's answer on the same text: rooms.py [NAME..]"""

import json
import os
import random
import re
import sys
import tempfile

from driver import ROOT, Page, data, failed, must, pattern

TEXTS = os.path.join(ROOT, "examples", "text")
#: The elements and constraints in the drawing that a role lights.
LIT = """(role => {
    const found = kind => [...new Set([...document.querySelectorAll(`#canvas svg g .lit-${role}[data-${kind}]`)].map(n => n.dataset[kind]))].sort();
    return [found('element'), found('constraint')];
})"""


def example(name):
    with open(os.path.join(TEXTS, name + ".txt"), encoding="utf-8") as file:
        return file.read()


def lit(page, role):
    """What a role lights in the drawing: names, and numbers."""
    elements, constraints = page.ask(f"{LIT}({json.dumps(role)})")
    return set(elements), {int(number) for number in constraints}


def element(page, name):
    """Where an element can be clicked: a point at its dot, a line in its middle."""
    return page.ask(
        f"(() => {{ const g = document.querySelector(`#canvas g.element[data-element=${{CSS.escape({json.dumps(name)})}}]`);"
        "const r = (g.querySelector('.dot') ?? g.querySelector('.shape')).getBoundingClientRect();"
        "return [r.x + r.width / 2, r.y + r.height / 2]; })()"
    )


# ---- parts


def parts_of(page, name, text):
    """Every part has its row; the mouse on it shows what it holds and rests on, and lights just that."""
    files = {"sheet.txt": text}
    finding = data("check", "sheet.txt", files=files)["answer"]["files"][0]
    statements = [held["text"] for held in data("show", "sheet.txt", files=files)["answer"]["constraints"]]
    colours = [held["colour"] for held in data("scene", "sheet.txt", files=files)["answer"]["constraints"]]
    page.start(text)
    page.click("#tab-parts")
    rows = page.ask(
        "[...document.querySelectorAll('#panel-parts tr')].map(row => [row.querySelector('button').dataset.part, row.cells[2].textContent,"
        "getComputedStyle(row.querySelector('.swatch')).backgroundColor])"
    )
    wanted = [
        [str(part["number"]), " ".join(part["holds"]), "rgb({}, {}, {})".format(*bytes.fromhex(colours[part["rests_on"][0]][1:]))]
        for part in finding["clusters"]
    ]
    must(rows == wanted, f"{name}: the parts {rows} are {wanted}")
    for part in finding["clusters"][:12]:
        page.hover(f"#panel-parts button[data-part='{part['number']}']")
        told = page.texts("#part-detail .statements li")
        must(told == [statements[k] for k in part["rests_on"]], f"{name}: part {part['number']} rests on {told}")
        must(lit(page, "hover") == (set(part["holds"]), set(part["rests_on"])), f"{name}: part {part['number']} is lit")
    page.hover("#tab-parts")
    must(page.ask("store.lit.length") == 0, f"{name}: what is lit goes out")
    return finding["clusters"]


def parts(page):
    count = 0
    for name in ("gable", "frame", "lattice", "hipped", "leaded"):
        clusters = parts_of(page, name, example(name))
        count += len(clusters)
    # the frame: two parts, by mouse and by key, and what they share; the mouse on the drawing tells of parts too
    text = example("frame")
    files = {"sheet.txt": text}
    parts_of(page, "frame", text)
    page.click("#panel-parts button[data-part='1']")
    page.press("Tab", "Enter")
    shared = pattern("shared", "sheet.txt", "1", "2", files=files)[1].decode().strip()
    must(page.text("#part-detail .shared") == shared, f"parts 1 and 2 share {shared}")
    must(lit(page, "shared")[0] == set(shared.split()), "what two parts share is lit")
    page.click("#panel-parts button[data-part='1']")
    page.click("#panel-parts button[data-part='0']")
    none = pattern("shared", "sheet.txt", "0", "2", files=files)[1].decode().strip()
    must(page.text("#part-detail .shared") == none == "none", "parts that share nothing")
    page.click("#panel-parts button[data-part='0']")
    page.click("#panel-parts button[data-part='2']")
    page.hover(element(page, "B"))
    must(page.texts("#part-detail h3") == ["part 0", "part 1"], "the parts of the corner under the mouse")
    # two elements: the chain
    page.click(element(page, "A"))
    page.click(element(page, "C"), keys=8)
    page.hover("#tab-parts")
    chain = pattern("chain", "sheet.txt", "A", "C", files=files)[1].decode().rstrip()
    must(page.text("#part-detail .chain") == chain, f"the chain from A to C is {chain}, not {page.text('#part-detail')}")
    must(lit(page, "shared")[0] == {"A", "C"}, "the ends of the chain are lit")
    run = data("chain", "sheet.txt", "A", "C", files=files)["answer"]["clusters"]
    elements = {name for part in run for name in part["holds"]}
    constraints = {k for part in run for k in part["rests_on"]}
    must(lit(page, "hover") == (elements, constraints), "the parts of the chain are lit")
    # a sheet that is over has no parts, in the command's words
    page.start(example("braced"))
    page.click("#tab-parts")
    error = data("plan", "sheet.txt", files={"sheet.txt": example("braced")})["errors"][0]
    must(page.text("#part-detail") == f"{error['message']}; {error['hint']}", "why an over sheet has no parts")
    print(f"parts: {count} rows, each lit and told as the command tells it")


# ---- plan


def step_on_screen(page, name, step, statements):
    """A step is shown as the command tells it: words, parts, joint, placements, what is open, and what is lit."""
    place = step["place"]
    must(page.text("#step-words") == step["words"], f"{name}: the words of step {place}: {page.text('#step-words')}")
    rows = page.ask("[...document.querySelectorAll('.step .three tr')].map(row => [row.dataset.part, row.cells[2].textContent])")
    wanted = [
        [str(part["number"]), statements[part["number"]] if part["number"] < len(statements) else f"part {part['number']}: {' '.join(part['holds'])}"]
        for part in step["parts"]
    ]
    must(rows == wanted, f"{name}: the parts of step {place}: {rows}")
    must(page.text(".step .joint") == " ".join(step["joint"]), f"{name}: the joint of step {place}")
    ways = "not counted" if step["ways"] is None else str(step["ways"])
    must(page.text(".step .ways") == ways, f"{name}: the placements of step {place}")
    merges = [f"{' '.join(merge['joint'])} (parts {' '.join(map(str, merge['from']))})" for merge in step["next"]]
    must(page.texts(".step .merge") == merges, f"{name}: the merges open after step {place}")
    for i, part in enumerate(step["parts"]):
        must(lit(page, f"part{i}") == (set(part["holds"]), set(part["rests_on"])), f"{name}: part {i} of step {place} is lit")
    must(lit(page, "joint")[0] == set(step["joint"]), f"{name}: the joint of step {place} is lit")
    built = step["built"]
    must(lit(page, "built") == (set(built["holds"]), set(built["rests_on"])), f"{name}: what is built before step {place} is lit")


def plan_of(page, name, text):
    """The arrow keys go through the steps; the part for the saw and the report are the command's."""
    files = {"sheet.txt": text}
    answer = data("plan", "--words", "sheet.txt", files=files)["answer"]
    statements = [held["text"] for held in data("show", "sheet.txt", files=files)["answer"]["constraints"]]
    page.start(text)
    page.click("#tab-plan")
    must(page.holds("document.activeElement.id === 'step'"), f"{name}: the slider has the keys")
    must(page.text("#step-words").startswith("The whole"), f"{name}: the whole first")
    merges = [f"{' '.join(merge['joint'])} (parts {' '.join(map(str, merge['from']))})" for merge in answer["open"]]
    must(page.texts(".step .merge") == merges, f"{name}: the merges open before any step")
    for step in answer["steps"]:
        page.press("ArrowRight")
        step_on_screen(page, name, step, statements)
    # advice that is looked at meanwhile does not put the step out
    if page.ask("!!document.querySelector('#verdict .piece')"):
        page.hover("#verdict .piece")
        page.hover("#tab-plan")
        step_on_screen(page, name, answer["steps"][-1], statements)
    page.press("Home")
    must(page.ask("store.lit.length") == 0, f"{name}: the whole has nothing lit")
    page.press("End")
    for step in answer["steps"][-2:-1]:
        page.press("ArrowLeft")
        step_on_screen(page, name, step, statements)
    must(page.text("#report") == pattern("report", "sheet.txt", files=files)[1].decode(), f"{name}: the report")
    page.click("#for-saw summary")
    options = page.ask("[...document.querySelector('#saw').options].map(option => option.value)")
    made = [str(step["made"]) for step in answer["steps"]]
    must(set(made) <= set(options), f"{name}: every part can be chosen for the saw")
    for number in made[-3:]:
        page.ask("document.querySelector('#saw').focus()")
        page.press("Home")
        for _ in options:
            if page.ask("document.querySelector('#saw').value") == number:
                break
            page.press("ArrowDown")
        wanted = pattern("part", "--words", "sheet.txt", number, files=files)[1].decode()
        must(page.text("#sawn") == wanted, f"{name}: the steps of part {number}")
    return len(answer["steps"])


def saved_plan(page, folder, text, plan, title):
    """A saved plan is dropped beside its sheet; what the command says of it."""
    path = os.path.join(folder, title + ".plan")
    with open(path, "wb") as file:
        file.write(plan)
    page.start(text)
    before = page.sheet
    page.drop(path)
    page.holds("store.panel === 'plan'", 5)
    must(page.sheet == before, f"{title}: the sheet stays")
    files = {"sheet.txt": text, title + ".plan": plan}
    return data("verify", "--words", "sheet.txt", title + ".plan", files=files), files


def saved_plans(page, folder):
    text = example("gable")
    statements = [held["text"] for held in data("show", "sheet.txt", files={"sheet.txt": text})["answer"]["constraints"]]
    numbers = lambda steps: b"".join(number.to_bytes(2, "little") for step in steps for number in step)
    other = [(8, 7, 6), (5, 1, 4), (0, 2, 3), (12, 9, 10)]
    right = [(8, 7, 6), (5, 1, 4), (0, 2, 3), (9, 10, 11)]
    found, files = saved_plan(page, folder, text, numbers(right), "other-order")
    must(found["answer"]["refused"] is None and len(found["answer"]["steps"]) == 4, "a plan in another order is right")
    for step in found["answer"]["steps"]:
        page.press("ArrowRight")
        step_on_screen(page, "other-order", step, statements)
    must(page.text("#report") == pattern("verify", "sheet.txt", "other-order.plan", files=files)[1].decode(), "the report of a saved plan")
    must(page.ask("store.notice") is None, "a right plan is not complained about")
    page.click("#plan-away")
    must(page.text("#report") == pattern("report", "sheet.txt", files=files)[1].decode(), "put away, the plan is the sheet's again")
    # refused at a step, at a step of dimensions that do not close, at the end, and a plan that is none
    for title, plan in (
        ("dead", numbers(other)),
        ("open", numbers([(8, 7, 6), (0, 1, 5)])),
        ("early", numbers(right[:2])),
        ("cut", numbers(right)[:8]),
        ("text", b"8 7 6\n5 1 4\n0 2 9\n"),
        ("letters", b"one two three\n"),
    ):
        found, files = saved_plan(page, folder, text, plan, title)
        answer, errors = found["answer"], found["errors"]
        refused = answer["refused"] if answer else None
        wrong = (refused["errors"] if refused else errors)[0]
        words = f"{wrong['message']}; {wrong['hint']}" if wrong["hint"] else wrong["message"]
        if not answer:
            must(page.text("#notice pre").endswith(words), f"{title}: {words} is told, not {page.text('#notice')}")
            page.press("Escape")
            must(page.ask("document.querySelector('#notice').hidden"), f"{title}: Escape closes the notice")
            page.click("#tab-plan")
            must(page.text(".which") == "The plan of this sheet", f"{title}: no plan is taken")
            continue
        must(page.text("#step-words") == words, f"{title}: {words} is told, not {page.text('#step-words')}")
        if not refused["step"]:
            must(page.text("#panel-plan .refused") == words, f"{title}: the complaint stands at the end of the steps")
            continue
        must(page.ask("+document.querySelector('#step').value") == refused["step"], f"{title}: the slider is at step {refused['step']}")
        elements = {name for part in refused["parts"] for name in part["holds"]}
        constraints = {k for part in refused["parts"] for k in part["rests_on"]}
        must(lit(page, "refused") == (elements, constraints), f"{title}: the parts of the refused step are lit")
        page.click("#step")
        page.press("Home")
        for step in answer["steps"]:
            page.press("ArrowRight")
            step_on_screen(page, title, step, statements)


def plan(page):
    count = sum(plan_of(page, name, example(name)) for name in ("gable", "leaded", "light", "hip", "triangle"))
    page.start(example("gable"))
    page.click("#tab-plan")
    page.click("#step-play")
    must(page.holds("document.querySelector('#step').value === '3'", 8), "the steps are played")
    page.click("#step-play")
    at = page.ask("document.querySelector('#step').value")
    must(not page.holds(f"document.querySelector('#step').value !== '{at}'", 2), "and stop")
    with tempfile.TemporaryDirectory() as folder:
        saved_plans(page, folder)
    print(f"plan: {count} steps by the arrow keys, seven saved plans")


# ---- training room


def training(page):
    with open(os.path.join(ROOT, "docs", "GUIDE.md"), encoding="utf-8") as file:
        guide = file.read()
    page.start(example("frame"))
    page.click("#tab-training")
    names = page.ask("[...document.querySelectorAll('#examples button')].map(button => button.dataset.example)")
    known = {name[: -len(".txt")] for name in os.listdir(TEXTS)}
    must(set(names) == known | {"mistakes"}, f"the examples are {names}")
    for name in names:
        page.click(f"#examples button[data-example='{name}']")
        text = page.sheet
        must(name == "mistakes" or text == example(name), f"{name} is opened")
        verdict = data("check", "sheet.txt", files={"sheet.txt": text})["answer"]["files"][0]["status"]
        must(page.ask("document.querySelector('#verdict').dataset.verdict") == verdict, f"{name} is {verdict}")
        heading = page.text("#why h3")
        must(f"# {heading}\n" in guide and (verdict == "refused" or heading.startswith(verdict + ": ")), f"{name}: why is {heading}")
        # the guide's own words, without its marks
        first = re.sub(r"\s+", " ", re.sub(r"[`*]", "", guide.split(f"# {heading}\n")[1].strip().split("\n\n")[0]))
        must(page.text("#why p") == first, f"{name}: why is told in the guide's words")
    for name in reversed(names[1:]):
        page.press("Ctrl+z")
    must(page.sheet == example(names[0]), "undo brings the first example back")
    # the card
    card = data("card")["answer"]
    page.click("#open-card")
    cells = page.ask("[...document.querySelectorAll('dialog.card .cell')].map(cell => [+cell.dataset.set, cell.classList[1]])")
    must(dict(cells) == dict(enumerate(card["verdicts"])), "the board has every set with its verdict")
    counts = card["counts"][-1]
    for verdict in ("well", "under", "over", "stuck"):
        must(page.text(f"[data-filter={verdict}]") == f"{verdict} {counts[verdict]}", f"the filter counts {verdict}")
        if counts[verdict]:
            page.click(f"[data-filter={verdict}]")
            shown = page.ask("[...document.querySelectorAll('dialog.card .cell:not([hidden])')].map(cell => cell.dataset.set)")
            wanted = {str(i) for i, known in enumerate(card["verdicts"]) if known == verdict}
            must(set(shown) == wanted and len(shown) == len(wanted), f"the filter shows {verdict} alone")
    # pictures are drawn as they come into sight, and show just the pairs of the set
    page.click("[data-filter=over]")
    drawn = page.ask("document.querySelectorAll('dialog.card .cell svg').length")
    must(0 < drawn < 1024, f"{drawn} pictures are drawn at first")
    some = random.Random(41).sample(range(1024), 40)
    page.click("[data-filter=all]")
    for entry in some:
        page.hover(f".cell[data-set='{entry}']")
        must(page.holds(f"document.querySelector('.cell[data-set=\"{entry}\"] svg')"), f"set {entry} is drawn")
        strokes = page.ask(f"document.querySelector('.cell[data-set=\"{entry}\"] path').getAttribute('d').split('L').length - 1")
        must(strokes == bin(entry).count("1"), f"set {entry} has {strokes} strokes")
        must(page.text(f".cell[data-set='{entry}'] span") == card["verdicts"][entry], f"set {entry} has its verdict")
    for entry in some[:8]:
        if not page.ask("!!document.querySelector('dialog.card')"):
            page.click("#open-card")
        page.click(f".cell[data-set='{entry}']")
        text = pattern("card", str(entry), "--sheet")[1].decode()
        must(page.sheet == text, f"set {entry} is opened as a sheet")
        must(page.ask("document.querySelector('#verdict').dataset.verdict") == card["verdicts"][entry], f"set {entry} has the card's verdict")
    page.click("#open-card")
    page.press("ArrowDown", "ArrowRight", "Enter")
    must(page.sheet == pattern("card", "2", "--sheet")[1].decode(), "a set is opened by keys alone")
    page.click("#open-card")
    page.press("Escape")
    must(page.holds("!document.querySelector('dialog.card')", 5), "Escape closes the card")
    print(f"training: {len(names)} examples, 1,024 sets, {len(some)} pictures looked at")


# ---- files

#: How each form is saved by the command: the words before the file, the name, and whether -o writes it.
FORMS = {
    "sheet": (["make"], "{}.sheet", True),
    "plan": (["plan"], "{}.plan", True),
    "svg": (["draw"], "{}.svg", True),
    "dxf": (["place", "--dxf"], "{}.dxf", True),
    "report": (["report"], "{}.report.txt", False),
}


def saving(page):
    """Every form is saved as the command writes it, byte for byte."""
    count = 0
    for name in ("gable", "frame", "light", "leaded", "braced"):
        text = example(name)
        page.start(text, name)
        page.click("#tab-files")
        page.click("#save-text")
        must(page.downloaded(name + ".txt") == text.encode(), f"{name}: the text is saved")
        page.press("Ctrl+s")
        must(page.downloaded(name + ".txt") == text.encode(), f"{name}: the text is saved by a key")
        for form, (words, title, written) in FORMS.items():
            title = title.format(name)
            more = ["-o", title] if written else []
            status, out, told, files = pattern(*words, name + ".txt", *more, files={name + ".txt": text})
            page.click(f"#save-{form}")
            if status == 2:
                words = told.strip().replace("pattern: ", "")
                must(page.text("#notice pre") == words, f"{name}: {form}: {words} is told")
                page.press("Escape")
                continue
            saved = page.downloaded(title)
            must(saved == (files[title] if written else out), f"{name}: {form} is saved as the command writes it")
            count += 1
    return count


def opening(page, folder):
    """Text, bytes and plans are opened by the chooser and by dropping them; undo brings back what was there."""
    first = example("frame")
    page.start(first, "frame")
    for name in ("gable", "light", "signs"):
        text = os.path.join(TEXTS, name + ".txt")
        page.press("Ctrl+o")
        page.choose(text)
        must(page.holds(f"store.name === '{name}'", 5) and page.sheet == example(name), f"{name} is opened by its text")
        sheet = os.path.join(folder, name + "-bytes.sheet")
        pattern("make", text, "-o", sheet)
        page.drop(sheet)
        wanted = pattern("show", sheet)[1].decode()
        must(page.holds(f"store.name === '{name}-bytes'", 5) and page.sheet == wanted, f"{name} is opened by its bytes")
    for _ in range(6):
        page.press("Ctrl+z")
    must(page.sheet == first and page.text("#name") == "frame", "undo brings back the first sheet, and its name")
    odd = os.path.join(folder, "--json.txt")
    with open(odd, "w", encoding="utf-8") as file:
        file.write(example("gable"))
    page.drop(odd)
    must(page.holds("store.name === 'json'", 5) and page.sheet == example("gable"), "a name that looks like an option")
    page.press("Ctrl+z")
    # a sheet and its plan at once: the plan is checked beside that sheet; another sheet puts it away
    plan = os.path.join(folder, "gable.plan")
    pattern("plan", os.path.join(TEXTS, "gable.txt"), "-o", plan)
    page.drop(plan, os.path.join(TEXTS, "gable.txt"))
    must(page.holds("store.panel === 'plan' && store.name === 'gable'", 5), "a sheet and its plan are opened at once")
    must(len(page.texts("#panel-plan .all li")) == 4 and not page.texts("#panel-plan .refused"), "the plan is right for its sheet")
    page.drop(os.path.join(TEXTS, "light.txt"))
    must(page.holds("store.name === 'light'", 5) and page.text(".which") == "The plan of this sheet", "another sheet has its own plan")
    page.press("Ctrl+z", "Ctrl+z")
    # a folder is no file
    page.drop(folder)
    must(page.holds("store.notice", 5) and page.sheet == first, "a folder is not opened")
    page.press("Escape")
    page.click("#tab-files")
    page.click("#open-plan")
    path = os.path.join(folder, "frame-plan")
    with open(path, "wb") as file:
        file.write(pattern("plan", "frame.txt", "-o", "p", files={"frame.txt": first})[3]["p"])
    page.choose(path)
    must(page.holds("store.panel === 'plan'", 5) and "frame-plan" in page.text(".which"), "a plan of any name is opened")


def bad(page, folder):
    """Bad input is told in the command's words, and nothing of what was drawn is lost."""
    sheet = pattern("make", "gable.txt", "-o", "s", files={"gable.txt": example("gable")})[3]["s"]
    text = example("gable")
    huge = random.Random(7)
    cases = {
        "cut.sheet": sheet[:20],
        "flipped.sheet": sheet[:9] + bytes([sheet[9] ^ 255]) + sheet[10:],
        "empty.sheet": b"",
        "rubbish.sheet": b"PF01" + bytes(huge.randrange(256) for _ in range(500)),
        "errors.txt": "pont A B\npoint C\nline l\ndistance C l 0\ndistance C l 100,5\n".encode(),
        "latin.txt": "point Gräte\n".encode("latin-1"),
        "wide.txt": "point A B\n".encode("utf-16"),
        "plan.txt": b"0 1 2\n3 4 5\n",
        "huge.txt": b"point A B # " + b"x" * (10 << 20),
        "huge.sheet": sheet + bytes(10 << 20),
        "noise.bin": bytes(huge.randrange(256) for _ in range(1 << 16)) * 160,
        "many.txt": b"".join(b"point P%d\n" % k for k in range(900_000)),
        "many-errors.txt": b"nonsense 1 2 3\n" * 700_000,
    }
    page.start(text, "gable")
    page.click("#tab-parts")
    page.press("Alt+1")
    for name, content in cases.items():
        path = os.path.join(folder, name)
        with open(path, "wb") as file:
            file.write(content)
        page.drop(path)
        status, _, told, _ = pattern("show", name, files={name: content})
        words = told.strip().replace("pattern: ", "")
        if status == 0:
            # a sheet behind so much that it is not read: the command takes it, and so does the page
            must(page.holds(f"store.name === {json.dumps(os.path.splitext(name)[0])}", 20), f"{name} is opened")
            page.press("Ctrl+z")
        else:
            notice = page.holds("store.notice", 20) and page.text("#notice pre")
            must(notice == words, f"{name}: {words[:200]} is told, not {page.text('#notice pre')[:200]}")
            page.press("Escape")
        must(page.sheet == text and page.ask("store.notice") is None, f"{name}: what was drawn is there")
        must(page.ask("document.querySelector('#verdict').dataset.verdict") == "well", f"{name}: the verdict stands")
    must(page.ask("store.undoes") is None, "nothing was done that would have to be undone")
    # a text with errors can be opened to mend it, and undo goes back
    page.drop(os.path.join(folder, "errors.txt"))
    page.holds("store.notice", 5)
    page.click("#notice button:first-of-type")
    must(page.sheet == cases["errors.txt"].decode(), "a text with errors is opened to mend it")
    must(page.ask("document.querySelector('#verdict').dataset.verdict") == "refused", "and is refused")
    page.press("Ctrl+z")
    must(page.sheet == text, "undo brings the sheet back")
    return len(cases)


def files(page):
    saved = saving(page)
    with tempfile.TemporaryDirectory() as folder:
        opening(page, folder)
        wrong = bad(page, folder)
    print(f"files: {saved} saved byte for byte, {wrong} bad ones told in the command's words")


# ---- print


def pages(pdf):
    """How many pages a PDF has."""
    return len(re.findall(rb"/Type\s*/Page\b(?!s)", pdf))


def paper(page):
    longest = pattern("longest", "64")[1].decode()
    for name, text in [("gable", example("gable")), ("braced", example("braced")), ("grid", example("grid")), ("longest", longest)]:
        page.start(text, name)
        pdf = page.printed()
        must(pages(pdf) == 1, f"{name} is printed on {pages(pdf)} pages")
        told = page.text("#paper")
        words = pattern("check", name + ".txt", files={name + ".txt": text})[1].decode().rstrip()
        must(words in told, f"{name}: the verdict is on the paper")
        for held in data("show", "sheet.txt", files={"sheet.txt": text})["answer"]["constraints"]:
            must(held["text"] in told, f"{name}: {held['text']} is on the paper")
        room = page.ask("(() => { const s = document.querySelector('#paper .sheet'); return s.scrollHeight - s.clientHeight; })()")
        must(room <= 1, f"{name}: {room} pixels are cut off")
        picture = page.ask("document.querySelector('#paper img').naturalWidth")
        must(picture > 100, f"{name}: the picture is on the paper")
    print("print: four sheets, one page each")


ROOMS = {"parts": parts, "plan": plan, "training": training, "files": files, "print": paper}


def main():
    page = Page()
    try:
        for name in sys.argv[1:] or ROOMS:
            ROOMS[name](page)
        page.silent("rooms")
    finally:
        page.close()
    print(f"rooms: {len(failed)} faults")
    return 1 if failed else 0


if __name__ == "__main__":
    sys.exit(main())
