"""Drawing, dragging, dimensions, the verdict and the keyboard on the sketch page, by real mouse and key events: face.py

What is on the screen is compared with what the command answers on the page's text.
"""

import json
import math
import os
import sys
import time

sys.path.insert(0, os.path.dirname(os.path.abspath(__file__)))
from driver import ROOT, Page, data, failed, must  # noqa: E402

TEXTS = os.path.join(ROOT, "examples", "text")
EXAMPLES = sorted(name[: -len(".txt")] for name in os.listdir(TEXTS))
FRAME = """# A frame that racks
point A at 0 0 B at 600 0 C at 640 398 D at 40 398
distance A B 600.0 mm
distance B C 400.0 mm
distance C D 600.0 mm
distance A D 400.0 mm   # a jamb
"""
ALT, CTRL, SHIFT = 1, 2, 8


def example(name):
    with open(os.path.join(TEXTS, name + ".txt")) as file:
        return file.read()


#: Whether the drawing was made for the canvas as it is: where its size has changed, it is drawn anew a moment later.
SETTLED = """(() => {
    const canvas = document.querySelector('#canvas');
    const { width, height } = canvas.getBoundingClientRect();
    const drawn = canvas.dataset.size.split('x').map(Number);
    return [width, height].every((side, k) => Math.abs(drawn[k] - Math.max(300, side)) < 1.5);
})()"""


class Face(Page):
    """The page with what these scenarios do on it."""

    def element(self, name):
        """Where an element is on the screen: a point, a centre, the middle of a line."""
        return self.ask(
            f"(() => {{ const group = document.querySelector('[data-element={json.dumps(name)}]');"
            "const box = (group.querySelector('.dot') ?? group.querySelector('.shape')).getBoundingClientRect();"
            "return [box.x + box.width / 2, box.y + box.height / 2]; })()"
        )

    def label(self, constraint):
        """Where the size of a constraint stands."""
        return self.at(f".labels [data-constraint='{constraint}']")

    def canvas(self, across, down):
        """A place of the canvas, by parts of its width and height."""
        box = self.ask("(() => { const b = document.querySelector('#canvas').getBoundingClientRect(); return [b.x, b.y, b.width, b.height]; })()")
        return [box[0] + across * box[2], box[1] + down * box[3]]

    def command(self, *words):
        """What the command answers on the page's text, for programs."""
        return data(*words, files={"sheet.txt": self.sheet})

    def lit(self, role):
        """The elements and constraints that are lit in a role."""
        nodes = f"[...document.querySelectorAll('.element.lit-{role}, .constraint.lit-{role}')]"
        return set(self.ask(f"{nodes}.map(node => node.dataset.element ?? Number(node.dataset.constraint))"))

    def field(self, text):
        """Writes in the field beside the mouse, over what stands there."""
        self.press("Ctrl+a")
        self.type(text)

    def agrees(self, what):
        """The verdict on the page is the command's, and so is what is drawn."""
        found = self.command("check", "sheet.txt")["answer"]["files"][0]
        badge, lead, words = (self.text(f"#verdict {part}") for part in (".badge", ".lead", "#words"))
        if "errors" in found:
            error = found["errors"][0]
            told = error["message"] + ("; " + error["hint"] if error["hint"] else "")
            must(told in lead, f"{what}: the complaint {told!r} is in {lead!r}")
            return found["status"]
        must(badge.split()[-1] == found["status"], f"{what}: the badge {badge!r} says {found['status']}")
        must(lead.startswith(found["words"][0]), f"{what}: {lead!r} are the command's words {found['words'][0]!r}")
        must(words == "\n".join(found["words"]), f"{what}: all words are the command's")
        self.drawn(what)
        return found["status"]

    def drawn(self, what):
        """Every element and constraint is on the screen, where and as the command's scene says."""
        must(self.holds(SETTLED), f"{what}: the drawing has the size of its canvas")
        window, size, shown = self.ask(
            "[document.querySelector('#canvas').dataset.window, document.querySelector('#canvas').dataset.size,"
            "[...document.querySelectorAll('.element')].map(group => { const dot = group.querySelector('.dot'), line = group.querySelector('.shape');"
            "return [group.dataset.element, dot ? [+dot.getAttribute('cx'), +dot.getAttribute('cy')]"
            " : line.getAttribute('d').match(/-?[0-9.]+/g).map(Number)]; })]"
        )
        scene = self.command("scene", "sheet.txt", "--size", size, "--window", window)["answer"]
        x, y, scale = map(float, window.split(","))
        wanted = {}
        for element in scene["elements"]:
            places = [element["at"]] if "at" in element else [element["from"], element["to"]]
            wanted[element["name"]] = [part for place in places for part in ((place[0] - x) * scale, (y - place[1]) * scale)]
        must(sorted(wanted) == sorted(name for name, _ in shown), f"{what}: all elements are drawn")
        for name, places in shown:
            near = name in wanted and max(abs(a - b) for a, b in zip(places, wanted[name], strict=True)) < 0.2
            must(near, f"{what}: {name} is drawn at {places}, the command has {wanted.get(name)}")
        texts = self.ask("[...document.querySelectorAll('.constraint')].map(group => group.getAttribute('aria-label'))")
        must(texts == [held["text"] for held in scene["constraints"]], f"{what}: all constraints are drawn")
        sizes = {f"{k} {held['words']}" for k, held in enumerate(scene["constraints"]) if held["label"]}
        labels = self.ask("[...document.querySelectorAll('.labels [data-constraint]')].map(node => node.dataset.constraint + ' ' + node.textContent)")
        must(set(labels) == sizes, f"{what}: sizes {sorted(sizes ^ set(labels))}")


def distances(page):
    """The distances between all points of the page's sheet, by the command's layout."""
    found = page.command("place", "sheet.txt")["answer"]["elements"]
    at = {element["name"]: element["at"] for element in found if "at" in element}
    return at, {(a, b): math.dist(at[a], at[b]) for a in at for b in at if a < b}


# ---- the scenarios


def draw(page):
    """Points, lines and circles; named, chosen, deleted; every change in the text, undone and done again."""
    page.start("# mine\n", "new")
    must("just begun" in page.text("#verdict .badge"), "a new sheet is just begun")
    page.press("p")
    for place in ((0.3, 0.7), (0.7, 0.7), (0.5, 0.3)):
        page.click(page.canvas(*place))
    must([line.split()[:2] for line in page.sheet.splitlines()] == [["#", "mine"], ["point", "A"], ["point", "B"], ["point", "C"]], "three points")
    page.agrees("three points")
    page.press("l")
    page.click(page.element("A"))
    page.click(page.element("B"))
    must(page.sheet.endswith("on A a\non B a\n"), "a line holds the points it is drawn through")
    page.press("p")
    page.click(page.element("a"))
    must(page.sheet.endswith("on D a\n"), "a point on a line is held there")
    page.press("l")
    page.drag(page.canvas(0.2, 0.2), page.canvas(0.8, 0.15))
    must("line b from" in page.sheet and "on" not in page.sheet.split("on D a\n")[1], "a line dragged over the ground is free")
    page.press("c")
    page.drag(page.canvas(0.5, 0.5), page.canvas(0.56, 0.5))
    circle = page.command("show", "sheet.txt")["answer"]["elements"][-1]
    must(circle["kind"] == "circle" and circle["radius"] > 10, "a circle with the radius that was drawn")
    must(page.agrees("drawn") == "under", "what is drawn is under")
    # names
    page.press("v")
    page.click(page.element("C"), count=2)
    page.field("ridge\n")
    must("point ridge at" in page.sheet, "a double click names a point")
    page.click(page.element("b"))
    page.press("F2")
    page.field("A\n")
    must("expected a new name" in page.text("#float"), "a name that is taken is refused in the command's words")
    page.field("rail\n")
    must("line rail from" in page.sheet and page.text("#float") == "", "a line is named")
    page.agrees("named")
    page.click(page.element("c1"), count=2)
    page.press("Tab")
    page.field("45.5\n")
    must("circle c1 45.5 mm at" in page.sheet, "a circle gets another radius")
    page.drag(page.canvas(0.25, 0.6), page.canvas(0.75, 0.8), keys=SHIFT)
    must({"A", "B", "D"} <= set(page.ask("[...store.selection]")), "what lies within a frame is chosen")
    # chosen, deleted, undone, done again
    page.click(page.element("A"))
    page.click(page.element("ridge"), keys=SHIFT)
    must(set(page.ask("[...store.selection]")) == {"A", "ridge"}, "a click with Shift chooses one more")
    before = page.sheet
    page.press("Delete")
    names = [element["name"] for element in page.command("show", "sheet.txt")["answer"]["elements"]]
    must("A" not in names and "ridge" not in names and "on A a" not in page.sheet and "# mine" in page.sheet, "what is chosen is deleted")
    page.agrees("deleted")
    page.press("Ctrl+z")
    must(page.sheet == before, "undo")
    page.press("Ctrl+y")
    must("point A" not in page.sheet, "redo")
    count = 0
    while page.ask("!document.querySelector('#undo').disabled"):
        page.click("#undo")
        count += 1
    must(page.sheet == "# mine\n" and count > 8, "everything is undone, by the button")
    while page.ask("!document.querySelector('#redo').disabled"):
        page.click("#redo")
    must("point A" not in page.sheet and "line rail" in page.sheet, "and done again")
    page.agrees("done again")


def look(page):
    """Zoom, pan and the whole; drawing and command stay one at every scale."""
    page.start(example("leaded"), "leaded")
    page.agrees("whole")
    whole = page.ask("document.querySelector('#canvas').dataset.window")
    x, y = page.canvas(0.5, 0.5)
    page.call("Input.dispatchMouseEvent", type="mouseWheel", x=x, y=y, deltaX=0, deltaY=-400)
    page.holds(f"document.querySelector('#canvas').dataset.window !== {json.dumps(whole)}")
    scale = float(page.ask("document.querySelector('#canvas').dataset.window").split(",")[2])
    must(scale > 1.5 * float(whole.split(",")[2]), "the wheel zooms")
    page.agrees("zoomed")
    before = page.ask("document.querySelector('#canvas').dataset.window").split(",")
    page.drag(page.canvas(0.05, 0.05), page.canvas(0.25, 0.15))
    after = page.ask("document.querySelector('#canvas').dataset.window").split(",")
    must(before[2] == after[2] and float(after[0]) < float(before[0]) and float(after[1]) > float(before[1]), "the ground is dragged")
    page.agrees("moved")
    page.click(".zoom button:nth-child(3)")
    must(page.ask("document.querySelector('#canvas').dataset.window") == whole, "and all is seen again")
    page.press("-", "+", "f")
    must(page.ask("document.querySelector('#canvas').dataset.window") == whole, "by keys too")


def drag(page):
    """What is under racks with its dimensions held; what is well moves as one; comments stay."""
    page.start(FRAME, "frame")
    x, y = page.element("C")
    sizes = {(a, b): far for (a, b), far in distances(page)[1].items() if {a, b} not in ({"A", "C"}, {"B", "D"})}
    page.call("Input.dispatchMouseEvent", type="mouseMoved", x=x, y=y)
    page.call("Input.dispatchMouseEvent", type="mousePressed", x=x, y=y, button="left", clickCount=1)
    for k in range(1, 9):
        page.call("Input.dispatchMouseEvent", type="mouseMoved", x=x - 12 * k, y=y + 5 * k, button="left", buttons=1)
    must(page.holds(f"document.querySelector('[data-element=C] .dot').getBoundingClientRect().x < {x - 60}", 3), "the corner follows the mouse")
    must(page.sheet == FRAME, "the text waits until the button goes up")
    page.call("Input.dispatchMouseEvent", type="mouseReleased", x=x - 96, y=y + 40, button="left", clickCount=1)
    commented = page.sheet.startswith("# A frame that racks\n") and "# a jamb" in page.sheet
    must(page.sheet != FRAME and commented, "then it has the places, and its comments")
    z, w = page.element("C")
    must(math.dist((z, w), (x - 96, y + 40)) < 40, f"the corner is near the mouse: {z - x + 96:.0f} {w - y - 40:.0f}")
    racked = distances(page)[1]
    must(all(abs(racked[pair] - far) < 0.11 for pair, far in sizes.items()), "the frame racks, its dimensions held")
    must(abs(racked[("A", "C")] - math.dist((0, 0), (640, 398))) > 20, "its diagonal changes")
    page.agrees("racked")
    page.press("Ctrl+z")
    must(page.sheet == FRAME, "a drag is undone as one")
    # Escape puts things back
    x, y = page.element("C")
    page.call("Input.dispatchMouseEvent", type="mousePressed", x=x, y=y, button="left", clickCount=1)
    for k in range(1, 5):
        page.call("Input.dispatchMouseEvent", type="mouseMoved", x=x + 20 * k, y=y, button="left", buttons=1)
    page.press("Escape")
    page.call("Input.dispatchMouseEvent", type="mouseReleased", x=x + 80, y=y, button="left", clickCount=1)
    must(page.sheet == FRAME and math.dist(page.element("C"), (x, y)) < 1, "Escape puts it back")
    # well: it moves as one
    page.start(FRAME + "distance A C 753.7\n", "well")
    at, before = distances(page)
    x, y = page.element("B")
    page.drag((x, y), (x + 70, y - 50))
    moved, after = distances(page)
    must(all(abs(after[pair] - far) < 0.2 for pair, far in before.items()), "what is well moves as one")
    must(math.dist(at["B"], moved["B"]) > 40, "and it moves")
    must(page.agrees("moved as one") == "well", "and stays well")
    # a line, a circle, and several at once
    page.start(example("light"), "light")
    before = page.command("place", "sheet.txt")["answer"]
    x, y = page.element("eye")
    page.drag((x, y), (x + 40, y - 30))
    after = page.command("place", "sheet.txt")["answer"]
    must(before["unmet"] == after["unmet"] == [], "every contact is held")
    page.agrees("light")
    page.start("point A at 0 0\npoint B at 300 0\nline l from 0 200 to 300 200\n", "free")
    page.click(page.element("A"))
    page.click(page.element("l"), keys=SHIFT)
    x, y = page.element("A")
    page.drag((x, y), (x + 60, y + 20))
    show = {element["name"]: element for element in page.command("show", "sheet.txt")["answer"]["elements"]}
    must(math.dist(show["B"]["at"], (300, 0)) < 0.01, "what nothing holds stays")
    must(show["A"]["at"][0] > 20 and show["l"]["from"][0] > 20, f"what is chosen moves together: {show['A']} {show['l']}")


def dimension(page):
    """A dimension is asked about beside the mouse, typed or taken from the drawing, placed by Enter, left by Escape."""
    page.start(FRAME, "frame")
    page.press("d")
    page.click(page.element("A"))
    page.hover(page.element("C"))
    asked = page.command("add", "sheet.txt", "distance A C 753.7")["answer"]
    must(page.text("#float .statement") == "distance A C 753.7 mm", "the size is taken from the drawing")
    must(page.text("#float .badge") == asked["status"] == "well", "the verdict stands beside the mouse")
    must(asked["words"][0] in page.text("#float .asked"), "in the command's words")
    must(page.lit("joined") == {"A", "B", "C", "D", 0, 1, 2, 3}, "what it joins is lit, with what that rests on")
    box = page.ask(
        "(() => { const b = document.querySelector('#float').getBoundingClientRect();"
        " return [b.left, b.top, b.right, b.bottom]; })()"
    )
    x, y = page.element("C")
    gap = math.hypot(max(box[0] - x, x - box[2], 0), max(box[1] - y, y - box[3], 0))
    must(0 < gap < 60, f"beside the mouse, {gap:.0f} pixels from it")
    must(page.sheet == FRAME, "nothing is placed by asking")
    page.hover(page.canvas(0.5, 0.05))
    must(page.text("#float") == "" and page.lit("joined") == set(), "it goes where the mouse goes")
    page.click(page.element("C"))
    must(page.ask("document.activeElement.id") == "size" and page.ask("document.activeElement.value") == "753.7", "the number is held in the field")
    page.press("Enter")
    must(page.sheet == FRAME + "distance A C 753.7 mm\n", "Enter places it")
    must(page.agrees("placed") == "well", "and it is well")
    # over: the part that is fixed already is lit, and it is not placed
    page.press("d")
    page.click(page.element("B"))
    page.hover(page.element("D"))
    error = page.command("add", "sheet.txt", page.text("#float .statement"))["errors"][0]
    must(page.text("#float .badge") == "over" and error["rule"] == 11, "one too many is over")
    fixed = {*error["over"]["part"], *error["over"]["fixed_by"]}
    must(page.lit("fixed") == fixed and len(fixed) == 9, "the part that is fixed already is lit")
    must("the part A B C D is fixed already" in page.text("#float"), "and named")
    page.click(page.element("D"))
    before = page.sheet
    page.press("Enter")
    must(page.sheet == before and page.text("#float .badge") == "over", "Enter does not place it")
    page.press("Escape")
    must(page.text("#float") == "" and page.lit("fixed") == set(), "Escape leaves it")
    # a size is changed, by typing
    page.press("v")
    page.click(page.label(4), count=2)
    page.field("700.0")
    page.press("Enter")
    must(page.sheet == FRAME + "distance A C 700.0 mm\n", "a double click changes a size")
    page.agrees("resized")
    page.click(page.label(0))
    must(page.ask("store.constraint") == 0 and "distance A B 600.0 mm" in page.text("#live"), "a click chooses a dimension")
    before = page.sheet
    page.press("Delete")
    must(page.sheet == before.replace("distance A B 600.0 mm\n", ""), "and Delete takes it away")
    page.agrees("taken away")
    page.press("Ctrl+z")
    page.click(page.label(4), count=2)
    page.field("70x")
    must(page.text("#float .badge") == "not possible" and "expected" in page.text("#float"), "what is no size is told in the command's words")
    page.press("Enter")
    must(page.sheet == FRAME + "distance A C 700.0 mm\n", "and not written")
    page.press("Escape")
    # what holds them: contacts
    page.start("line sill from 0 0 to 600 0\ncircle eye 100.0 mm at 200 120\npoint P at 500 300\n", "eye")
    page.press("d")
    page.click(page.element("sill"))
    page.click(page.element("eye"))
    kinds = page.texts("#float .kinds button")
    must(kinds == ["distance", "on", "tangent", "tangent other side"], f"what may hold them: {kinds}")
    must("distance sill eye" in page.command("measure", "sheet.txt", "sill", "eye")["answer"]["statements"][0]["text"], "what is drawn comes first")
    page.press("ArrowDown", "ArrowDown")
    page.press("Enter")
    must(page.sheet.endswith("tangent sill eye\n"), "a contact is placed by keys alone")
    page.agrees("tangent")
    page.press("d")
    page.click(page.element("sill"))
    page.hover(page.element("eye"))
    must("held already" in page.text("#float"), "two that are held already are told so")
    page.press("Escape")
    page.press("Escape")
    # two chosen elements, then the key
    page.click(page.element("P"))
    page.click(page.element("eye"), keys=SHIFT)
    page.press("d")
    page.field("33 cm")
    page.press("Enter")
    must(page.sheet.endswith("distance eye P 33 cm\n") or page.sheet.endswith("distance P eye 33 cm\n"), "units may be typed")
    page.agrees("units")


def verdict(page):
    """The verdict of every example in the command's words, and each piece of advice done by a click."""
    for name in EXAMPLES:
        page.start(example(name), name)
        page.agrees(name)
        advice = page.command("check", "sheet.txt")["answer"]["files"][0]["advice"]
        pieces = page.texts("#verdict .piece")
        must(bool(pieces) == bool(advice and (advice["change"] or advice["cheapest"] or advice["too_many"])), f"{name}: advice {pieces}")
    page.start(example("rectangle"), "rectangle")
    page.click("#verdict .more")
    must(page.ask("!document.querySelector('#words').hidden"), "all words are shown")
    page.agrees("all words")
    # over: each choice gives what it promises
    choices = page.command("check", "sheet.txt")["answer"]["files"][0]["advice"]["too_many"][0]["choices"]
    must(len(page.texts("#verdict .piece")) == len(choices), "a piece for each choice")
    for place in (0, 2, len(choices) - 1):
        page.start(example("rectangle"), "rectangle")
        if page.ask(f"document.querySelectorAll('#verdict .piece')[{place}].closest('.menu') !== null"):
            page.click("#verdict summary")
        page.ask(f"document.querySelectorAll('#verdict .piece')[{place}].id = 'this'")
        page.hover("#this")
        must(choices[place]["constraint"] in page.lit("out"), "what it leaves out is lit")
        page.click("#this")
        facts = page.command("show", "sheet.txt")["answer"]["constraints"]
        must(choices[place]["statement"] not in [fact["text"] for fact in facts] and len(facts) == 13, f"{choices[place]['statement']} is left out")
        must(page.agrees("left out") == choices[place]["verdict"], f"and the verdict is {choices[place]['verdict']}")
    # under: measured
    page.start(FRAME, "frame")
    page.hover("#verdict .piece")
    must(page.lit("asked") == {"A", "C"}, "what to measure is lit")
    page.click("#verdict .piece")
    must(page.ask("document.activeElement.id") == "size", "the field for it is open")
    page.press("Enter")
    must(page.agrees("measured") == "well", "measured, it is well")
    # several are missing: each is a piece
    page.start("point A at 0 0 B at 400 0 C at 400 300 D at 0 300\n", "four")
    must(len(page.texts("#verdict .piece")) == 5, "five are missing")
    for _ in range(5):
        page.click("#verdict .piece")
        page.press("Enter")
    must(page.agrees("five measured") == "well", "measured one by one, it is well")
    # stuck: one out, one in; angle: a ring, and a point where lines meet
    for name in ("lattice", "hipped", "triangle", "braced"):
        page.start(example(name), name)
        change = page.command("check", "sheet.txt")["answer"]["files"][0]["advice"]["change"]
        page.click("#verdict .piece")
        for _ in change["measure"]:
            must(page.holds("document.activeElement.id === 'size'", 3), f"{name}: the field is open")
            page.press("Enter")
        must(page.agrees(name + " mended") == change["verdict"] == "well", f"{name}: swapped, it is well")
    page.start(example("open"), "open")
    must("NO PLACEMENT" in page.text("#verdict .warning"), "a warning is in sight")


def text(page):
    """The text is written in the panel; complaints stand at their lines; nothing that was drawn is lost; it is kept."""
    page.start(FRAME, "frame")
    page.click("#text")
    page.press("Ctrl+End")
    page.type("distance A C 753.7\ndistnce B D\npoint B\n")
    errors = page.command("check", "sheet.txt")["answer"]["files"][0]["errors"]
    must([error["line"] for error in errors] == [8, 9], "two lines are wrong")
    told = [f"Line {error['line']} {error['message']}" + ("; " + error["hint"] if error["hint"] else "") for error in errors]
    must(page.texts("#complaints li") == told, f"both are told in the command's words: {page.texts('#complaints li')}")
    must([number.strip() for number in page.texts(".numbers .wrong")] == ["8", "9"], "and marked at their lines")
    page.agrees("wrong")
    count = len(page.ask("[...document.querySelectorAll('.element')]"))
    must(count == 4 and page.ask("!document.querySelector('.behind').hidden"), "the drawing stays")
    page.click("#complaints button")
    line = page.ask(
        "(e => e.id === 'text' && e.value.slice(0, e.selectionStart).split('\\n').length)(document.activeElement)"
    )
    must(line == 8, "a complaint leads to its line")
    before = page.sheet
    page.press("Escape", "p")
    page.click(page.canvas(0.5, 0.9))
    must(page.sheet == before and "errors" in page.text("#tip"), "nothing is drawn on a text with errors, and it is said")
    page.press("v", "Ctrl+z")
    must(page.sheet == FRAME, "typing is undone")
    page.agrees("undone")
    # kept in the browser
    page.press("p")
    page.click(page.canvas(0.5, 0.9))
    drawn = page.sheet
    page.open("about:blank")
    page.open("file://" + os.path.join(ROOT, "target/page/pattern.html"))
    page.holds("document.body.dataset.ready")
    must(page.sheet == drawn and page.text("#name") == "frame", "the sheet is kept")
    # and where the browser keeps nothing, the page works all the same
    script = "Object.defineProperty(window, 'localStorage', {get() { throw new DOMException('forbidden', 'SecurityError'); }})"
    number = page.call("Page.addScriptToEvaluateOnNewDocument", source=script)["identifier"]
    page.open("file://" + os.path.join(ROOT, "target/page/pattern.html"))
    must(page.holds("document.body.dataset.ready"), "a browser that keeps nothing")
    page.press("p")
    page.click(page.canvas(0.5, 0.9))
    page.agrees("not kept")
    page.call("Page.removeScriptToEvaluateOnNewDocument", identifier=number)


def keyboard(page):
    """A sheet drawn, dimensioned, named, moved and mended by keys alone."""
    page.start("", "keys")
    page.press("Tab")
    page.ask("document.querySelector('#canvas').focus()")
    page.press("p", "Enter")
    page.press(*["ArrowRight"] * 12)
    page.press("Enter")
    page.press(*["ArrowUp"] * 8)
    page.press("Enter")
    must(page.sheet.count("point ") == 3, "three points by the cursor")
    page.agrees("three points")
    at = {element["name"]: element["at"] for element in page.command("place", "sheet.txt")["answer"]["elements"]}
    must(abs(at["A"][1] - at["B"][1]) < 0.2 and abs(at["B"][0] - at["C"][0]) < 0.2, "where the arrows led")
    page.press("Escape")
    for first, second, size in (("A", "B", "300"), ("B", "C", "400"), ("A", "C", "500")):
        page.press("d")
        while page.ask("[...store.selection][0]") != first:
            page.press(".")
        page.press("Enter")
        while page.ask("store.hover?.element") != second:
            page.press(".")
        page.press("Enter")
        page.field(size)
        page.press("Enter")
        page.press("Escape")
    must(page.agrees("dimensioned") == "well", "dimensioned by keys: well")
    typed = ["distance A B 300 mm", "distance B C 400 mm", "distance A C 500 mm"]
    must([line for line in page.sheet.splitlines() if line.startswith("distance")] == typed, "with the sizes that were typed")
    page.press(".")
    name = page.ask("[...store.selection][0]")
    page.press("F2")
    page.field("corner")
    page.press("Enter")
    must("point corner at" in page.sheet and f"point {name} at" not in page.sheet, "named by keys")
    before, sizes = distances(page)
    page.press("Ctrl+ArrowRight", "Ctrl+ArrowDown")
    after, same = distances(page)
    must(all(abs(after[point][0] - before[point][0]) > 1 for point in before), "moved by keys, as one")
    must(all(abs(same[pair] - far) < 0.2 for pair, far in sizes.items()), "its dimensions held")
    page.press("Ctrl+a", "Delete")
    must(page.ask("store.elements.length") == 0, "all deleted")
    page.press("Ctrl+z")
    must(page.agrees("undone") == "well", "and undone")
    # the help, and every key in it
    page.press("?")
    must(page.ask("document.querySelector('dialog.help').open"), "the help opens")
    rows = page.texts("dialog.help tr")
    must(len(rows) > 25 and all(len(row) > 2 for row in rows), f"{len(rows)} keys")
    page.press("Escape")
    must(page.holds("document.querySelector('dialog.help') === null", 3), "and closes")
    for number, panel in enumerate(page.ask("[...document.querySelectorAll('[role=tab]')].map(tab => tab.id)"), 1):
        page.press(str(number) if number % 2 else f"Alt+{number}")
        must(page.ask(f"document.querySelector('#{panel}').getAttribute('aria-selected')") == "true", f"{panel} by {number}")
    # every piece can be reached by Tab, with its focus in sight
    page.ask("document.activeElement.blur()")
    reached = []
    for _ in range(60):
        page.press("Tab")
        reached.append(page.ask(
            "(e => e === document.body ? ['', true]"
            " : [e.id || e.dataset.tool || e.textContent.slice(0, 20), getComputedStyle(e).outlineStyle !== 'none'])"
            "(document.activeElement)"
        ))
    names = {name for name, _ in reached}
    must({"help", "canvas", "select", "dimension", "divider", "undo"} <= names, f"Tab reaches all: {sorted(names)}")
    must(all(seen for _, seen in reached), f"the focus is seen: {[name for name, seen in reached if not seen]}")


def access(page):
    """Names for those who cannot see, room at 200 %, labels apart, colours that are told apart."""
    for name in ("gable", "leaded", "quarries", "braced"):
        page.start(example(name), name)
        nameless = page.ask(
            "[...document.querySelectorAll('button, input, select, textarea, [role=tab], [role=application], .element, .constraint')]"
            ".filter(node => !node.closest('[hidden]') && !(node.getAttribute('aria-label')"
            " || node.getAttribute('aria-labelledby') || node.textContent.trim() || node.labels?.length))"
            ".map(node => node.outerHTML.slice(0, 80))"
        )
        must(nameless == [], f"{name}: all have names: {nameless}")
        labels = page.ask(
            "[...document.querySelectorAll('.labels text')].map(node => { const b = node.getBoundingClientRect();"
            " return [node.textContent, b.left, b.top, b.right, b.bottom]; })"
        )
        for i, (word, left, top, right, bottom) in enumerate(labels):
            for other, *frame in labels[:i]:
                shared = min(min(right, frame[2]) - max(left, frame[0]), min(bottom, frame[3]) - max(top, frame[1]))
                must(shared < 5, f"{name}: {word} and {other} are apart, and not {shared:.1f} over each other")
    # one page at twice the size, and on a small screen
    page.size(640, 400)
    for name in ("gable", "rectangle"):
        page.start(example(name), name)
        wide, shown = page.ask("[document.scrollingElement.scrollWidth, innerWidth]")
        must(wide <= shown, f"{name}: at 200 % nothing is cut off sideways: {wide} of {shown}")
        must(page.ask("document.querySelector('#verdict .badge').getBoundingClientRect().bottom < innerHeight"), "the verdict is in sight")
        page.agrees(name + " at 200 %")
    page.size(1280, 800)
    # verdicts are told by words and signs, and light on dark enough: WCAG's contrast of 4.5
    for name in ("gable", "frame", "braced", "lattice", "triangle"):
        page.start(example(name), name)
        light, dark = (
            [(part / 255 / 12.92 if part <= 10 else ((part / 255 + 0.055) / 1.055) ** 2.4) for part in colour]
            for colour in page.ask(
                "(() => { const style = getComputedStyle(document.querySelector('#verdict .badge'));"
                "return [style.color, style.backgroundColor].map(colour => colour.match(/[0-9]+/g).slice(0, 3).map(Number)); })()"
            )
        )
        bright = [0.2126 * r + 0.7152 * g + 0.0722 * b for r, g, b in (light, dark)]
        contrast = (max(bright) + 0.05) / (min(bright) + 0.05)
        must(contrast >= 4.5, f"{name}: contrast {contrast:.1f}")


SCENARIOS = (draw, look, drag, dimension, verdict, text, keyboard, access)


def main():
    wanted = sys.argv[1:]
    page = Face(1280, 800)
    for scenario in SCENARIOS:
        if wanted and scenario.__name__ not in wanted:
            continue
        start, before = time.time(), len(failed)
        scenario(page)
        page.silent(scenario.__name__)
        print(f"{scenario.__name__}: {'failed' if len(failed) > before else 'as it should be'} ({time.time() - start:.0f} s)")
    page.close()
    if failed:
        sys.exit(f"face.py: {len(failed)} failures")
    print(f"face.py: {len(SCENARIOS) if not wanted else len(wanted)} scenarios")


if __name__ == "__main__":
    main()
