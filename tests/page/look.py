"""Takes pictures of twelve states of the sketch page, as mouse and keys bring them about: look.py [--keep] [NAME..]

The pictures go into target/page/pictures; with --keep those of docs/page, which the guide shows, are made anew. Of each
state is looked at what is on the screen, and that the colours of the verdict and of what is lit are in the picture."""

import os
import sys

import png
from driver import ROOT, Page, failed, must
from rooms import element, example

OUT = os.path.join(ROOT, "target", "page", "pictures")
KEPT = os.path.join(ROOT, "docs", "page")
#: The colours of three parts that are joined: blue, green and purple, as the command's pictures have them.
THREE = ("0072b2", "009e73", "b3528a")
#: The size of the pictures, and of paper, in pixels.
SIZE, PAPER = (1280, 800), (794, 1123)


def first(page):
    """The page as it opens for the first time: a frame that racks."""
    page.start()
    return "under", ()


def racked(page):
    """A corner is dragged: the frame racks, its four sizes held."""
    page.start()
    x, y = element(page, "C")
    page.drag((x, y), (x - 90, y + 50), steps=12)
    must("distance B C 400.0 mm" in page.sheet and page.ask("store.undoes") is not None, "the frame has racked")
    page.hover((700, 700))
    return "under", ()


def asked(page):
    """A diagonal is asked about: its verdict stands beside it, before it is placed."""
    page.start()
    page.press("d")
    page.click(element(page, "A"))
    page.click(element(page, "C"))
    must(page.holds("!document.querySelector('#float').hidden", 5), "the dimension is asked about")
    return "under", ()


def well(page):
    """The diagonal is placed: the frame is well."""
    asked(page)
    page.press("Enter")
    must(page.holds("document.querySelector('#verdict').dataset.verdict === 'well'", 5), "the diagonal is placed")
    page.press("Escape")
    page.hover((700, 700))
    return "well", ()


def over(page):
    """One too many: what to leave out is asked of the command, and each piece of its advice is a button."""
    page.start(example("rectangle"), "rectangle")
    page.hover("#verdict .piece")
    return "over", ("b00020",)


def parts(page):
    """The parts of a frame of bars, and what two of them share."""
    page.start(example("frame"), "frame")
    page.click("#tab-parts")
    page.click("#panel-parts button[data-part='1']")
    page.click("#panel-parts button[data-part='2']")
    page.hover("#tab-parts")
    return "under", ("009e73", "cc79a7")


def chain(page):
    """The chain of parts from one element to another."""
    page.start(example("lattice"), "lattice")
    page.click("#tab-parts")
    page.click(element(page, "A"))
    page.click(element(page, "B"), keys=8)
    page.hover("#tab-parts")
    return "stuck", ("0072b2", "b87700")


def plan(page):
    """The plan of the frame that was made well, played to its second step: its three parts, and the joint."""
    well(page)
    page.click("#tab-plan")
    page.press("ArrowRight", "ArrowRight")
    return "well", THREE


def refused(page):
    """A saved plan beside the sheet: the step that is refused, with its rule."""
    page.start(example("gable"), "gable")
    path = os.path.join(OUT, "house.plan")
    with open(path, "wb") as file:
        file.write(b"8 7 6\n5 1 4\n0 2 5\n9 10 11\n")
    page.drop(path)
    page.holds("store.panel === 'plan'", 5)
    must("rule 13" in page.text("#step-words"), "the refused step is shown")
    return "well", ()


def why(page):
    """The training room: why it is stuck, in the guide's words."""
    page.start(example("lattice"), "lattice")
    page.click("#tab-training")
    return "stuck", ()


def card(page):
    """The card of five points: the sets that are well."""
    page.start()
    page.click("#tab-training")
    page.click("#open-card")
    page.click("[data-filter=well]")
    page.hover(".cell:not([hidden])")
    page.holds("document.querySelectorAll('.cell:not([hidden]) svg').length > 40", 5)
    return "under", ("0b6b4b",)


def paper(page):
    """What the printer gets of it: one page for the cutter."""
    well(page)
    page.size(*PAPER)
    page.call("Emulation.setEmulatedMedia", media="print")
    page.ask("document.body.style.padding = '12mm'; dispatchEvent(new Event('beforeprint')); document.querySelector('#paper img').decode()")
    return None, ("0072b2",)


STATES = [first, racked, asked, well, over, parts, chain, plan, refused, why, card, paper]


def look(page, state):
    """Brings a state about and takes its picture."""
    page.call("Emulation.setEmulatedMedia", media="")
    page.size(*SIZE)
    name = state.__name__
    verdict, colours = state(page)
    if verdict:
        must(page.ask("document.querySelector('#verdict').dataset.verdict") == verdict, f"{name}: the verdict is {verdict}")
    page.ask("new Promise(done => setTimeout(done, 400))")
    path = os.path.join(OUT, name + ".png")
    page.picture(path)
    with open(path, "rb") as file:
        data = file.read()
    width, height, pixels = png.read(data)
    counts = png.counted(pixels)
    must((width, height) == (PAPER if state is paper else SIZE), f"{name}: the picture has {width} by {height} pixels")
    must(len(counts) > 20, f"{name}: the picture has {len(counts)} colours")
    for colour in colours:
        must(counts.get(bytes.fromhex(colour), 0) > 30, f"{name}: the colour #{colour} is not seen")
    return data


def main():
    words = sys.argv[1:]
    keep = "--keep" in words
    names = [word for word in words if word != "--keep"]
    os.makedirs(OUT, exist_ok=True)
    page = Page()
    size = 0
    states = [state for state in STATES if not names or state.__name__ in names]
    try:
        for state in states:
            data = look(page, state)
            if keep:
                os.makedirs(KEPT, exist_ok=True)
                data = png.small(data)
                with open(os.path.join(KEPT, state.__name__ + ".png"), "wb") as file:
                    file.write(data)
            size += len(data)
        page.silent("look")
    finally:
        page.close()
    print(f"look: {len(states)} states, {size:,} bytes of pictures, {len(failed)} faults")
    return 1 if failed else 0


if __name__ == "__main__":
    sys.exit(main())
