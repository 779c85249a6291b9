"""The command within the sketch page: its answers are those of the command on every file and to all words, it is small and
quick, and 200 random sessions of a user's events end with the verdict that `pattern check` gives: core.py [short] [NAME..]"""

import base64
import concurrent.futures
import glob
import json
import os
import random
import subprocess
import sys
import tempfile

from driver import COMMAND, ROOT, Page, data, failed, must

PAGE = os.path.join(ROOT, "target", "page", "pattern.html")
#: The most bytes of the page. Times are printed beside their bars, and not held to them: they are the machine's too.
MOST_BYTES = 1_000_000
#: How many random sessions, how many where it is to be short, of how many events, in how many browsers at once.
SESSIONS, SHORT, EVENTS, WORKERS = 200, 24, 50, 2


def content(path):
    with open(path, "rb") as file:
        return file.read()


def asked(calls):
    """What the page's module answers to calls, each some words and files."""
    encoded = [
        {"words": words, "files": {name: base64.b64encode(data).decode() for name, data in files.items()}}
        for words, files in calls
    ]
    lines = "".join(json.dumps(call) + "\n" for call in encoded)
    asker = os.path.join(ROOT, "tests", "page", "answers.mjs")
    out = subprocess.run(["node", asker], input=lines.encode(), check=True, capture_output=True).stdout
    answers = [json.loads(line) for line in out.splitlines()]
    assert len(answers) == len(calls)
    return answers


def told(words, files):
    """What the command answers: status, standard output, lines of standard error, files written."""
    with tempfile.TemporaryDirectory() as folder:
        for name, given in files.items():
            path = os.path.join(folder, name)
            os.makedirs(os.path.dirname(path), exist_ok=True)
            with open(path, "wb") as file:
                file.write(given)
        done = subprocess.run([COMMAND, *words], cwd=folder, capture_output=True, input=b"")
        written = {}
        for above, _, names in os.walk(folder):
            for name in names:
                path = os.path.relpath(os.path.join(above, name), folder)
                if path not in files or files[path] != content(os.path.join(folder, path)):
                    written[path] = content(os.path.join(folder, path))
    return done.returncode, done.stdout, done.stderr.decode(), written


def compare(calls, what):
    """Looks whether page and command answer alike: bytes, status, lines, files."""
    different = 0
    for (words, files), answer in zip(calls, asked(calls)):
        status, out, error, written = told(words, files)
        lines = "".join(line + "\n" for line in answer["notes"])
        files_of = {name: base64.b64decode(data) for name, data in answer["files"].items()}
        page = (answer["exit"], base64.b64decode(answer["out"]), lines, files_of)
        if page != (status, out, error, written):
            different += 1
            if different <= 5:
                shown = [str(part)[:2000] for part in page], [str(part)[:2000] for part in (status, out, error, written)]
                must(False, f"{what}: {words} is answered alike: {shown}")
    must(different == 0, f"{what}: {different} of {len(calls)} answers differ")
    print(f"page: {what}: {len(calls)} answers as the command's")


# ---- answers


def sheets():
    """Every sheet of the repository, in text and in bytes, that is accepted and that is not: names and contents."""
    patterns = ("examples/text/*.txt", "tests/tools/texts/*.txt", "tests/tools/advice/*.txt", "tests/programs/*/*.sheet", "examples/sheets/*")
    paths = sorted(path for form in patterns for path in glob.glob(os.path.join(ROOT, form)) if os.path.isfile(path))
    return [(os.path.basename(path), content(path)) for path in paths]


def every_command(name, data):
    """Calls of every command on a sheet."""
    files = {name: data}
    one = [
        ["check", name], ["check", "--json", name], ["check", "--csv", name], ["check", "--short", name],
        ["check", "--strict", "--quiet", name], ["show", name], ["show", "--json", name], ["make", "--json", name],
        ["make", name, "-o", "made.sheet"], ["report", name], ["report", "--json", name], ["plan", name],
        ["plan", "--json", name], ["plan", "--words", name], ["plan", "--words", "--json", name], ["plan", name, "-o", "made.plan"],
        ["part", name, "0"], ["part", "--json", name, "9"], ["part", "--words", "--json", name, "9"], ["shared", name, "0", "1"],
        ["chain", name, "0", "2"], ["chain", "--json", name, "0", "1"], ["draw", name], ["draw", name, "-o", "a.svg"],
        ["draw", "--html", name], ["draw", "--step", "1", name], ["draw", "--steps", "pictures", name], ["place", name],
        ["place", "--json", name], ["place", "--csv", name], ["place", "--dxf", name, "-o", "a.dxf"], ["scene", name],
        ["scene", "--size", "900x600", "--window", "-100,700,0.7", name], ["measure", name, "0", "1"], ["diff", name, name],
        ["edit", name, "point brand-new at 10 20"], ["edit", "--json", name, "remove A"], ["drag", name, "A from 0 0 to 30 20"],
        ["drag", "--json", name, "B C from 0 0 to -30 200"], ["add", name, "distance A C 721.1"],
        ["add", "--json", name, "distance A C 7", "-o", "more.txt"], ["check", "."],
    ]  # fmt: skip
    return [(words, files) for words in one]


def answers():
    """All commands on all sheets."""
    calls = [call for name, data in sheets() for call in every_command(name, data)]
    compare(calls, "every sheet, every command")


def words():
    """Words without a sheet, and wrong ones."""
    gable, frame = (content(os.path.join(ROOT, "examples", "text", name + ".txt")) for name in ("gable", "frame"))
    prices = content(os.path.join(ROOT, "tests", "tools", "advice", "cords.prices"))
    files = {"gable.txt": gable, "below/frame.txt": frame, "prices": prices, "list": b"gable.txt\nbelow/frame.txt\n", "old.txt": frame}
    names = [row.split()[0] for row in subprocess.run([COMMAND, "--help"], capture_output=True).stdout.decode().splitlines() if row.startswith("  ")]
    calls = [[], ["--help"], ["--version"], ["help"], ["nonsense"], ["chck", "gable.txt"], ["check", "--jsn", "gable.txt"]]
    calls += [[name, "--help"] for name in names] + [[name] for name in names] + [[name, "--json"] for name in names]
    calls += [["check", "."], ["check", "below"], ["check", "--list", "list", "--csv"], ["check", "--prices", "prices", "gable.txt"]]
    calls += [["check", "no.txt"], ["show", "no.txt"], ["show", "below"], ["show", "-"], ["check", "gable.txt", "no.txt", "--json"]]
    calls += [["diff", "below/frame.txt", "gable.txt"], ["diff", "gable.txt", "old.txt", "--json"], ["draw", ".", "-o", "out"]]
    calls += [["longest", "9"], ["longest", "64", "--json"], ["longest", "64", "-o", "l.sheet"], ["longest", "65"], ["card"], ["card", "--json"]]
    calls += [["card", "17"], ["card", "0-1", "1-2", "--json"], ["card", "1024"], ["card", "--sheet", "1023"], ["completion", "bash"]]
    calls += [["completion", "zsh"], ["completion", "fish"], ["completion", "csh"], ["draw", "gable.txt", "--json", "-o", "x/y.svg"]]
    compare([(call, files) for call in calls], "words of all kinds")


def bad_input():
    """Damaged sheets, texts with errors, a plan of another sheet, files that are none, and one of 10 MB."""
    chance = random.Random(41)
    gable, hipped = (content(os.path.join(ROOT, "examples", "text", name + ".txt")) for name in ("gable", "hipped"))
    example = content(os.path.join(ROOT, "tests", "programs", "report", "example.sheet"))
    plan = content(os.path.join(ROOT, "tests", "programs", "takeover", "own.plan"))
    calls = []
    for k in range(120):
        data = bytearray(chance.choice((gable, hipped, example)))
        for _ in range(chance.randint(1, 4)):
            at = chance.randrange(len(data))
            way = chance.randrange(3)
            data[at : at + (way > 0)] = bytes([chance.randrange(256)] if way < 2 else [])
        calls += [([word, *options, "bad"], {"bad": bytes(data)}) for word, options in (("check", []), ("show", ["--json"]), ("scene", []))]
    for data in (b"", b"\x00", b"PF01", b"PF02\xff\xff", b"%PDF-1.4\n", b"PK\x03\x04", "point Ä Ö\n".encode("latin-1"), "point A".encode("utf-16"),
                 b"point A A\npoint\ndistance A Z 5\nangle\n", b"\xef\xbb\xbfpoint A B\r\ndistance A B 5\r\n", b"x" * 5000, b"point A\n" * 300):
        calls += [([word, "bad"], {"bad": data}) for word in ("check", "show", "place", "scene")] + [(["check", "--json", "bad"], {"bad": data})]
        calls += [(["edit", "bad", "point N at 1 2"], {"bad": data})]
    for other in (gable, hipped, example):
        files = {"sheet": other, "plan": plan}
        calls += [(["verify", *words, "sheet", "plan"], files) for words in ([], ["--json"], ["--words"], ["--words", "--json"])]
        calls += [(["verify", "sheet", "plan"], {"sheet": other, "plan": bad}) for bad in (b"", b"\x01", b"1 2 x\n", gable)]
    large = bytes(range(256)) * 40_000
    calls += [([word, "large"], {"large": large}) for word in ("check", "show", "scene")]
    calls += [(["check", "--json", "large"], {"large": b"point A at 0 0\n" * 700_000}), (["check", "large"], {"large": b"# nothing\n" * 1_000_000})]
    calls += [(["verify", "sheet", "large"], {"sheet": gable, "large": large}), (["check", "gable"], {"gable": gable})]
    compare(calls, "bad input")
    subprocess.run(["node", os.path.join(ROOT, "tests", "page", "trap.mjs")], check=True)


# ---- size and time


def strip(count, way):
    """A strip of bars, two points a bar: a sheet in text that racks, is rigid in pieces, or is well."""
    bars = range(count // 2)
    lines = [f"point {row}{i} at {100 * i} {100 * (row == 'B')}" for i in bars for row in "AB"]
    lines += [f"distance A{i} B{i} 100" for i in bars]
    lines += [f"distance {row}{i - 1} {row}{i} 100" for i in bars[1:] for row in "AB"]
    across = {"racks": [], "pieces": bars[1::2], "well": bars[1:]}[way]
    return "\n".join(lines + [f"distance A{i - 1} B{i} 141.4" for i in across]) + "\n"


def contradictory(n, e):
    """A text of points at random with sizes at random: over, and no places meet the sizes of what is left."""
    chance = random.Random(7)
    points = [f"point P{k} at {chance.uniform(0, 1000):.1f} {chance.uniform(0, 1000):.1f}" for k in range(n)]
    pairs = chance.sample([(j, k) for k in range(n) for j in range(k)], e)
    return "\n".join(points + [f"distance P{j} P{k} {chance.randint(100, 900)}" for j, k in pairs]) + "\n"


def speed():
    """The file is small; the verdict of 64 elements and a frame of dragging them are quick: the best of several runs."""
    size = os.path.getsize(PAGE)
    must(size <= MOST_BYTES, f"the page has {size} bytes")
    full = content(os.path.join(ROOT, "tests", "programs", "report", "full_sheet.sheet"))
    longest = subprocess.run([COMMAND, "longest", "64"], capture_output=True).stdout
    kinds = {"full": full, "longest": longest, "contradictory": contradictory(64, 140).encode()}
    kinds.update((way, strip(64, way).encode()) for way in ("racks", "pieces", "well"))
    times = {}
    for kind, data in kinds.items():
        frames = [f"{name} from 0 0 to {x} 120" for name in ("A31", "B7") for x in (-400, 5, 90)]
        if kind in ("full", "longest", "contradictory"):
            frames = [f"{name} from 0 0 to 40 20" for name in ("P9", "P31")] if kind == "longest" else []
        window = ["--size", "1200x800", "--window", "0,500,0.3", "--json"]
        calls = [(["drag", *window, "sheet", frame], {"sheet": data}) for frame in frames for _ in range(6)]
        calls += [(["check", "--verdict", "--json", "sheet"], {"sheet": data})] * 12
        # once before, since a module gets quick while it is used
        found = asked(calls + calls)[len(calls) :]
        times[kind] = min(answer["ms"] for answer in found[-12:])
        dragged = [min(answer["ms"] for answer in found[6 * k : 6 * k + 6]) for k in range(len(frames))]
        times[kind + " dragged"] = max(dragged, default=0)
    verdict, frame = (max(ms for kind, ms in times.items() if kind.endswith("dragged") == drag) for drag in (False, True))
    print(f"page: {size:,} bytes; 64 elements: verdict in {verdict:.1f} ms (bar 20), a frame of dragging in {frame:.1f} ms (bar 33) of the processor")


def opening():
    """From opening to the first verdict, in the processor's time: the best of some."""
    page, times, clock = Page(), [], []
    page.call("Performance.enable")

    def spent():
        return 1000 * {metric["name"]: metric["value"] for metric in page.call("Performance.getMetrics")["metrics"]}["ProcessTime"]

    for _ in range(5):
        page.open("about:blank")
        before = spent()
        page.call("Page.navigate", url="file://" + PAGE)
        must(page.holds("document.querySelector('#verdict')?.dataset.verdict", 60), "a verdict is shown")
        clock.append(page.ask("performance.now()"))
        # another page may have another process
        now = spent()
        times.append(now - before if now > before else now)
    page.silent("opening")
    page.close()
    print(f"page: the first verdict takes {min(times):.0f} ms of the processor, {min(clock):.0f} ms by the clock (bar 1000)")


def editing():
    """An edit of 64 elements, until its verdict can be seen: the best of several, of sheets of every kind."""
    page, times = Page(), {}
    page.start("")
    for kind, sheet in {"contradictory": contradictory(64, 140), **{way: strip(64, way) for way in ("racks", "pieces", "well")}}.items():
        page.ask(f"store.open({json.dumps(sheet)}, 'sheet', 'open'); 0")
        once = (
            "(text => { const began = performance.now(); store.edit(text, 'edit');"
            " return [performance.now() - began, document.querySelector('#verdict').dataset.verdict]; })"
        )
        found = []
        for k in range(9):
            must(page.holds("document.querySelector('#verdict').getAttribute('aria-busy') !== 'true'"), "the verdict's words come")
            ms, verdict = page.ask(f"{once}({json.dumps(sheet + '# ' + 'x' * k)})") if k else (1e9, spoken(sheet)[0])
            must(verdict == spoken(sheet)[0], f"{kind}: {verdict} is shown")
            found.append(ms)
        times[kind] = min(found)
    page.close()
    print("page: an edit of 64 elements to its verdict (bar 20 ms): " + ", ".join(f"{kind} {ms:.1f} ms" for kind, ms in times.items()))


# ---- random sessions

#: What the screen shows of the text, and what the module answers to it now: verdict, words; and what can be clicked.
LOOK = """(() => {
    const shown = document.querySelector('#verdict');
    const words = document.querySelector('#words').textContent;
    const found = store.engine.answer(['check', store.file, '--json'], {[store.file]: store.text}).json;
    const file = found.answer ? found.answer.files[0] : {status: 'refused', errors: found.errors};
    const middle = node => { const r = node.getBoundingClientRect(); return [r.x + r.width / 2, r.y + r.height / 2]; };
    const canvas = document.querySelector('#canvas').getBoundingClientRect();
    return {
        shown: shown.dataset.verdict, words, status: file.status, wanted: file.words ?? null, count: (file.errors ?? []).length,
        elements: [...document.querySelectorAll('#canvas g.element .dot, #canvas g.element .shape')].slice(0, 24).map(middle),
        sizes: [...document.querySelectorAll('#canvas g.constraint text')].slice(0, 12).map(middle),
        pieces: [...document.querySelectorAll('#verdict .piece')].filter(node => node.offsetParent).slice(0, 3).map(middle),
        tabs: [...document.querySelectorAll('[role=tab]')].map(middle),
        canvas: [canvas.left, canvas.top, canvas.width, canvas.height],
    };
})()"""


class User:
    """Someone who does anything, by chance."""

    def __init__(self, page, seed):
        self.page, self.chance, self.seen, self.done = page, random.Random(seed), None, []

    def spot(self):
        """A place on the canvas: often an element, or a size."""
        left, top, width, height = self.seen["canvas"]
        among = self.chance.choice((self.seen["elements"], self.seen["elements"], self.seen["sizes"], []))
        inside = [spot for spot in among if left < spot[0] < left + width and top < spot[1] < top + height]
        return self.chance.choice(inside) if inside else [left + width * self.chance.random(), top + height * self.chance.random()]

    def event(self):
        """One event of mouse or keys."""
        chance, page = self.chance, self.page
        acts = [
            (12, "tool", lambda: page.press(chance.choice("vplcddp"))),
            (26, "click", lambda: page.click(self.spot(), count=chance.choice((1, 1, 1, 1, 2)), keys=chance.choice((0, 0, 0, 8)))),
            (14, "drag", lambda: page.drag(self.spot(), self.spot(), steps=3)),
            (8, "hover", lambda: page.hover(self.spot())),
            (6, "enter", lambda: page.press("Enter")),
            (5, "digits", lambda: page.type(str(chance.randint(1, 900)))),
            (4, "escape", lambda: page.press("Escape")),
            (3, "delete", lambda: page.press("Delete")),
            (6, "undo", lambda: page.press("Ctrl+z")),
            (3, "redo", lambda: page.press("Ctrl+y")),
            (4, "next", lambda: page.press(chance.choice((".", ",", "f", "+", "-")))),
            (4, "arrow", lambda: page.press(chance.choice(("", "Ctrl+", "Shift+")) + chance.choice(ARROWS))),
            (2, "name", lambda: page.press("F2")),
            (2, "letters", lambda: page.type(chance.choice(("corner", "A", "9x", "Ö")))),
            (4, "advice", lambda: self.seen["pieces"] and page.click(chance.choice(self.seen["pieces"]))),
            (2, "panel", lambda: page.click(chance.choice(self.seen["tabs"]))),
            (1, "all", lambda: page.press("Ctrl+a")),
            (2, "space", lambda: page.press("Space")),
        ]
        _, name, act = chance.choices(acts, [weight for weight, _, _ in acts])[0]
        self.done.append(name)
        act()

    def session(self, count):
        """So many events; after each the verdict on the screen is that of the text."""
        self.look()
        for _ in range(count):
            self.event()
            self.look()

    def look(self):
        must(self.page.holds("document.querySelector('#verdict').getAttribute('aria-busy') !== 'true'"), "the verdict's words come")
        self.seen = seen = self.page.ask(LOOK)
        right = seen["shown"] == seen["status"] and (seen["wanted"] is None or seen["words"] == "\n".join(seen["wanted"]))
        must(right, f"the verdict is that of the text after {self.done}: {seen}")


ARROWS = ("ArrowLeft", "ArrowRight", "ArrowUp", "ArrowDown")


def starts():
    """The sheets that sessions begin with."""
    names = sorted(glob.glob(os.path.join(ROOT, "examples", "text", "*.txt")))
    return ["", "point A at 0 0\n", strip(12, "racks"), strip(16, "pieces")] + [content(name).decode() for name in names]


def spoken(sheet):
    """The verdict that the command gives a sheet, and its words; of one that is refused, what each complaint says."""
    found = data("check", "sheet.txt", files={"sheet.txt": sheet})["answer"]["files"][0]
    return found["status"], found.get("words"), [error["message"] for error in found.get("errors") or []]


def some_sessions(seeds, events=EVENTS):
    """Sessions of some seeds in one browser: the verdicts that they end with, and what does not hold."""
    page, sheets, verdicts = Page(), starts(), []
    page.start("")
    for seed in seeds:
        page.ask(f"store.open({json.dumps(sheets[seed % len(sheets)])}, 'sheet', 'open'); store.take('select'); 0")
        user = User(page, seed)
        user.session(events)
        sheet = page.sheet
        shown, words = page.ask("[document.querySelector('#verdict').dataset.verdict, document.querySelector('#words').textContent]")
        verdict, lines, complaints = spoken(sheet)
        same = words == "\n".join(lines) if lines is not None else all(line in words for line in complaints)
        must(shown == verdict and same, f"session {seed} shows {shown}: {words}; the command says {verdict}: {lines or complaints} of {sheet}")
        page.silent(f"session {seed}, after {user.done}")
        verdicts.append(shown)
        if len(failed) > 5:
            break
    page.close()
    return verdicts, list(failed)


def sessions():
    """Random sessions, each over a sheet of its own: at the end of each the screen says what `pattern check` says."""
    count = SHORT if "short" in sys.argv[1:] else SESSIONS
    with concurrent.futures.ProcessPoolExecutor(WORKERS) as pool:
        found = list(pool.map(some_sessions, [range(first, count, WORKERS) for first in range(WORKERS)]))
    failed.extend(complaint for _, complaints in found for complaint in complaints)
    ends = [verdict for verdicts, _ in found for verdict in verdicts]
    told = ", ".join(f"{ends.count(verdict)} {verdict}" for verdict in sorted(set(ends)))
    print(f"page: {len(ends)} sessions of {EVENTS} events end with the command's verdict: {told}")


PARTS = [answers, words, bad_input, speed, opening, editing, sessions]


def main():
    chosen = [name for name in sys.argv[1:] if name != "short"]
    for part in PARTS:
        if not chosen or part.__name__ in chosen:
            part()
    sys.exit(1 if failed else 0)


if __name__ == "__main__":
    main()
