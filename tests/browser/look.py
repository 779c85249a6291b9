"""Opens each example's page in headless Chromium, moves the mouse over all it shows, and looks at the pixels: look.py [FOLDER]"""

import glob
import json
import os
import re
import shutil
import struct
import subprocess
import sys
import tempfile
import zlib

ROOT = os.path.abspath(os.path.join(os.path.dirname(__file__), "..", ".."))

#: What a page is asked: where picture, tables and labels are; what a mouse beside a stroke meets; over each thing that
#: answers the mouse, what is lit, and how strongly the rest is seen, and whether its row is in sight; what each step
#: shows by the arrow keys; at last over nothing.
QUESTIONS = """
<style>*{transition:none!important}</style>
<script>
const box = node => { const {left, top, right, bottom} = node.getBoundingClientRect(); return [left, top, right, bottom]; };
const labels = [...document.querySelectorAll('svg text.label')].map(node => [node.textContent, ...box(node)]);
const layout = {picture: box(document.querySelector('svg')), tables: box(document.querySelector('#tables')), labels,
    window: [innerWidth, innerHeight], page: document.documentElement.scrollHeight};
// five pixels beside the middle of each stroke that catches the mouse
const caught = [...document.querySelectorAll('svg .catch')].map(path => {
    const [a, b] = [0.47, 0.53].map(part => path.getPointAtLength(part * path.getTotalLength()).matrixTransform(path.getScreenCTM()));
    const far = Math.hypot(b.x - a.x, b.y - a.y) || 1;
    const at = [a.x - 5 * (b.y - a.y) / far, a.y + 5 * (b.x - a.x) / far];
    const met = document.elementFromPoint(...at);
    return [path.parentNode.dataset.key, met && met.closest('[data-key]') && met.closest('[data-key]').dataset.key];
});
const over = node => node.dispatchEvent(new MouseEvent('mouseover', {bubbles: true}));
const answers = [...document.querySelectorAll('[data-key]')].map(node => {
    over(node);
    const lit = [...document.querySelectorAll('.lit')];
    const rest = [...document.querySelectorAll('[data-lit]')].filter(other => !other.classList.contains('lit'));
    const row = node.closest('svg') && document.querySelector('tr[data-key="' + node.dataset.key + '"]');
    const inside = !row || box(row)[1] >= layout.tables[1] - 1 && box(row)[3] <= layout.tables[3] + 1;
    return {key: node.dataset.key, lit: lit.map(other => other.dataset.key), self: node.classList.contains('lit'), inside,
        strong: lit.every(other => getComputedStyle(other).opacity === '1'), weak: rest.every(other => getComputedStyle(other).opacity === '0.2')};
});
over(document.querySelector('h1'));
const press = key => document.body.dispatchEvent(new KeyboardEvent('keydown', {key, bubbles: true, cancelable: true}));
const keyed = name => [...new Set([...document.querySelectorAll('svg .' + name)].map(node => node.dataset.key))].sort();
const steps = [];
for (let k = 0; k < (slider ? +slider.max : 0); k++) {
    press('ArrowRight');
    steps.push({at: +slider.value, words: document.querySelector('output').textContent, joint: keyed('joint'), built: keyed('built'),
        parts: ['part0', 'part1', 'part2'].map(keyed)});
}
if (slider) { press('ArrowRight'); press('Home'); }
const whole = {at: slider ? +slider.value : 0, left: document.querySelectorAll('svg .joint, svg .built').length};
const left = document.querySelectorAll('.lit').length;
const requests = performance.getEntriesByType('resource').length;
document.body.append(Object.assign(document.createElement('pre'),
    {id: 'answers', textContent: JSON.stringify({layout, caught, answers, steps, whole, left, requests})}));
</script>
"""

#: The pages whose pixels are looked at: each verdict, and a dense one.
COLOURED = ("gable", "frame", "braced", "lattice", "triangle", "quarries")

#: Labels that touch by no more than this are apart, in pixels: a box of text has room above and below its letters.
TOUCH = 3


def chromium(page, *options):
    """Opens a page with some options: what is printed."""
    flags = ["--headless=new", "--no-sandbox", "--disable-gpu", "--host-resolver-rules=MAP * ~NOTFOUND", "--window-size=1400,900"]
    command = ["chromium", *flags, *options, "file://" + page]
    return subprocess.run(command, check=True, capture_output=True, timeout=120).stdout.decode()


def pixels(path):
    """The pixels of a PNG file of 8 bits a colour, as a set of colours with their counts."""
    with open(path, "rb") as file:
        data = file.read()
    at, body = 8, b""
    while at < len(data):
        size, kind = struct.unpack(">I4s", data[at : at + 8])
        if kind == b"IHDR":
            width, height, depth, colour = struct.unpack(">IIBB", data[at + 8 : at + 18])
        if kind == b"IDAT":
            body += data[at + 8 : at + 8 + size]
        at += size + 12
    assert depth == 8 and colour in (2, 6)
    step = 3 if colour == 2 else 4
    rows, line, counts = zlib.decompress(body), bytearray(width * step), {}
    for y in range(height):
        start = y * (width * step + 1)
        way, new = rows[start], bytearray(rows[start + 1 : start + 1 + width * step])
        for x in range(len(new)):
            a = new[x - step] if x >= step else 0
            b = line[x]
            c = line[x - step] if x >= step else 0
            paeth = min((abs(b - c), 0, a), (abs(a - c), 1, b), (abs(a + b - 2 * c), 2, c))[2]
            new[x] = (new[x] + (0, a, b, (a + b) // 2, paeth)[way]) & 255
        line = new
        for x in range(0, len(new), step):
            seen = bytes(new[x : x + 3])
            counts[seen] = counts.get(seen, 0) + 1
    return counts


def told(*arguments):
    """What the command answers to programs."""
    out = subprocess.run(["pattern", *arguments, "--json"], capture_output=True).stdout
    return json.loads(out)["answer"]


def look_at_layout(name, layout):
    """Picture and tables stand side by side and in sight, and no label covers another."""
    width, height = layout["window"]
    picture, tables = layout["picture"], layout["tables"]
    assert picture[2] <= tables[0] and tables[2] <= width, (name, layout)
    assert picture[1] >= 0 and picture[3] <= height and tables[3] <= height and layout["page"] <= height + 1, (name, layout)
    assert picture[2] - picture[0] > 0.4 * width and picture[3] - picture[1] > 0.6 * height, (name, layout)
    labels = layout["labels"]
    for i, (text, left, top, right, bottom) in enumerate(labels):
        assert picture[0] <= left and right <= picture[2] and picture[1] <= top and bottom <= picture[3], (name, text)
        for other, *frame in labels[:i]:
            across = min(right, frame[2]) - max(left, frame[0])
            down = min(bottom, frame[3]) - max(top, frame[1])
            assert min(across, down) <= TOUCH, (name, text, other, across, down)


def look_at_steps(name, sheet, result):
    """The arrow keys show each step of the plan with its joint and its parts, and go back to the whole."""
    steps = told("plan", sheet)["steps"] if result["steps"] else []
    facts = told("show", sheet)
    numbers = {element["name"]: f"e{i}" for i, element in enumerate(facts["elements"])}
    count = len(facts["constraints"])
    assert [step["at"] for step in result["steps"]] == list(range(1, len(steps) + 1)), name
    assert result["whole"] == {"at": 0, "left": 0}, name
    rests = {k: {f"k{k}"} for k in range(count)}
    for shown, step in zip(result["steps"], steps):
        assert shown["words"].startswith(f"step {shown['at']} of {len(steps)}: "), (name, shown["words"])
        assert set(shown["joint"]) == {numbers[element] for element in step["joint"]}, (name, shown)
        for part, keys in zip(step["from"], shown["parts"]):
            assert {key for key in keys if key.startswith("k")} == rests[part], (name, part, keys)
        rests[step["made"]] = set().union(*(rests[part] for part in step["from"]))


def look(sheet, folder):
    """Looks at one sheet's page: how many things answer the mouse, and how many steps are shown."""
    name = os.path.splitext(os.path.basename(sheet))[0]
    page = subprocess.run(["pattern", "draw", "--html", sheet], check=True, capture_output=True).stdout.decode()
    facts = told("show", sheet)
    path = os.path.join(folder, name + ".html")
    with open(path, "w") as file:
        file.write(page)
    picture = os.path.join(folder, name + ".png")
    chromium(path, "--screenshot=" + picture)
    if name in COLOURED:
        counts = pixels(picture)
        for colour in set(re.findall('stroke="#([0-9a-f]{6})"', page)):
            assert counts.get(bytes.fromhex(colour), 0) > 20, f"{name}: the colour #{colour} is not seen"
        assert counts[b"\xff\xff\xff"] > 100_000, name

    asked = os.path.join(folder, "asked.html")
    with open(asked, "w") as file:
        file.write(page.replace("</body>", QUESTIONS + "</body>"))
    found = re.search('<pre id="answers">(.*?)</pre>', chromium(asked, "--dump-dom"), re.DOTALL)
    elements, constraints = len(facts["elements"]), len(facts["constraints"])
    result = json.loads(found.group(1).replace("&lt;", "<").replace("&gt;", ">").replace("&amp;", "&"))
    assert result["left"] == 0 and result["requests"] == 0, name
    look_at_layout(name, result["layout"])
    look_at_steps(name, sheet, result)
    # beside a dimension's stroke the mouse meets it, or where strokes are dense a neighbour; of a few strokes each is met
    missed = [pair for pair in result["caught"] if pair[0] != pair[1] and pair[0].startswith("k")]
    assert all(met for _, met in missed), (name, missed)
    assert not missed or constraints > 10 and len(missed) <= len(result["caught"]) // 3, (name, missed)
    keys = {answer["key"] for answer in result["answers"]}
    assert {f"e{i}" for i in range(elements)} | {f"k{k}" for k in range(constraints)} <= keys, name
    numbers = {element["name"]: i for i, element in enumerate(facts["elements"])}
    for answer in result["answers"]:
        assert answer["self"] and answer["strong"] and answer["weak"] and answer["inside"], (name, answer)
        if answer["key"].startswith("k"):
            ends = {f"e{numbers[end]}" for end in facts["constraints"][int(answer["key"][1:])]["ends"]}
            lit = set(answer["lit"])
            assert ends <= lit and lit & {f"e{i}" for i in range(elements)} == ends, (name, answer)
    return len(result["answers"]), len(result["steps"])


def main():
    folder = tempfile.mkdtemp()
    count, steps = 0, 0
    sheets = sorted(glob.glob(os.path.join(ROOT, "examples", "text", "*.txt")))
    for sheet in sheets:
        found = look(sheet, folder)
        count, steps = count + found[0], steps + found[1]
    if len(sys.argv) > 1:
        for path in glob.glob(os.path.join(folder, "*.png")):
            shutil.copy(path, sys.argv[1])
    shutil.rmtree(folder)
    print(f"browser: {len(sheets)} pages, {count} things answer the mouse, {steps} steps are shown")


main()
