"""The command pattern, run as a program: exit statuses, JSON, many files at once, completion."""

import csv
import json
import math
import os
import pty
import random
import re
import shutil
import subprocess
import sys
import tempfile
import time
import unittest
import xml.etree.ElementTree

import jsonschema

ROOT = os.path.abspath(os.path.join(os.path.dirname(__file__), "..", ".."))
TEXTS = os.path.join(ROOT, "examples", "text")
SHEETS = os.path.join(ROOT, "tests", "programs", "report")


def pattern(*arguments, text=None):
    """Runs the command: its status, standard output and standard error."""
    done = subprocess.run(["pattern", *arguments], input=text, capture_output=True)
    return done.returncode, done.stdout.decode(), done.stderr.decode()


def open_text(path):
    """The content of a text file."""
    with open(path) as file:
        return file.read()


def text(name):
    """A text sheet of the examples."""
    return os.path.join(TEXTS, name + ".txt")


class Stored(unittest.TestCase):
    """What the command writes of the sheets in tests/programs is what stands there, byte by byte."""

    FOLDER = os.path.dirname(SHEETS)

    def written(self, path, *arguments):
        with open(os.path.join(self.FOLDER, path), "rb") as file:
            done = subprocess.run(["pattern", *arguments], capture_output=True)
            self.assertEqual((done.returncode, done.stdout), (0, file.read()), arguments)

    def test_the_steps_of_one_cluster(self):
        folder = os.path.join(self.FOLDER, "part")
        lists = [name for name in sorted(os.listdir(folder)) if name.endswith(".out")]
        self.assertGreater(len(lists), 4)
        for name in lists:
            sheet, number, _ = name.split(".")
            self.written(os.path.join("part", name), "part", os.path.join(folder, sheet + ".sheet"), number)
        for sheet, number in (("two_points", "0"), ("over", "0"), ("refused_3_one", "0"), ("example", "999")):
            self.assertEqual(pattern("part", os.path.join(SHEETS, sheet + ".sheet"), number)[:2], (2, ""), sheet)

    def test_the_longest_plan(self):
        for count in (2, 3, 4, 17, 64):
            self.written(f"longest/{count}.sheet", "longest", str(count), "-o", "-")
        for count in ("0", "1", "65", "100"):
            self.assertEqual(pattern("longest", count)[:2], (2, ""), count)

    def test_tags_go_and_the_opening_stays(self):
        for tagged, plain in (("some_tags", "example"), ("every_tag", "example"), ("round_tags", "round_light")):
            self.written(f"report/{plain}.sheet", "make", os.path.join(SHEETS, tagged + ".sheet"))
        round_sheet = os.path.join(SHEETS, "round_without_circles.sheet")
        self.written("report/round_without_circles.sheet", "make", round_sheet)


class Statuses(unittest.TestCase):
    """0 well, 1 another verdict, 2 refused, 3 a file cannot be read or written, 64 usage."""

    def test_verdicts(self):
        for name in sorted(os.listdir(TEXTS)):
            whole, alone = (json.loads(pattern("check", *words, "--json", os.path.join(TEXTS, name))[1]) for words in ((), ("--verdict",)))
            self.assertEqual(whole["exit"], alone["exit"], name)
            for files in zip(whole["answer"]["files"], alone["answer"]["files"]):
                self.assertEqual(*(one["status"] for one in files), name)
                self.assertIsNone(files[1].get("advice"), name)
        for command in ("check", "report"):
            self.assertEqual(pattern(command, text("gable"))[0], 0)
            for name in ("frame", "braced", "lattice", "triangle", "hipped"):
                self.assertEqual(pattern(command, text(name))[0], 1, name)

    def test_the_worst_of_many(self):
        refused = os.path.join(SHEETS, "refused_3_one.sheet")
        self.assertEqual(pattern("check", text("gable"), text("rails"))[0], 0)
        self.assertEqual(pattern("check", "--strict", text("gable"))[0], 0)
        self.assertEqual(pattern("check", "--strict", text("gable"), text("rails"))[0], 1)
        self.assertEqual(pattern("check", text("gable"), text("frame"), text("gable"))[0], 1)
        self.assertEqual(pattern("check", text("frame"), refused, text("gable"))[0], 2)
        self.assertEqual(pattern("check", refused, "no such file", text("gable"))[0], 3)

    def test_no_placement(self):
        """Sizes that are proved not to close are no 0, whichever command says so."""
        for call in (["check", text("open")], ["report", text("open")], ["add", text("open"), "distance A B 1"]):
            self.assertNotEqual(pattern(*call)[0], 0, call)
        status, plan, _ = pattern("plan", text("open"))
        self.assertEqual(pattern("verify", text("open"), "-", text=plan.encode())[0], 1)

    def test_files_and_usage(self):
        for command in ("check", "show", "make", "report", "plan", "draw"):
            self.assertEqual(pattern(command, "no such file")[0], 3, command)
            status, out, error = pattern(command)
            self.assertEqual((status, out), (64, ""), command)
            self.assertIn("usage: pattern " + command, error)
            status, out, error = pattern(command, "--help")
            self.assertEqual((status, error), (0, ""), command)
            self.assertIn("usage: pattern " + command, out)


class Pipes(unittest.TestCase):
    """Whoever reads may stop reading."""

    def test_a_reader_that_has_enough(self):
        with tempfile.TemporaryDirectory() as folder:
            for i in range(300):
                shutil.copy(text("gable"), os.path.join(folder, f"{i}.txt"))
            running = subprocess.Popen(["pattern", "check", "--json", folder], stdout=subprocess.PIPE, stderr=subprocess.PIPE)
            self.assertEqual(running.stdout.read(1), b"{")
            running.stdout.close()
            self.assertEqual((running.stderr.read(), running.wait()), (b"", 0))
            running.stderr.close()
            # standard error may be closed too
            running = subprocess.run(["sh", "-c", "pattern check no_such_file >&- 2>&-"], cwd=folder)
            self.assertEqual(running.returncode, 3)


class Json(unittest.TestCase):
    """What is printed for programs is JSON, and says what the words say."""

    def check(self, *paths):
        return json.loads(pattern("check", "--json", *paths)[1])["answer"]["files"]

    def test_every_stored_sheet(self):
        paths = [os.path.join(SHEETS, name) for name in sorted(os.listdir(SHEETS)) if name.endswith(".sheet")]
        for path, found in zip(paths, self.check(*paths)):
            with open(path[: -len("sheet")] + "out") as file:
                lines = [line.split() for line in file]
            self.assertEqual(found["file"], path)
            if lines[0][0] == "refused":
                rules = [error["rule"] for error in found["errors"]]
                self.assertEqual((found["status"], rules), ("refused", [int(lines[0][1])]))
                continue
            self.assertEqual(found["status"], lines[0][1])
            self.assertEqual([found["elements"], found["constraints"]], [int(lines[1][1]), int(lines[1][3])])
            number = lambda name: int(name[1:])
            steps = [line for line in lines if line[0] == "step"]
            self.assertEqual([step["made"] for step in found["steps"]], [int(step[1]) for step in steps])
            self.assertEqual([list(map(number, step["joint"])) for step in found["steps"]], [list(map(int, step[7:10])) for step in steps])
            clusters = [line for line in lines if line[0] == "cluster"]
            for cluster, line in zip(found["clusters"], clusters, strict=True):
                on = line.index("rests")
                self.assertEqual(list(map(number, cluster["holds"])), list(map(int, line[3:on])))
                self.assertEqual(cluster["rests_on"], list(map(int, line[on + 2 :])))
            over = [int(line[1]) for line in lines if line[0] == "first"]
            self.assertEqual([found["over"]["constraint"]] if found["over"] else [], over)

    def test_a_file_name_with_every_kind_of_character(self):
        with tempfile.TemporaryDirectory() as folder:
            path = os.path.join(folder, 'a "quoted"\\ \n\x01 näme')
            os.symlink(text("gable"), path)
            self.assertEqual(self.check(path)[0]["file"], path)

    def answer(self, *arguments, text=None):
        """What a command prints for programs: it is as the schema says, standard error is empty, and the status is the one it names."""
        status, out, error = pattern(*arguments, "--json", text=text)
        self.assertEqual(error, "", arguments)
        found = json.loads(out)
        jsonschema.validate(found, self.schema)
        self.assertEqual((found["exit"], found["command"]), (status, arguments[0] if found["command"] else None))
        return found

    @classmethod
    def setUpClass(cls):
        cls.schema = json.loads(open_text(os.path.join(ROOT, "docs", "pattern.schema.json")))
        jsonschema.Draft7Validator.check_schema(cls.schema)

    def test_the_schema(self):
        """Every command, where it answers and where it complains, is as the schema says; and what is not, is not."""
        example, refused = os.path.join(SHEETS, "example.sheet"), os.path.join(SHEETS, "refused_9_zero.sheet")
        plan = os.path.join(ROOT, "tests", "programs", "takeover", "own.plan")
        one = {
            "add": ["distance A C 7"], "chain": ["A", "C"], "measure": ["0", "1"], "edit": ["point new at 1 2"],
            "drag": ["0 from 0 0 to 5 5"], "part": ["0"], "diff": [text("gable")], "verify": [plan], "shared": ["0", "1"],
        }
        sheets = [text(name) for name in ("gable", "frame", "braced", "lattice", "hipped", "triangle", "open", "light")]
        words = "check show make report plan add chain diff part shared place scene drag measure edit"
        for command in words.split():
            for sheet in sheets:
                self.answer(command, sheet, *one.get(command, []))
        calls = [["verify", example, plan], ["part", text("gable"), "12"], ["longest", "9"], ["card"], ["card", "0-1"], ["completion", "zsh"]]
        calls += [["place", text("signs")], ["show", text("signs")], ["draw", text("gable")], ["draw", text("gable"), "--step", "2"]]
        calls += [["plan", "--words", sheet] for sheet in sheets if "braced" not in sheet]
        calls += [["part", "--words", text("gable"), "12"], ["verify", "--words", example, plan], ["card", "--sheet", "7"]]
        calls += [["verify", "--words", text("gable"), plan]]
        calls += [["check", *sheets, refused, "no such file"], ["chain", os.path.join(SHEETS, "two_points.sheet"), "0", "1"]]
        for call in calls:
            self.assertEqual(self.answer(*call)["errors"], [], call)
        files = self.answer("check", refused, "no such file")["answer"]["files"]
        self.assertEqual([[error["status"] for error in found["errors"]] for found in files], [["refused"], ["unreadable"]])
        for command in ("show", "make", "report", "plan", "verify", "add", "chain", "part", "shared", "diff", "place", "scene", "drag", "measure"):
            operands = one.get(command, [])
            for wrong, status in ((["no such file", *operands], "unreadable"), ([refused, *operands], "refused"), ([], "usage")):
                errors = self.answer(command, *wrong)["errors"]
                self.assertEqual([error["status"] for error in errors], [status], command)
        with tempfile.TemporaryDirectory() as folder:
            to = os.path.join(folder, "new.txt")
            self.assertEqual(self.answer("add", text("frame"), "distance A C 721.1", "-o", to)["answer"]["status"], "well")
            self.assertTrue(open_text(to).endswith("distance A C 721.1\n"))
        self.assertEqual(self.answer("nonsense")["errors"][0]["status"], "usage")
        self.assertEqual(len(self.answer("show", "-", text=b"pont A\npoint B B\ncircle c\n")["errors"]), 3)
        self.assertEqual(self.answer("verify", text("braced"), plan)["errors"][0]["rule"], 11)
        found = self.answer("report", text("gable"))
        for change in ({"exit": 7}, {"answer": None}, {"errors": [{}]}, {"more": 1}, {"answer": {**found["answer"], "status": "fine"}}):
            with self.assertRaises(jsonschema.ValidationError):
                jsonschema.validate({**found, **change}, self.schema)


class Advice(unittest.TestCase):
    """What check advises is followed in the text of the sheet, and ends as it says."""

    def check(self, sheet, *options):
        """The finding of a text."""
        found = json.loads(pattern("check", "--json", *options, "-", text=sheet.encode())[1])
        return found["answer"]["files"][0]

    def changed(self, sheet, leave_out, more=()):
        """A text without some of its constraints, by number, and with more lines."""
        lines = [line for line in sheet.splitlines() if line.split("#")[0].strip()]
        demands = [i for i, line in enumerate(lines) if line.split()[0] in ("distance", "angle", "on", "tangent")]
        gone = {demands[k] for k in leave_out}
        return "\n".join([line for i, line in enumerate(lines) if i not in gone] + list(more))

    def test_examples(self):
        folder = os.path.join(ROOT, "tests", "tools", "advice")
        paths = [os.path.join(folder, name) for name in sorted(os.listdir(folder)) if name.endswith(".txt")]
        paths += [text(name) for name in ("frame", "braced", "lattice", "triangle", "hipped")]
        followed = 0
        for path in paths:
            sheet = open_text(path)
            for options in ([], ["--prices", os.path.join(folder, "cords.prices")] if "cords" in path else []):
                advice = self.check(sheet, *options)["advice"]
                if not advice:
                    continue
                for extra in advice["too_many"]:
                    others = [other["constraint"] for other in advice["too_many"] if other is not extra]
                    for choice in extra["choices"]:
                        left = self.changed(sheet, others + [choice["constraint"]])
                        self.assertEqual(self.check(left)["status"], choice["verdict"], (path, choice))
                for change in filter(None, (advice["cheapest"], advice["change"])):
                    point = change["new_point"]
                    more = [f"point {point['name']}"] + [f"on {point['name']} {line}" for line in point["on"]] if point else []
                    more += [f"distance {a} {b} 123.4" for a, b in change["measure"]]
                    after = self.check(self.changed(sheet, change["leave_out"], more))
                    self.assertEqual(after["status"], change["verdict"], (path, change))
                    followed += 1
        self.assertGreater(followed, 9)

    def test_a_second_price(self):
        """The cheapest dimension ends stuck, and another that costs 3 more does not."""
        folder = os.path.join(ROOT, "tests", "tools", "advice")
        out = pattern("check", os.path.join(folder, "cords.txt"), "--prices", os.path.join(folder, "cords.prices"))[1]
        self.assertIn("measure next: C F (cheapest by count, but stuck)\n  for 3 more: A B (well)\n", out)


class Many(unittest.TestCase):
    """Folders, lists, tables, and ten thousand files in one call."""

    def folder(self):
        """A folder with sheets in it and below, and files that are none."""
        folder = tempfile.TemporaryDirectory()
        self.addCleanup(folder.cleanup)
        for name, source in (("b.txt", text("gable")), ("a.txt", text("frame")), ("below/c.txt", text("open")), (".hidden/d.txt", text("frame"))):
            path = os.path.join(folder.name, name)
            os.makedirs(os.path.dirname(path), exist_ok=True)
            shutil.copy(source, path)
        shutil.copy(os.path.join(SHEETS, "refused_9_zero.sheet"), os.path.join(folder.name, "below", "e.sheet"))
        with open(os.path.join(folder.name, "notes.md"), "w") as file:
            file.write("no sheet\n")
        return folder.name

    def test_folders(self):
        folder = self.folder()
        found = [os.path.join(folder, name) for name in ("a.txt", "b.txt", "below/c.txt", "below/e.sheet")]
        status, out, _ = pattern("check", "--csv", folder)
        rows = list(csv.DictReader(out.splitlines()))
        self.assertEqual((status, [row["file"] for row in rows]), (2, found))
        self.assertEqual([row["status"] for row in rows], ["under", "well", "well", "refused"])
        self.assertEqual([row["rule"] for row in rows], ["", "", "", "9"])
        self.assertEqual([row["warnings"] for row in rows], ["0", "0", "1", ""])
        lines = pattern("check", "--short", folder)[1].splitlines()
        self.assertEqual([line.split(": ")[0] for line in lines[: lines.index("")]], found)
        files = json.loads(pattern("check", "--json", "--failed", folder)[1])["answer"]["files"]
        self.assertEqual([row["file"] for row in files], [path for path in found if not path.endswith("b.txt")])
        self.assertIn("  rule 9        1  " + found[3] + ": the size is outside its range\n", pattern("check", "-q", folder)[1])
        with tempfile.TemporaryDirectory() as empty:
            self.assertEqual(pattern("check", empty)[0], 3)

    def test_pictures_of_many(self):
        folder = self.folder()
        with tempfile.TemporaryDirectory() as out:
            status, said, error = pattern("draw", folder, text("gable"), "-o", out)
            names = [os.path.relpath(os.path.join(place, name), out) for place, _, found in os.walk(out) for name in found]
            self.assertEqual((status, sorted(names)), (2, ["a.svg", "b.svg", "below/c.svg", "gable.svg"]))
            self.assertEqual(sorted(said.split()), sorted(os.path.join(out, name) for name in names))
            self.assertEqual(error.count("\n"), 1)
            self.assertIn("below/e.sheet: refused by rule 9", error)
            self.assertEqual(open_text(os.path.join(out, "gable.svg")), pattern("draw", text("gable"))[1])
            found = json.loads(pattern("draw", "--html", "--json", folder, "-o", os.path.join(out, "pages"))[1])
            jsonschema.validate(found, json.loads(open_text(os.path.join(ROOT, "docs", "pattern.schema.json"))))
            self.assertEqual([bool(row["errors"]) for row in found["answer"]["pictures"]], [False, False, False, True])
            self.assertTrue(open_text(found["answer"]["pictures"][0]["picture"]).startswith("<!DOCTYPE html>"))
        for wrong in ([folder], [folder, "-o", "-"], [folder, "--step", "1"], [text("gable"), text("frame")]):
            self.assertEqual(pattern("draw", *wrong)[0], 64, wrong)

    def test_lists(self):
        names = [text("gable"), text("frame")]
        for ends in ("\n", "\r\n", "\0"):
            status, out, _ = pattern("check", "--csv", "--list", "-", text=(ends.join(names) + ends).encode())
            self.assertEqual((status, [row["file"] for row in csv.DictReader(out.splitlines())]), (1, names))
        self.assertEqual(pattern("check", "--list", "no such file")[0], 3)

    def test_two_thousand_on_one_core(self):
        """Prints the time that it took of the processor's cores: the bar is a second on one of its own."""
        with tempfile.TemporaryDirectory() as folder:
            names = sorted(os.listdir(TEXTS))
            for i in range(1000):
                shutil.copy(os.path.join(TEXTS, names[i % len(names)]), os.path.join(folder, f"{i:04}.txt"))
            for i in range(1000):
                n = 2 + i % 63
                pairs = [(0, 1)] + [(j, k) for k in range(2, n) for j in (k - 2, k - 1)]
                lines = [f"point A{k}" for k in range(n)] + [f"distance A{j} A{k} {300 + (7 * j + k + i) % 50}" for j, k in pairs]
                with open(os.path.join(folder, f"{1000 + i}.txt"), "w") as file:
                    file.write("\n".join(lines))
            before = os.times()
            status, out, error = pattern("check", "--short", folder)
            after = os.times()
            took = after.children_user + after.children_system - before.children_user - before.children_system
            self.assertEqual((status, error), (1, ""))
            self.assertEqual(out.split("\n\n")[0].count("\n"), 1999)
            print(f"two thousand files: {took:.2f} s of one core", file=sys.stderr)

    def on_a_terminal(self, *arguments):
        """What the command says on a standard error that is a terminal."""
        ours, its = pty.openpty()
        running = subprocess.Popen(["pattern", *arguments], stdout=subprocess.DEVNULL, stderr=its)
        os.close(its)
        said = b""
        try:
            while piece := os.read(ours, 4096):
                said += piece
        except OSError:  # the terminal is gone once the command has ended
            pass
        os.close(ours)
        running.wait()
        return said.decode()

    def test_ten_thousand(self):
        chance = random.Random(25)
        with tempfile.TemporaryDirectory() as folder:
            paths, wanted = [], []
            for i in range(10_000):
                n = chance.randrange(2, 12)
                pairs = [(0, 1)] + [(j, k) for k in range(2, n) for j in (k - 2, k - 1)]
                lacking = chance.randrange(0, 3)
                pairs = pairs[: len(pairs) - min(lacking, len(pairs))]
                lines = [f"point A{k}" for k in range(n)] + [f"distance A{j} A{k} 30" for j, k in pairs]
                paths.append(os.path.join(folder, f"{i}.txt"))
                wanted.append("well" if len(pairs) == 2 * n - 3 else "under")
                with open(paths[-1], "w") as file:
                    file.write("\n".join(lines))
            start = time.monotonic()
            status, out, error = pattern("check", "--json", *paths)
            took = time.monotonic() - start
            found = json.loads(out)["answer"]["files"]
            self.assertEqual((status, error), (1, ""))
            self.assertEqual([row["file"] for row in found], paths)
            self.assertEqual([row["status"] for row in found], wanted)
            status, out, _ = pattern("check", "--quiet", *paths)
            self.assertIn(f"well       {wanted.count('well'):6}\n", out)
            self.assertRegex(self.on_a_terminal("check", "--quiet", *paths), r"\r[0-9]+ of 10000 files.*\r\x1b\[K$")
            print(f"ten thousand files: {took:.1f} s", file=sys.stderr)


class Pictures(unittest.TestCase):
    """Pictures are well-formed, show every element and constraint, and are to scale."""

    NAMES = ("gable", "frame", "braced", "lattice", "triangle", "hipped", "rails", "open", "light")

    def facts(self, name):
        return json.loads(pattern("show", "--json", text(name))[1])["answer"]

    def groups(self, picture):
        """The groups of a picture by the key that they light: the shapes of each, in the order they are drawn."""
        found = {}
        for group in picture.iter("{http://www.w3.org/2000/svg}g"):
            if "data-key" in group.attrib:
                found.setdefault(group.attrib["data-key"], []).extend(group)
        return found

    def draw(self, path, *options):
        status, out, error = pattern("draw", path, *options)
        self.assertEqual((status, error), (0, ""), path)
        return out

    def test_everything_is_shown(self):
        for name in self.NAMES:
            facts = self.facts(name)
            picture = xml.etree.ElementTree.fromstring(self.draw(text(name)))
            groups = self.groups(picture)
            wanted = [f"e{i}" for i in range(len(facts["elements"]))] + [f"k{k}" for k in range(len(facts["constraints"]))]
            self.assertEqual(sorted(groups), sorted(wanted), name)
            words = "".join(picture.itertext())
            for element in facts["elements"]:
                self.assertIn(element["name"], words)
            for constraint in facts["constraints"]:
                self.assertIn(constraint["text"], words)
            width, height = (float(picture.attrib[side]) for side in ("width", "height"))
            for shape in picture.iter("{http://www.w3.org/2000/svg}circle"):
                self.assertTrue(0 < float(shape.attrib["cx"]) < width and 0 < float(shape.attrib["cy"]) < height, name)

    def test_distances_are_to_scale(self):
        for name in ("gable", "frame", "braced", "lattice"):
            facts = self.facts(name)
            groups = self.groups(xml.etree.ElementTree.fromstring(self.draw(text(name))))
            places = {}
            for i, element in enumerate(facts["elements"]):
                if element["kind"] == "point":
                    dot = next(shape for shape in groups[f"e{i}"] if shape.tag.endswith("circle"))
                    places[element["name"]] = (float(dot.attrib["cx"]), float(dot.attrib["cy"]))
            scales = []
            for constraint in facts["constraints"]:
                if constraint["demand"] == "size" and all(end in places for end in constraint["ends"]):
                    scales.append(math.dist(*(places[end] for end in constraint["ends"])) / constraint["size"])
            self.assertGreater(len(scales), 2)
            self.assertLess(max(scales) / min(scales), 1.01, name)

    def test_colours(self):
        self.assertNotIn("stroke-dasharray", self.draw(text("gable")))
        self.assertIn("stroke-dasharray", self.draw(text("frame")))
        braced = xml.etree.ElementTree.fromstring(self.draw(text("braced")))
        red = {key for key, shapes in self.groups(braced).items() if any("#d00000" in shape.attrib.values() for shape in shapes)}
        self.assertEqual(red, {"e0", "e1", "e2", "e3", "k0", "k1", "k2", "k3", "k4", "k5"})

    def test_every_stored_sheet_is_drawn(self):
        for name in sorted(os.listdir(SHEETS)):
            if name.endswith(".sheet") and not name.startswith("refused"):
                xml.etree.ElementTree.fromstring(self.draw(os.path.join(SHEETS, name)))

    def test_the_pictures_of_the_guide_are_drawn_again(self):
        stored = os.path.join(ROOT, "docs", "pictures")
        with tempfile.TemporaryDirectory() as folder:
            subprocess.run([os.path.join(stored, "make"), folder], check=True)
            names = sorted(name for name in os.listdir(stored) if name.endswith(".svg"))
            self.assertEqual(sorted(os.listdir(folder)), names)
            with open(os.path.join(ROOT, "docs", "GUIDE.md")) as file:
                self.assertEqual(sorted(re.findall(r"\(pictures/(.*?\.svg)\)", file.read())), names)
            for name in names:
                old, new = (re.split(r"(-?[0-9]+\.[0-9]+)", open_text(os.path.join(place, name))) for place in (stored, folder))
                self.assertEqual(old[::2], new[::2], name)
                # numbers may differ by rounding on another machine
                for a, b in zip(old[1::2], new[1::2]):
                    self.assertAlmostEqual(float(a), float(b), delta=0.25, msg=name)

    def test_sizes_and_labels(self):
        def shown(*options):
            picture = xml.etree.ElementTree.fromstring(self.draw(text("gable"), *options))
            words = {shape.text for shape in picture.iter("{http://www.w3.org/2000/svg}text") if "label" in shape.attrib.get("class", "")}
            return float(picture.attrib["width"]), words & {"ridge", "sill", "A"}, words & {"600.0", "700.0", "90.00°"}

        names, sizes = {"ridge", "sill", "A"}, {"600.0", "700.0", "90.00°"}
        self.assertEqual(shown()[1:], (names, sizes))
        self.assertEqual(shown("--labels", "names")[1:], (names, set()))
        self.assertEqual(shown("--labels", "sizes")[1:], (set(), sizes))
        self.assertEqual(shown("--labels", "none")[1:], (set(), set()))
        self.assertLessEqual(shown("--size", "900")[0], 900)
        self.assertGreater(shown("--size", "1800x1600")[0], 1200)
        for wrong in (["--size", "0"], ["--size", "x"], ["--size", "900x"], ["--size", "1e3"], ["--labels", "some"], ["--html", "--step", "1"]):
            self.assertEqual(pattern("draw", text("gable"), *wrong)[0], 64, wrong)

    def test_lines_have_arrows(self):
        for name in ("gable", "signs", "quarries"):
            facts = self.facts(name)
            groups = self.groups(xml.etree.ElementTree.fromstring(self.draw(text(name))))
            for i, element in enumerate(facts["elements"]):
                heads = [shape for shape in groups[f"e{i}"] if shape.attrib.get("d", "").endswith("z")]
                self.assertEqual(len(heads), 1 if element["kind"] == "line" else 0, (name, element))

    def test_steps(self):
        with tempfile.TemporaryDirectory() as folder:
            inside = os.path.join(folder, "new", "steps")
            status, out, _ = pattern("draw", text("gable"), "--steps", inside)
            words = pattern("plan", "--words", text("gable"))[1].splitlines()
            self.assertEqual((status, sorted(os.listdir(inside))), (0, [f"step-{k:02}.svg" for k in range(1, len(words) + 1)]))
            self.assertEqual(out.split(), [os.path.join(inside, name) for name in sorted(os.listdir(inside))])
            for k, told in enumerate(words, 1):
                picture = open_text(os.path.join(inside, f"step-{k:02}.svg"))
                self.assertEqual(picture, self.draw(text("gable"), "--step", str(k)))
                root = xml.etree.ElementTree.fromstring(picture)
                lines = " ".join("".join(root.itertext()).split())
                self.assertIn(told.split(". ", 1)[1].split(";")[0].split(",")[0], lines)
                # three parts, a joint of three, and what is open next
                joint = [shape for shape in root.iter() if shape.attrib.get("class") == "joint"]
                self.assertEqual(len(joint), 3)
                self.assertIn("open next" if k < len(words) else "nothing is open next", lines)
        for wrong in ("0", "5", "-1", "one"):
            self.assertEqual(pattern("draw", text("gable"), "--step", wrong)[0], 64, wrong)
        self.assertEqual(pattern("draw", text("braced"), "--step", "1")[0], 64)
        self.assertEqual(pattern("draw", text("gable"), "--steps", "/dev/null/x")[0], 3)

    def test_the_legend_fits(self):
        """No line below a picture is wider than it, in letters of 13 pixels, and of 15 in a heading."""
        for name in sorted(os.listdir(TEXTS)):
            for step in ["0", "1", "2", "3"]:
                picture = pattern("draw", text(name[:-4]), *([] if step == "0" else ["--step", step]))[1]
                for kind, most in [("head", 74), ("plain", 90), ("loud", 90)]:
                    for words in re.findall(f'class="{kind}">([^<]*)', picture):
                        self.assertLessEqual(len(words), most, f"{name}, step {step}: {words}")

    def test_the_page(self):
        for name in self.NAMES:
            page = self.draw(text(name), "--html")
            self.assertIn(pattern("report", text(name))[1].strip(), page)
            self.assertNotRegex(page.replace('xmlns="http://www.w3.org/2000/svg"', ""), "https?:|src=|href=|url\\(|@import")
            rows = re.findall('<tr tabindex="0" data-key="([pk][0-9]+)"', page)
            self.assertEqual(len(rows), len(set(rows)))
            body = re.sub("<script>.*?</script>|<style>.*?</style>|<!DOCTYPE html>|<meta[^>]*>", "", page, flags=re.DOTALL)
            xml.etree.ElementTree.fromstring(body)


class Places(unittest.TestCase):
    """Places that a layout found, in each form, and read again."""

    NAMES = sorted(name[: -len(".txt")] for name in os.listdir(TEXTS) if name != "open.txt")

    def places(self, *arguments):
        return json.loads(pattern("place", "--json", *arguments)[1])["answer"]["elements"]

    def near(self, a, b, slack):
        for x, y in zip(a, b):
            self.assertAlmostEqual(x, y, delta=slack)

    def test_text_is_read_again(self):
        for name in self.NAMES:
            status, placed, error = pattern("place", text(name))
            self.assertEqual((status, error), (0, ""), name)
            with tempfile.NamedTemporaryFile(suffix=".txt") as file:
                file.write(placed.encode())
                file.flush()
                # the same sheet in bytes, the same places but for rounding, and the same text again
                self.assertEqual(subprocess.run(["pattern", "make", text(name)], capture_output=True).stdout,
                                 subprocess.run(["pattern", "make", file.name], capture_output=True).stdout)
                self.assertEqual(pattern("show", file.name)[1], placed)
                for old, new in zip(self.places(text(name)), self.places(file.name), strict=True):
                    self.near(old.get("at", old.get("from")), new.get("at", new.get("from")), 0.05)

    def test_a_scene_is_the_picture(self):
        """The drawing as data has the places, shapes, words and colours of the picture, and labels apart at any scale."""
        for name in self.NAMES:
            scene = json.loads(pattern("scene", "--size", "900x700", text(name))[1])["answer"]
            picture = xml.etree.ElementTree.fromstring(pattern("draw", text(name))[1])
            groups = {group.attrib["data-key"]: group for group in picture.iter("{http://www.w3.org/2000/svg}g") if "data-key" in group.attrib}
            for i, (element, place) in enumerate(zip(scene["elements"], self.places(text(name)), strict=True)):
                self.assertEqual((element["name"], element["kind"]), (place["name"], place["kind"]))
                if "at" in place:
                    self.near(element["at"], place["at"], 0.001)
                self.assertIn(element["colour"], xml.etree.ElementTree.tostring(groups[f"e{i}"]).decode())
            facts = json.loads(pattern("show", "--json", text(name))[1])["answer"]
            for k, (shape, fact) in enumerate(zip(scene["constraints"], facts["constraints"], strict=True)):
                self.assertEqual((shape["ends"], shape["text"]), (fact["ends"], fact["text"]))
                self.assertIn(shape["colour"], xml.etree.ElementTree.tostring(groups[f"k{k}"]).decode())
            [left, low], [right, high] = scene["frame"]
            for scale in (0.5, 1.5):
                window = f"{left - 100},{high + 100},{scale}"
                seen = json.loads(pattern("scene", "--size", "900x700", "--window", window, text(name))[1])["answer"]
                font = 9 if seen["dense"] else 11
                sizes = [shape for shape in seen["constraints"] if shape["label"]]
                boxes = [[part * scale for part in shape["label"]] + [0.3 * font * len(shape["words"])] for shape in sizes]
                for i, (x, y, half) in enumerate(boxes):
                    for z, w, other in boxes[:i]:
                        self.assertTrue(abs(x - z) >= half + other or abs(y - w) >= font, (name, scale))

    def test_a_drawing_of_few_elements(self):
        def scene(source):
            done = subprocess.run(["pattern", "scene", "-", "--json"], input=source.encode(), capture_output=True)
            return json.loads(done.stdout)

        self.assertEqual([scene(source)["answer"]["elements"] for source in ("# nothing yet\n", "")], [[], []])
        alone = scene("line sill from 10 20 to 300 20\n")["answer"]
        self.assertEqual([alone["elements"][0]["from"], alone["elements"][0]["to"]], [[10, 20], [300, 20]])
        self.assertEqual(alone["frame"], [[10, 20], [300, 20]])
        self.assertEqual(scene("point A\nangle A A 7\n")["errors"][0]["line"], 2)

    def test_a_drag_holds_the_dimensions(self):
        """What is pulled is where it is wanted, every size is met, a well sheet moves as one, and the sheet stays the same."""
        for name in self.NAMES:
            old = self.places(text(name))
            well = json.loads(pattern("check", "--json", text(name))[1])["answer"]["files"][0]["status"] == "well"
            for i, element in list(enumerate(old))[::3]:
                pull = f"{element['name']} from 10 10 to 47 -13"
                status, new, error = pattern("drag", text(name), pull)
                self.assertEqual((status, error), (0, ""), (name, pull))
                with tempfile.NamedTemporaryFile(suffix=".txt") as file:
                    file.write(new.encode())
                    file.flush()
                    self.assertEqual(len(re.findall(" (at|from) ", pattern("show", file.name)[1])), len(old), (name, pull))
                    self.assertEqual(subprocess.run(["pattern", "make", text(name)], capture_output=True).stdout,
                                     subprocess.run(["pattern", "make", file.name], capture_output=True).stdout)
                    moved = self.places(file.name)
                    self.assertEqual(pattern("place", file.name)[0], 0, (name, pull))
                for k, (before, after) in enumerate(zip(old, moved, strict=True)):
                    if "at" in before and (k == i or well):
                        self.near(after["at"], [before["at"][0] + 37, before["at"][1] - 23], 0.1)

    def test_a_drag_racks_and_leaves_the_rest(self):
        """A frame of four bars racks, a point that nothing holds stays, and comments do."""
        source = "# racks\npoint A at 0 0\npoint B at 600 0 # right\npoint C at 600 400\npoint D at 0 400\npoint E at 9 9\n"
        source += "distance A B 600\ndistance B C 400\ndistance C D 600\ndistance A D 400\n"
        with tempfile.NamedTemporaryFile(suffix=".txt") as file:
            file.write(source.encode())
            file.flush()
            _, new, _ = pattern("drag", file.name, "D from 0 400 to 100 400")
            self.assertEqual([line for line in new.splitlines() if "#" in line][0], "# racks")
            self.assertIn("point E at 9 9\n", new)
            self.assertTrue(re.search("point B at 60[0-9.]+ [0-9.]+ # right\n", new), new)
            self.assertTrue(re.search("point D at (100|99.99[0-9]|100.00[0-9]) (400|399.99[0-9]|400.00[0-9])\n", new), new)
            for wrong in ("D", "D to 1 2", "D from 1 2", "Z from 0 0 to 1 1", "from 0 0 to 1 1", "D from 0 0 to 1 1 1"):
                self.assertEqual(pattern("drag", file.name, wrong)[0], 2, wrong)
            self.assertIn("farther than 1000000 mm", pattern("drag", file.name, "E from 0 0 to 999999 0")[2])
            self.assertEqual(pattern("drag", file.name, "E from 0 0 to 0 0")[1], source)

    def test_what_is_measured_is_drawn(self):
        """What `measure` says of two elements may be added, and the layout stays as it was."""
        for name, a, b in (("frame", "A", "C"), ("lattice", "A", "B"), ("gable", "ridge", "sill"), ("signs", "0", "1")):
            choices = json.loads(pattern("measure", text(name), a, b, "--json")[1])["answer"]
            self.assertEqual("".join(choice["text"] + "\n" for choice in choices["statements"]), pattern("measure", text(name), a, b)[1])
            places = {element["name"]: element for element in self.places(text(name))}
            sized = [choice for choice in choices["statements"] if choice["demand"] == "size"][0]
            if "at" in places.get(a, {}) and "at" in places.get(b, {}):
                self.assertAlmostEqual(math.dist(places[a]["at"], places[b]["at"]), sized["size"] / 10, delta=0.051)
        self.assertEqual(pattern("measure", text("gable"), "A", "sill")[1].splitlines()[0], "on A sill")
        self.assertEqual(json.loads(pattern("measure", text("gable"), "A", "sill", "--json")[1])["answer"]["held"], 2)
        self.assertEqual(pattern("measure", text("gable"), "A", "A")[0], 64)
        self.assertEqual(pattern("measure", text("gable"), "A", "9")[0], 64)

    def test_a_text_is_changed_in_place(self):
        """What `edit` draws, removes, renames, moves and resizes is what the text then says, and all else stays."""
        with open(text("gable")) as file:
            source = file.read()

        def edited(*changes):
            status, out, error = pattern("edit", text("gable"), *changes)
            self.assertEqual((status, error), (0, ""), changes)
            return out

        self.assertEqual(edited(), source)
        self.assertEqual(edited("remove ridge"), source.replace("point ridge\n", "").split("distance A ridge")[0])
        self.assertEqual(edited("rename A foot", "rename foot A"), source)
        self.assertEqual(edited("resize A B 610.0 mm"), source.replace("600.0", "610.0"))
        self.assertEqual(edited("remove A B", "distance A B 600.0 mm"), source.replace("distance A B 600.0 mm\n", "") + "distance A B 600.0 mm\n")
        drawn = edited("circle eye 45 at 300 500", "tangent eye sill", "distance A eye 400")
        self.assertIn("point ridge\ncircle eye 45 at 300 500\n", drawn)
        self.assertTrue(drawn.endswith("65 cm\ntangent eye sill\ndistance A eye 400\n"))
        for change, words in (
            ("remove roof", 'expected the name of an element, found "roof"; did you mean'),
            ("distance A B 7", "refused by rule 7"),
            ("distance A sill 0", "refused by rule 7"),
            ("angle sill sill 7", "refused by rule 6"),
            ("resize A B 5000", "refused by rule 9"),
            ("paint A", "expected remove, rename, move, resize, radius, or a statement: point, line"),
        ):
            status, out, error = pattern("edit", text("gable"), change)
            self.assertEqual((status, out), (2, ""), change)
            self.assertIn(words.split(";")[0], error, change)
        self.assertEqual(pattern("edit", os.path.join(SHEETS, "example.sheet"), "remove A")[0], 2)

    def test_which_part_cannot_take_it(self):
        """`add --json` names the part that is fixed already, and what fixes it."""
        found = json.loads(pattern("add", text("gable"), "distance A sill 7", "--json")[1])
        self.assertEqual((found["errors"][0]["rule"], found["errors"][0]["over"]), (7, None))
        found = json.loads(pattern("add", text("gable"), "distance ridge sill 7", "--json")[1])["errors"][0]
        self.assertEqual(found["rule"], 11)
        self.assertEqual(found["over"], {"part": ["sill", "A", "B", "ridge"], "fixed_by": [2, 4, 6, 7, 8]})

    def test_tables(self):
        for name in self.NAMES:
            rows = list(csv.DictReader(pattern("place", "--csv", text(name))[1].splitlines()))
            for row, element in zip(rows, self.places(text(name)), strict=True):
                self.assertEqual((row["name"], row["kind"]), (element["name"], element["kind"]))
                self.near([float(row["x"]), float(row["y"])], element.get("at", element.get("from")), 0.001)
                if element["kind"] == "line":
                    self.near([float(row["to_x"]), float(row["to_y"])], element["to"], 0.001)
                self.assertEqual(row["radius"] != "", element["kind"] == "circle")

    def test_drawings_open_in_another_program(self):
        """ezdxf, a program of Debian's, finds no fault with them, and reads what the places say."""
        script = (
            "import ezdxf, json, sys\n"
            "drawing = ezdxf.readfile(sys.argv[1])\n"
            "point = lambda at: [at.x, at.y]\n"
            "say = {'POINT': lambda d: [point(d.location)], 'LINE': lambda d: [point(d.start), point(d.end)],\n"
            "       'CIRCLE': lambda d: [point(d.center), [d.radius]]}\n"
            "faults = len(drawing.audit().errors)\n"
            "print(json.dumps([drawing.dxfversion, faults, [[e.dxftype(), e.dxf.layer, say[e.dxftype()](e.dxf)] for e in drawing.modelspace()]]))\n"
        )
        with tempfile.TemporaryDirectory() as folder:
            for name in self.NAMES:
                path = os.path.join(folder, name + ".dxf")
                self.assertEqual(pattern("place", "--dxf", text(name), "-o", path)[0], 0)
                done = subprocess.run(["/usr/bin/python3", "-c", script, path], capture_output=True)
                self.assertEqual(done.returncode, 0, done.stderr.decode())
                version, faults, entities = json.loads(done.stdout)
                self.assertEqual((version, faults), ("AC1009", 0), name)
                for (kind, layer, numbers), element in zip(entities, self.places(text(name)), strict=True):
                    self.assertEqual((kind.lower(), layer), (element["kind"], element["kind"].upper() + "S"))
                    wanted = {"point": ["at"], "line": ["from", "to"], "circle": ["at"]}[element["kind"]]
                    for found, field in zip(numbers, wanted):
                        self.near(found, element[field], 1e-5)
                    if kind == "CIRCLE":
                        self.assertEqual(numbers[1], [element["radius"]])

    def test_a_layout_that_is_not_found(self):
        status, out, error = pattern("place", text("open"))
        self.assertEqual(status, 1)
        self.assertIn("not met: distance A B 1.0 mm", error)
        self.assertIn("point A at 0 0\n", out)

    def test_signs(self):
        """Left of the arrow is plus, angles turn against the clock, contacts are as the picture of the signs has them."""
        found = {element["name"]: element for element in self.places(text("signs"))}
        (x, y), (z, w) = found["sill"]["from"], found["sill"]["to"]
        left = lambda name: ((z - x) * (found[name]["at"][1] - y) - (w - y) * (found[name]["at"][0] - x)) / math.dist((x, y), (z, w))
        for name, wanted in (("plus", 160), ("minus", -160), ("left", 70), ("right", -70), ("ring", 110), ("beside", -60)):
            self.assertAlmostEqual(left(name), wanted, delta=0.06)
        way = lambda line: math.atan2(line["to"][1] - line["from"][1], line["to"][0] - line["from"][0])
        self.assertAlmostEqual(math.degrees(way(found["brace"]) - way(found["sill"])), 60, delta=0.001)
        self.assertAlmostEqual(math.dist(found["inside"]["at"], found["ring"]["at"]), 110 - 45, delta=0.06)
        self.assertAlmostEqual(math.dist(found["beside"]["at"], found["right"]["at"]), 60 + 70, delta=0.06)


class Documents(unittest.TestCase):
    """What README and the guide show is what the command prints."""

    def test_readme(self):
        readme = open_text(os.path.join(ROOT, "README.md"))
        shown = [open_text(text("frame")), pattern("check", text("frame"))[1].replace(text("frame"), "frame.txt")]
        for name in ("rails", "open_triangle"):
            path = os.path.join(ROOT, "examples", "sheets", name + ".sheet")
            shown.append(pattern("check", path)[1].replace(ROOT + os.sep, ""))
        for wanted in shown:
            self.assertIn("\n".join("    " + line for line in wanted.splitlines()), readme)

    def test_guide(self):
        guide = open_text(os.path.join(ROOT, "docs", "GUIDE.md"))
        section = guide[guide.index("## Reading a report") : guide.index("## Common mistakes")]
        rows = re.findall(r"^\| `(.*?)` \|", section, re.MULTILINE)
        self.assertEqual(rows, pattern("report", text("gable"))[1].splitlines())
        wrong = pattern("check", "-", text=b"pont A B\npoint C\nline l\ndistance C l 0\ndistance C l 100,5\n")[1]
        for printed in (pattern("plan", "--words", text("gable"))[1], wrong):
            self.assertIn("\n".join("    " + line for line in printed.splitlines()), guide)
        for name in ("frame", "lattice"):
            shown = pattern("check", text(name))[1].replace(text(name), name + ".txt")
            self.assertIn("\n".join("    " + line for line in shown.splitlines()), guide)
        shown = pattern("check", text("rectangle"))[1].replace(text("rectangle"), "rectangle.txt").splitlines()
        block = guide[guide.index("    rectangle.txt: over") :].split("\n\n")[0].splitlines()
        cut = block.index("      ..")
        indented = ["    " + line for line in shown]
        self.assertEqual((indented[:cut], indented[-1]), (block[:cut], block[-1]))


class Completion(unittest.TestCase):
    """The completion script for bash completes commands, options and files."""

    def complete(self, *words):
        script = 'eval "$(pattern completion bash)"; COMP_WORDS=("$@"); COMP_CWORD=$(($# - 1)); _pattern; printf "%s\\n" "${COMPREPLY[@]}"'
        done = subprocess.run(["bash", "-c", script, "bash", *words], capture_output=True, cwd=TEXTS)
        return done.stdout.decode().split()

    def test_bash(self):
        self.assertEqual(self.complete("pattern", "ch"), ["check", "chain"])
        self.assertEqual(self.complete("pattern", "draw", "--h"), ["--html", "--help"])
        self.assertEqual(self.complete("pattern", "draw", "ga"), ["gable.txt"])

    def test_every_command_and_option_is_there(self):
        commands = [line.split()[0] for line in pattern("--help")[1].splitlines() if re.match("  [a-z]", line)]
        for shell in ("bash", "zsh", "fish"):
            status, script, _ = pattern("completion", shell)
            self.assertEqual(status, 0)
            for command in commands:
                self.assertIn(command, script)
        self.assertEqual(pattern("completion", "csh")[0], 64)


if __name__ == "__main__":
    unittest.main()
