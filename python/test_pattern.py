"""Tests of the Python module over the shared library."""

import doctest
import os
import random
import re
import unittest

import pattern
from pattern import CIRCLE, LINE, POINT, Constraint, Facts, Refused, Verdict

ROOT = os.path.join(os.path.dirname(os.path.abspath(__file__)), "..")
SHEETS = os.path.join(ROOT, "tests", "programs")

#: Four points, five distances of 30 mm.
EXAMPLE = Facts([POINT] * 4, [Constraint(a, b, 300) for a, b in [(0, 1), (0, 2), (1, 2), (1, 3), (2, 3)]])


def stored(path):
    """A file of the stored sheets and plans."""
    with open(os.path.join(SHEETS, path), "rb") as file:
        return file.read()


def load_tests(loader, tests, ignore):
    """The examples of the documentation are tests too."""
    tests.addTests(doctest.DocTestSuite(pattern))
    return tests


class Calls(unittest.TestCase):
    """Every function, on sheets whose answers are known."""

    def setUp(self):
        self.sheet = pattern.write(EXAMPLE)

    def refused(self, rule, call, *arguments):
        with self.assertRaises(Refused) as caught:
            call(*arguments)
        self.assertEqual(caught.exception.rule, rule)

    def test_stored_reports(self):
        folder = os.path.join(SHEETS, "report")
        for name in sorted(os.listdir(folder)):
            if not name.endswith(".sheet"):
                continue
            sheet, wanted = stored("report/" + name), stored("report/" + name[:-5] + "out").decode()
            if wanted.startswith("refused"):
                for call in (pattern.report, pattern.verdict, pattern.read, pattern.rewrite, pattern.over, pattern.plan, pattern.clusters):
                    self.refused(int(wanted.split()[1]), call, sheet)
                continue
            self.assertEqual(pattern.report(sheet), wanted)
            self.assertEqual(pattern.verdict(sheet).name.lower(), wanted.split()[1])
            self.assertEqual(pattern.write(pattern.read(sheet)), pattern.rewrite(sheet))

    def test_facts(self):
        self.assertEqual(pattern.read(self.sheet), EXAMPLE)
        on = Facts([LINE, POINT], [Constraint(0, 1)])
        self.assertEqual(pattern.write(on), b"PF01\x02\x01\x01\0\x01\0")
        self.assertEqual(pattern.read(pattern.write(on)), on)
        self.refused(8, pattern.write, Facts([POINT, POINT], [Constraint(0, 1)]))
        self.refused(3, pattern.write, Facts([POINT]))
        self.refused(3, pattern.write, Facts([POINT] * 1000))
        self.refused(5, pattern.write, Facts([POINT] * 64, [Constraint(0, 1, 1)] * 1000))

    def test_random_facts(self):
        chance = random.Random(11)
        for _ in range(300):
            n = chance.randrange(2, 65)
            opening = chance.choice([1, 2])
            elements = [chance.choice([POINT, LINE, CIRCLE(chance.randrange(1, 40_001))][: opening + 1]) for _ in range(n)]
            constraints = []
            for first in range(n):
                for second in range(first + 1, n):
                    if len(constraints) < 200 and chance.random() < 3 / n:
                        lines = [elements[first], elements[second]].count(LINE)
                        size = chance.randrange(1, [40_001, 40_001, 18_000][lines]) * (chance.choice([1, -1]) if lines else 1)
                        constraints.append(Constraint(first, second, None if lines == 1 and chance.random() < 0.3 else size))
            facts = Facts(elements, constraints, opening)
            self.assertEqual(pattern.read(pattern.write(facts)), facts)

    def test_circles(self):
        touch, other = (lambda a, b: Constraint(a, b, tangent=True)), (lambda a, b: Constraint(a, b, tangent=True, other=True))
        light = Facts([LINE, LINE, CIRCLE(2500), CIRCLE(800), POINT], [touch(0, 2), other(1, 2), other(2, 3), Constraint(1, 3), touch(2, 4)], 2)
        sheet = pattern.write(light)
        self.assertEqual(sheet[:4], b"PF02")
        self.assertEqual(pattern.read(sheet), light)
        self.assertEqual(pattern.verdict(sheet), Verdict.UNDER)
        self.assertEqual(pattern.read(pattern.write(Facts([POINT] * 2, opening=2))).opening, 2)
        self.refused(18, pattern.write, Facts(light.elements, light.constraints, 1))
        self.refused(19, pattern.write, Facts([POINT, CIRCLE(0)], opening=2))
        self.refused(19, pattern.write, Facts([POINT, CIRCLE(40_001)], opening=2))
        self.refused(20, pattern.write, Facts([CIRCLE(5), CIRCLE(5)], [other(0, 1)], 2))
        self.refused(8, pattern.write, Facts([POINT, CIRCLE(5)], [other(0, 1)], 2))
        self.refused(1, pattern.write, Facts([POINT] * 2, opening=3))
        sketch = pattern.Sketch(sheet)
        self.assertEqual((sketch.ask(Constraint(0, 1, 9000)), sketch.count()), (Verdict.UNDER, 5))
        self.assertEqual((sketch.place(touch(3, 4), 5), sketch.count()), (Verdict.UNDER, 6))
        self.assertEqual(pattern.read(sketch.sheet()).constraints[5], touch(3, 4))

    def test_damaged_sheets(self):
        chance = random.Random(12)
        sheets = [pattern.longest(n) for n in (2, 9, 64)]
        sheets += [stored("report/" + name + ".sheet") for name in ("some_tags", "hipped_frame", "touching")]
        for _ in range(5000):
            sheet = bytearray(chance.choice(sheets))
            if chance.random() < 0.3:
                del sheet[chance.randrange(len(sheet)) :]
            for _ in range(chance.randrange(3)):
                if sheet:
                    sheet[chance.randrange(len(sheet))] = chance.randrange(256)
            try:
                plain = pattern.rewrite(bytes(sheet))
            except Refused as refused:
                self.refused(refused.rule, pattern.read, bytes(sheet))
            else:
                self.assertEqual(pattern.write(pattern.read(bytes(sheet))), plain)

    def test_steps_and_plans(self):
        self.assertEqual(pattern.plan(self.sheet), [(0, 1, 2), (3, 4, 5)])
        self.assertEqual(pattern.open_merges(self.sheet, 0), [(0, 1, 2), (2, 3, 4)])
        self.assertEqual([pattern.open_merges(self.sheet, steps) for steps in (1, 2, 9)], [[(3, 4, 5)], [], []])
        first, second = pattern.steps(self.sheet)
        self.assertEqual(first, pattern.Step(5, (0, 1, 2), frozenset({0, 1, 2}), "ppp", 2))
        self.assertEqual((second.made, second.ways), (6, None))
        self.assertEqual(pattern.saved_steps(self.sheet, [(4, 3, 2), (0, 5, 1)])[0].parts, (2, 3, 4))
        self.assertIn("step 5 from 2 3 4", pattern.check_plan(self.sheet, [(2, 3, 4), (0, 1, 5)]))
        self.refused(12, pattern.check_plan, self.sheet, [(2, 3)])
        self.refused(13, pattern.check_plan, self.sheet, [(2, 3, 258)])
        self.refused(16, pattern.check_plan, self.sheet, [])
        self.assertEqual(pattern.part_steps(self.sheet, 5), 1)
        self.assertEqual(pattern.part(self.sheet, 5), "step 5 from 0 1 2 joint 0 1 2 kind ppp ways 2\n")
        self.assertEqual(pattern.part(self.sheet, 0), "")
        self.refused(26, pattern.part, self.sheet, 7)

    def test_clusters(self):
        self.assertEqual(pattern.clusters(self.sheet), [pattern.Cluster(frozenset(range(4)), frozenset(range(5)))])
        self.assertEqual(pattern.initial(self.sheet)[3], {1, 3})
        self.assertEqual(pattern.shared({0, 5, 63}, {5, 6, 63}), {5, 63})
        self.assertEqual(pattern.over(self.sheet), None)
        over = pattern.write(Facts([POINT] * 4, [*EXAMPLE.constraints, Constraint(0, 3, 300)]))
        self.assertEqual(pattern.over(over), pattern.Over(5, frozenset(range(4))))
        self.assertEqual(pattern.clusters(over), [])
        strip = pattern.clusters(pattern.longest(64))
        self.assertEqual((len(strip), len(strip[0].elements), strip[0].rests_on), (1, 64, frozenset(range(125))))

    def test_chains_and_missing(self):
        frame = pattern.write(Facts([POINT] * 5, [Constraint(a, b, 300) for a, b in [(0, 1), (0, 3), (1, 2), (2, 3)]]))
        self.assertEqual(pattern.chain(frame, 0, 2), [0, 2])
        self.assertEqual(pattern.chain(frame, 0, 0), [])
        self.assertIsNone(pattern.chain(frame, 0, 4))
        self.refused(25, pattern.chain, frame, 0, 5)
        self.assertEqual(pattern.missing(frame), [(0, 2), (0, 4), (1, 4)])
        prices = [pattern.UNMEASURED] * 10
        self.refused(23, pattern.missing, frame, prices)
        self.refused(21, pattern.missing, frame, prices[1:])
        self.refused(22, pattern.missing, frame, [1001] + prices[1:])

    def test_sketch(self):
        sketch = pattern.Sketch(b"PF01\x02\0\0")
        side = Constraint(0, 1, 300)
        self.assertEqual((sketch.ask(side), sketch.count()), (Verdict.WELL, 0))
        self.assertEqual(sketch.clusters(), [])
        self.assertEqual((sketch.place(side, 0), sketch.count()), (Verdict.WELL, 1))
        self.assertEqual(sketch.clusters(), [pattern.Cluster(frozenset({0, 1}), frozenset({0}))])
        self.refused(7, sketch.ask, side)
        self.refused(24, sketch.place, side, 0)
        self.assertEqual(pattern.verdict(sketch.sheet()), Verdict.WELL)
        self.refused(11, pattern.Sketch, stored("report/over.sheet"))

    def test_sketch_clusters(self):
        """The clusters of a held sketch are those of the sheet in it, after each placing."""
        sketch, strip = pattern.Sketch(pattern.write(Facts([POINT] * 9))), pattern.read(pattern.longest(9)).constraints
        for held, side in enumerate(strip):
            sketch.place(side, held)
            self.assertEqual(sketch.clusters(), pattern.clusters(sketch.sheet()))
        self.assertEqual([cluster.rests_on for cluster in sketch.clusters()], [frozenset(range(len(strip)))])

    def test_nothing_is_cut(self):
        """What does not fit its field is refused before the call; a call would answer for another number."""
        sheet, big = self.sheet, 2**64
        facts = lambda *fields, **more: Facts([POINT] * 4, [Constraint(*fields, **more)])
        cut = [
            lambda: pattern.write(facts(0, 258, 300)),
            lambda: pattern.write(facts(-1, 2, 300)),
            lambda: pattern.write(facts(256, 257, 300)),
            lambda: pattern.write(facts(0, 1, 2**32 + 300)),
            lambda: pattern.write(facts(0, 1, -(2**31) - 1)),
            lambda: pattern.write(Facts([POINT, CIRCLE(2**32 + 5)])),
            lambda: pattern.write(Facts([POINT, CIRCLE(-1)])),
            lambda: pattern.write(Facts([pattern.Element(256), POINT])),  # type: ignore[arg-type]
            lambda: pattern.write(Facts([POINT] * 2, opening=big + 1)),
            lambda: pattern.check_plan(sheet, [(0, 1, 65_538)]),
            lambda: pattern.check_plan(sheet, [(0, 1, 2), (3, 4, 65_541)]),
            lambda: pattern.check_plan(sheet, [(0, 1), (2, 3, 4, 5)]),
            lambda: pattern.saved_steps(sheet, [(0, -1, 2)]),
            lambda: pattern.missing(sheet, [65_536] * 6),
            lambda: pattern.missing(sheet, [-1] * 6),
            lambda: pattern.chain(sheet, big, 2),
            lambda: pattern.chain(sheet, 0, -1),
            lambda: pattern.open_merges(sheet, big),
            lambda: pattern.part(sheet, big + 5),
            lambda: pattern.part_steps(sheet, -1),
            lambda: pattern.part_bytes(sheet, big),
            lambda: pattern.card(big),
            lambda: pattern.longest(big + 5),
            lambda: pattern.rule_text(2**32 + 9),
            lambda: pattern.shared({64}, {0}),
            lambda: pattern.shared({0}, {-1}),
            lambda: pattern.Sketch(sheet).ask(Constraint(0, 259, 300)),
            lambda: pattern.Sketch(sheet).place(Constraint(0, 3, 2**32 + 300), 5),
            lambda: pattern.Sketch(sheet).place(Constraint(0, 3, 300), big + 5),
        ]
        for place, call in enumerate(cut):
            with self.assertRaises(ValueError, msg=place):
                call()
        wrong = [
            lambda: pattern.verdict(12),
            lambda: pattern.verdict("PF01"),
            lambda: pattern.write(facts(0, 1, 3.5)),
            lambda: pattern.longest("9"),
        ]
        for call in wrong:
            with self.assertRaises(TypeError):
                call()
        self.assertEqual(pattern.verdict(memoryview(sheet)), pattern.verdict(bytearray(sheet)))
        self.assertEqual(facts(0, 1, tangent=2).constraints[0]._map(), 4)  # type: ignore[arg-type]

    def test_names(self):
        verdict = pattern.verdict(self.sheet)
        self.assertEqual((str(verdict), f"{verdict}", f"{verdict:6}|", f"{LINE.kind}"), ("well", "well", "well  |", "line"))
        self.assertEqual((verdict, int(verdict), verdict.name), (2, 2, "WELL"))

    def test_the_opening_follows_from_the_kinds(self):
        self.assertEqual(Facts([POINT, CIRCLE(5)]).opening, 2)
        self.assertEqual(Facts([POINT, LINE]).opening, 1)
        self.assertEqual(pattern.write(Facts([POINT, CIRCLE(5)], [Constraint(0, 1, tangent=True)]))[:4], b"PF02")
        self.refused(18, pattern.write, Facts([POINT, CIRCLE(5)], opening=1))

    def test_ends_in_order(self):
        elements = [LINE, LINE, POINT]
        self.assertEqual(Constraint(1, 0, 9000).ordered(elements), Constraint(0, 1, -9000))
        self.assertEqual(Constraint(2, 0, -300).ordered(elements), Constraint(0, 2, -300))
        self.assertEqual(Constraint(2, 0).ordered(elements), Constraint(0, 2))
        self.assertEqual(Constraint(0, 1, 9000).ordered(elements), Constraint(0, 1, 9000))

    def test_card(self):
        self.assertEqual(pattern.card(0), Verdict.UNDER)
        self.assertEqual(pattern.card(0b00_1011_0111), Verdict.OVER)

    def test_texts(self):
        with open(os.path.join(ROOT, "include", "pattern_text.h")) as file:
            self.assertIn(f'#define PATTERN_VERSION       "{pattern.version()}"', file.read())
        with open(os.path.join(ROOT, "rust", "pattern", "src", "rules.h")) as file:
            texts = dict(re.findall(r'RULE\((\d+), "(.*)"\)', file.read()))
        self.assertGreater(len(texts), 20)
        for rule in range(-2, 40):
            self.assertEqual(pattern.rule_text(rule), texts.get(str(abs(rule)), "no rule of this library"), rule)


if __name__ == "__main__":
    unittest.main()
