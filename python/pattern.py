"""The geometric constraint engine for flat patterns, over its shared library.

A sheet is bytes, as it stands in a file. Every function that takes one raises `Refused`, with the number of the rule, where the engine refuses it.
A number that does not fit its field raises ValueError before the engine is called: nothing is cut.

    >>> import pattern
    >>> from pattern import Constraint, Facts, POINT
    >>> sides = [Constraint(0, 1, 300), Constraint(0, 2, 300), Constraint(1, 2, 300)]
    >>> sheet = pattern.write(Facts([POINT] * 3, sides))
    >>> print(pattern.verdict(sheet))
    well
    >>> pattern.plan(sheet)
    [(0, 1, 2)]
    >>> pattern.verdict(sheet[:-1])
    Traceback (most recent call last):
    pattern.Refused: refused by rule 2: the sheet ends inside a field, or before one that must follow

The library is the file that the environment variable PATTERN_LIBRARY names; else libpattern.so.1, on Windows
pattern.dll, beside this file or in the folder lib of the prefix that it is installed in; else the one that the system's
loader finds. `version`, `rule_text` and `read` are plain C, tested and not proved; the rest is proved.
"""

from __future__ import annotations

import ctypes
import enum
import operator
import os
from collections.abc import Iterable, Sequence
from dataclasses import dataclass, field
from typing import Any

__all__ = [
    "CIRCLE", "Cluster", "Constraint", "Element", "Facts", "Kind", "LINE", "Over", "POINT", "Refused", "Sketch", "Step",
    "UNMEASURED", "Verdict", "card", "chain", "check_plan", "clusters", "initial", "longest", "missing", "open_merges",
    "over", "part", "part_bytes", "part_steps", "plan", "read", "report", "rewrite", "rule_text", "saved_steps", "shared",
    "steps", "verdict", "version", "write",
]

MOST_ELEMENTS = 64
MOST_CONSTRAINTS = 200
MOST_WRITTEN = 1678
MOST_REPORT = 4667
MOST_PLAN = 186
MOST_OPEN = 186
MOST_STEPS = 62
MOST_CLUSTERS = 125
MOST_RESTS = 250
MOST_CHAIN = 63
MOST_RECORD = 1155
MOST_MISSING = 125

#: The price of a pair that can't be measured.
UNMEASURED = 65_535

_STEP = 7
_NO_RUN = -100
_WAYS_UNKNOWN = 256
_SIZED, _TANGENT, _OTHER = 1, 4, 8


def _load() -> ctypes.CDLL:
    """The shared library."""
    name = "pattern.dll" if os.name == "nt" else "libpattern.so.1"
    here = os.path.dirname(os.path.abspath(__file__))
    places = [os.path.join(here, name), os.path.join(here, "..", "..", "lib", name)]
    library = ctypes.CDLL(os.environ.get("PATTERN_LIBRARY") or next(filter(os.path.exists, places), name))
    for name in ("pattern_version", "pattern_rule_text"):
        getattr(library, name).restype = ctypes.c_char_p
    library.pattern_shared.restype = ctypes.c_uint64
    return library


_library = _load()


class _Name(enum.IntEnum):
    """A number that prints as its name, in small letters."""

    def __str__(self) -> str:
        return self.name.lower()

    def __format__(self, spec: str) -> str:
        return format(str(self), spec)


class Kind(_Name):
    """The kind of an element."""

    POINT = 0
    LINE = 1
    CIRCLE = 2


@dataclass(frozen=True)
class Element:
    """A point, a line, or a circle with its radius in tenths of a millimetre."""

    kind: Kind
    radius: int = 0


POINT = Element(Kind.POINT)
LINE = Element(Kind.LINE)


def CIRCLE(radius: int) -> Element:
    """A circle of a radius in tenths of a millimetre."""
    return Element(Kind.CIRCLE, radius)


@dataclass(frozen=True)
class Constraint:
    """A constraint between two elements, the first below the second.

    The size is a distance in tenths of a millimetre or an angle in hundredths of a degree. Without one a point lies on a line. A circle touches by
    `tangent`, and in the other contact by `other` beside it; such a constraint has no size.
    """

    first: int
    second: int
    size: int | None = None
    tangent: bool = False
    other: bool = False

    def ordered(self, elements: Sequence[Element]) -> Constraint:
        """The same constraint with its lower end first. Between two lines an angle then turns the other way: its sign changes.

        >>> from pattern import Constraint, LINE
        >>> Constraint(1, 0, 9000).ordered([LINE, LINE])
        Constraint(first=0, second=1, size=-9000, tangent=False, other=False)
        """
        if self.first <= self.second:
            return self
        lines = all(elements[end].kind == Kind.LINE for end in (self.first, self.second))
        size = -self.size if lines and self.size is not None else self.size
        return Constraint(self.second, self.first, size, self.tangent, self.other)

    def _map(self) -> int:
        """The bits of the map."""
        return (_SIZED if self.size is not None else 0) | (_TANGENT if self.tangent else 0) | (_OTHER if self.other else 0)


@dataclass(frozen=True)
class Facts:
    """The facts of a sheet. The opening, 1 for PF01 and 2 for PF02, follows from the kinds where it is not given: circles need PF02."""

    elements: Sequence[Element]
    constraints: Sequence[Constraint] = field(default_factory=tuple)
    opening: int = 0

    def __post_init__(self) -> None:
        if self.opening == 0:
            circles = any(element.kind == Kind.CIRCLE for element in self.elements)
            object.__setattr__(self, "opening", 2 if circles else 1)


class Verdict(_Name):
    """What is said of a sheet, in the order it is tried. It prints as the report has it: over, angle, well, stuck or under."""

    OVER = 0
    ANGLE = 1
    WELL = 2
    STUCK = 3
    UNDER = 4


@dataclass(frozen=True)
class Over:
    """What makes a sheet over: the number of the first constraint too many, and the smallest set of elements that cannot take it."""

    first: int
    part: frozenset[int]


@dataclass(frozen=True)
class Step:
    """A step of a plan: what its line in the report gives. `ways` is None where the placements are not known."""

    made: int
    parts: tuple[int, int, int]
    joint: frozenset[int]
    kind: str
    ways: int | None


@dataclass(frozen=True)
class Cluster:
    """A cluster that is left: its elements, and the constraints that it rests on."""

    elements: frozenset[int]
    rests_on: frozenset[int]


class Refused(Exception):
    """A rule refuses a call; `rule` is its number."""

    def __init__(self, rule: int) -> None:
        super().__init__(f"refused by rule {rule}: {rule_text(rule)}")
        self.rule = rule


def version() -> str:
    """The version of the library."""
    return _text("pattern_version")


def rule_text(rule: int) -> str:
    """A rule in words."""
    return _text("pattern_rule_text", ctypes.c_int32(_fits(rule, ctypes.c_int32, "a rule")))


def verdict(sheet: bytes) -> Verdict:
    """The verdict of a sheet."""
    return Verdict(_call("pattern_verdict", *_bytes(sheet)))


def over(sheet: bytes) -> Over | None:
    """What makes a sheet over, or None where it is not."""
    answer = _list("pattern_over", ctypes.c_uint64, 2, *_bytes(sheet))
    return Over(answer[0], _set(answer[1])) if answer else None


def report(sheet: bytes) -> str:
    """The report of a sheet, a line each for its verdict, its steps and its clusters."""
    return _out("pattern_report", MOST_REPORT, *_bytes(sheet)).decode("ascii")


def plan(sheet: bytes) -> list[tuple[int, int, int]]:
    """The plan: three cluster numbers a step. A sheet that is over has none."""
    numbers = _list("pattern_plan", ctypes.c_uint16, MOST_PLAN, *_bytes(sheet))
    return [(a, b, c) for a, b, c in _threes(numbers)]


def open_merges(sheet: bytes, steps: int) -> list[tuple[int, int, int]]:
    """The merges that are open after so many steps of the plan, or after all: by the lowest element of the joint, then by number."""
    numbers = _list("pattern_open", ctypes.c_uint16, MOST_OPEN, *_bytes(sheet), _number(steps, "a count of steps"))
    return [(a, b, c) for a, b, c in _threes(numbers)]


def check_plan(sheet: bytes, plan: Iterable[Sequence[int]]) -> str:
    """The report for a plan that was saved, its steps in the saved order."""
    return _out("pattern_check_plan", MOST_REPORT, *_bytes(sheet), *_numbers(plan)).decode("ascii")


def steps(sheet: bytes) -> list[Step]:
    """The steps of the plan, as the report gives them."""
    return _steps(_list("pattern_steps", ctypes.c_uint64, MOST_STEPS * _STEP, *_bytes(sheet)))


def saved_steps(sheet: bytes, plan: Iterable[Sequence[int]]) -> list[Step]:
    """The steps of a plan that was saved."""
    return _steps(_list("pattern_saved_steps", ctypes.c_uint64, MOST_STEPS * _STEP, *_bytes(sheet), *_numbers(plan)))


def initial(sheet: bytes) -> list[frozenset[int]]:
    """The clusters that a plan starts from: the two ends of each constraint."""
    return [_set(word) for word in _list("pattern_initial", ctypes.c_uint64, MOST_CONSTRAINTS, *_bytes(sheet))]


def clusters(sheet: bytes) -> list[Cluster]:
    """The clusters that are left when no merge is open, by number. A sheet that is over has none."""
    return _clusters("pattern_clusters", "pattern_rests", *_bytes(sheet))


def _clusters(sets: str, rests: str, *given: Any) -> list[Cluster]:
    """The clusters that two calls tell of: their elements, and what they rest on."""
    elements = _list(sets, ctypes.c_uint64, MOST_CLUSTERS, *given)
    words = _list(rests, ctypes.c_uint64, MOST_RESTS, *given)
    return [Cluster(_set(own), _set(low | high << 64)) for own, low, high in zip(elements, words[::2], words[1::2])]


def shared(a: Iterable[int], b: Iterable[int]) -> frozenset[int]:
    """All that two sets of elements have in common."""
    return _set(_library.pattern_shared(_word(a), _word(b)))


def chain(sheet: bytes, start: int, end: int) -> list[int] | None:
    """The numbers of the fewest final clusters from one element to another, or None where the two are not connected."""
    space = (ctypes.c_uint16 * MOST_CHAIN)()
    ends = (_number(start, "the start of a chain"), _number(end, "the end of a chain"))
    count = _library.pattern_chain(*_bytes(sheet), *ends, space, ctypes.c_size_t(MOST_CHAIN))
    return None if count == _NO_RUN else space[: _accepted(count)]


def missing(sheet: bytes, prices: Sequence[int] | None = None) -> list[tuple[int, int]]:
    """The cheapest pairs that bring a sheet to 2n-3 constraints. Prices are of pairs in dictionary order, 0 to 1,000 or
    UNMEASURED; without them each is 0."""
    if prices is None:
        n = len(read(sheet).elements)
        prices = [0] * (n * (n - 1) // 2)
    pairs = _list("pattern_missing", ctypes.c_uint16, MOST_MISSING, *_bytes(sheet), *_column(ctypes.c_uint16, prices, "a price"))
    return [(pair >> 8, pair & 255) for pair in pairs]


def part(sheet: bytes, number: int) -> str:
    """The step lines of one cluster of the plan, each part's before the step that uses it."""
    return _out("pattern_part", part_bytes(sheet, number), *_bytes(sheet), _number(number, "a cluster")).decode("ascii")


def part_steps(sheet: bytes, number: int) -> int:
    """How many steps one cluster of the plan has."""
    return _call("pattern_part_steps", *_bytes(sheet), _number(number, "a cluster"))


def part_bytes(sheet: bytes, number: int) -> int:
    """How many bytes `part` gives."""
    return _call("pattern_part_bytes", *_bytes(sheet), _number(number, "a cluster"))


def card(number: int) -> Verdict:
    """The verdict of five points with some of the ten distances between them: bit 0 is the pair (0,1), then in dictionary order."""
    return Verdict(_call("pattern_card", _number(number, "an entry of the card")))


def longest(n: int) -> bytes:
    """The sheet of n points with the longest plan."""
    return _out("pattern_longest", MOST_WRITTEN, _number(n, "a count of points"))


def rewrite(sheet: bytes) -> bytes:
    """The same sheet without its tags."""
    return _out("pattern_rewrite", MOST_WRITTEN, *_bytes(sheet))


def write(facts: Facts) -> bytes:
    """The sheet of some facts."""
    constraints = facts.constraints[: MOST_CONSTRAINTS + 1]
    elements = facts.elements[: MOST_ELEMENTS + 1]
    columns = [
        *_column(ctypes.c_uint8, [element.kind for element in elements], "a kind"),
        *_column(ctypes.c_uint32, [element.radius for element in elements], "a radius"),
        *_column(ctypes.c_uint8, [c.first for c in constraints], "a first end"),
        *_column(ctypes.c_uint8, [c.second for c in constraints], "a second end"),
        *_column(ctypes.c_uint8, [c._map() for c in constraints], "a map"),
        *_column(ctypes.c_int32, [0 if c.size is None else c.size for c in constraints], "a size"),
    ]
    counts = (ctypes.c_size_t(len(elements)), ctypes.c_size_t(len(constraints)))
    return _out("pattern_write", MOST_WRITTEN, _number(facts.opening, "an opening"), *counts, *columns)


class _Columns(ctypes.Structure):
    """struct pattern_columns."""

    _fields_ = [
        ("opening", ctypes.c_size_t),
        ("n", ctypes.c_size_t),
        ("e", ctypes.c_size_t),
        ("kinds", ctypes.c_uint8 * MOST_ELEMENTS),
        ("radii", ctypes.c_uint32 * MOST_ELEMENTS),
        ("firsts", ctypes.c_uint8 * MOST_CONSTRAINTS),
        ("seconds", ctypes.c_uint8 * MOST_CONSTRAINTS),
        ("maps", ctypes.c_uint8 * MOST_CONSTRAINTS),
        ("sizes", ctypes.c_int32 * MOST_CONSTRAINTS),
    ]


def read(sheet: bytes) -> Facts:
    """The facts of a sheet."""
    columns = _Columns()
    _call("pattern_read", *_bytes(sheet), ctypes.byref(columns))
    elements = [Element(Kind(kind), radius) for kind, radius in zip(columns.kinds[: columns.n], columns.radii)]
    rows = zip(columns.firsts[: columns.e], columns.seconds, columns.maps, columns.sizes)
    constraints = [Constraint(a, b, size if bits & _SIZED else None, bool(bits & _TANGENT), bool(bits & _OTHER)) for a, b, bits, size in rows]
    return Facts(elements, constraints, columns.opening)


class Sketch:
    """A held sketch: asked what a constraint would do before it is placed.

    >>> import pattern
    >>> sketch = pattern.Sketch(pattern.write(pattern.Facts([pattern.POINT] * 2)))
    >>> side = pattern.Constraint(0, 1, 300)
    >>> sketch.ask(side).name, sketch.count()
    ('WELL', 0)
    >>> sketch.place(side, held=0).name, sketch.count()
    ('WELL', 1)
    >>> [sorted(cluster.rests_on) for cluster in sketch.clusters()]
    [[0]]
    """

    def __init__(self, sheet: bytes) -> None:
        self._record = (ctypes.c_uint8 * MOST_RECORD)()
        _call("pattern_hold", *_bytes(sheet), self._record, ctypes.c_size_t(MOST_RECORD))

    def ask(self, more: Constraint) -> Verdict:
        """The verdict of the sketch with one more constraint. Nothing changes."""
        return Verdict(_call("pattern_ask", self._record, ctypes.c_size_t(MOST_RECORD), *self._fields(more)))

    def place(self, more: Constraint, held: int) -> Verdict:
        """Places a constraint that was asked when so many were held."""
        fields = (*self._fields(more), _number(held, "a count of constraints"))
        return Verdict(_call("pattern_place", self._record, ctypes.c_size_t(MOST_RECORD), *fields))

    def sheet(self) -> bytes:
        """The sheet that is held."""
        return _out("pattern_held", MOST_WRITTEN, self._record, ctypes.c_size_t(MOST_RECORD))

    def count(self) -> int:
        """How many constraints are held."""
        return _call("pattern_held_count", self._record, ctypes.c_size_t(MOST_RECORD))

    def clusters(self) -> list[Cluster]:
        """The clusters of the sketch, by number; constraint i is the one that was the i-th held."""
        return _clusters("pattern_held_clusters", "pattern_held_rests", self._record, ctypes.c_size_t(MOST_RECORD))

    @staticmethod
    def _fields(more: Constraint) -> tuple[Any, ...]:
        """A constraint as the library takes it."""
        ends = [ctypes.c_uint8(_fits(end, ctypes.c_uint8, "an end")) for end in (more.first, more.second)]
        size = 0 if more.size is None else _fits(more.size, ctypes.c_int32, "a size")
        return (*ends, ctypes.c_uint8(more._map()), ctypes.c_int32(size))


def _fits(value: int, kind: type, what: str) -> int:
    """A number that fits its field: ctypes would cut what does not."""
    bits = 8 * ctypes.sizeof(kind)
    low, high = (-(1 << (bits - 1)), (1 << (bits - 1)) - 1) if kind is ctypes.c_int32 else (0, (1 << bits) - 1)
    number = operator.index(value)
    if not low <= number <= high:
        raise ValueError(f"{what} is {low} to {high}, not {number}")
    return number


def _number(value: int, what: str) -> ctypes.c_size_t:
    """A count or a number as the library takes it."""
    return ctypes.c_size_t(_fits(value, ctypes.c_size_t, what))


def _word(elements: Iterable[int]) -> ctypes.c_uint64:
    """A set of elements as the bits of a number."""
    numbers = {operator.index(element) for element in elements}
    if not all(0 <= number < MOST_ELEMENTS for number in numbers):
        raise ValueError(f"an element is 0 to {MOST_ELEMENTS - 1}, not {max(numbers, key=abs)}")
    return ctypes.c_uint64(sum(1 << number for number in numbers))


def _accepted(answer: int) -> int:
    """An answer that is no refusal."""
    if answer < 0:
        raise Refused(-answer)
    return answer


def _call(name: str, *arguments: Any) -> int:
    """Calls a function of the library."""
    return _accepted(getattr(_library, name)(*arguments))


def _text(name: str, *arguments: Any) -> str:
    """Calls a function that answers a text."""
    answer: bytes = getattr(_library, name)(*arguments)
    return answer.decode("ascii")


def _bytes(sheet: bytes) -> tuple[Any, ...]:
    """A sheet as the library takes it."""
    if not isinstance(sheet, (bytes, bytearray, memoryview)):
        raise TypeError(f"a sheet is bytes, not {type(sheet).__name__}")
    content = bytes(sheet)
    return (ctypes.c_char_p(content), ctypes.c_size_t(len(content)))


def _numbers(plan: Iterable[Sequence[int]]) -> tuple[Any, ...]:
    """A plan as the library takes it. Steps of other than three numbers are left to rule 12, unless it would not see them."""
    steps = [list(step) for step in plan]
    numbers = [number for step in steps for number in step]
    if len(numbers) % 3 == 0 and any(len(step) != 3 for step in steps):
        raise ValueError("a step of a plan has three numbers")
    return _column(ctypes.c_uint16, numbers, "a number of a plan")


def _column(kind: type, items: Iterable[int], what: str) -> tuple[Any, ...]:
    """A list as the library takes it."""
    numbers = [_fits(item, kind, what) for item in items]
    return ((kind * len(numbers))(*numbers), ctypes.c_size_t(len(numbers)))  # type: ignore[operator]


def _list(name: str, kind: type, room: int, *arguments: Any) -> list[int]:
    """What a function writes to a lent list."""
    space = (kind * room)()  # type: ignore[operator]
    return list(space[: _call(name, *arguments, space, ctypes.c_size_t(room))])


def _out(name: str, room: int, *arguments: Any) -> bytes:
    """What a function writes to lent bytes."""
    return bytes(_list(name, ctypes.c_uint8, room, *arguments))


def _threes(numbers: Sequence[int]) -> Iterable[Sequence[int]]:
    """A list, three at a time."""
    return (numbers[i : i + 3] for i in range(0, len(numbers), 3))


def _set(word: int) -> frozenset[int]:
    """A set by the bits of a number."""
    return frozenset(i for i in range(word.bit_length()) if word >> i & 1)


def _steps(numbers: Sequence[int]) -> list[Step]:
    """Step records from their numbers."""
    rows = (numbers[i : i + _STEP] for i in range(0, len(numbers), _STEP))
    kinds = ("ppp", "ppl", "pll", "lll")
    return [Step(made, (a, b, c), _set(joint), kinds[lines], None if ways == _WAYS_UNKNOWN else ways) for made, a, b, c, joint, lines, ways in rows]
