"""Every function of the Python module on the stored sheets and on damaged copies of them, a line each: answers.py ROOT

answers.mjs prints the same."""

import glob
import json
import sys

import pattern

ROOT = sys.argv[1]


def plain(answer):
    """An answer as JSON has it."""
    if isinstance(answer, pattern.Verdict):
        return answer.name.lower()
    if isinstance(answer, frozenset):
        return sorted(answer)
    if isinstance(answer, bytes):
        return list(answer)
    if isinstance(answer, pattern.Over):
        return [answer.first, plain(answer.part)]
    if isinstance(answer, pattern.Cluster):
        return [plain(answer.elements), plain(answer.rests_on)]
    if isinstance(answer, pattern.Step):
        return [answer.made, answer.parts, plain(answer.joint), answer.kind, answer.ways]
    if isinstance(answer, pattern.Element):
        return [answer.kind.name.lower(), answer.radius]
    if isinstance(answer, pattern.Constraint):
        return [answer.first, answer.second, answer.size, answer.tangent, answer.other]
    if isinstance(answer, pattern.Facts):
        return [answer.opening, plain(answer.elements), plain(answer.constraints)]
    if isinstance(answer, (list, tuple)):
        return [plain(item) for item in answer]
    return answer


def tell(name, call):
    """Prints what a call answers, or the rule that refuses it."""
    try:
        answer = plain(call())
    except pattern.Refused as refused:
        answer = str(refused)
    print(name, json.dumps(answer, separators=(",", ":")))


def tell_all(sheet):
    """All that can be asked of a sheet."""
    for name in ["verdict", "over", "report", "plan", "steps", "initial", "clusters", "rewrite", "read", "missing"]:
        tell(name, lambda: getattr(pattern, name)(sheet))
    for number in range(0, 12, 3):
        tell("part", lambda: pattern.part(sheet, number))
        tell("part_steps", lambda: pattern.part_steps(sheet, number))
        tell("part_bytes", lambda: pattern.part_bytes(sheet, number))
        tell("chain", lambda: pattern.chain(sheet, 0, number))
        tell("open_merges", lambda: pattern.open_merges(sheet, number))
    tell("check_plan", lambda: pattern.check_plan(sheet, pattern.plan(sheet)[::-1]))
    tell("saved_steps", lambda: pattern.saved_steps(sheet, pattern.plan(sheet)))
    tell("write", lambda: pattern.write(pattern.read(sheet)))
    tell("shared", lambda: pattern.shared(*pattern.initial(sheet)[:2]) if len(pattern.initial(sheet)) > 1 else [])
    tell("missing", lambda: pattern.missing(sheet, prices(len(pattern.read(sheet).elements))))
    tell("sketch", lambda: placed(pattern.Sketch(sheet)))


def prices(n):
    """A price for each pair."""
    return [k % 7 for k in range(n * (n - 1) // 2)]


def placed(sketch):
    """A sketch with two more constraints, where they may stand: what asking and placing said, and the sheet."""
    said = []
    for second in (2, 3):
        more = pattern.Constraint(0, second, 300)
        for call in (lambda: sketch.ask(more), lambda: sketch.place(more, held=sketch.count()), lambda: sketch.place(more, held=199)):
            try:
                said.append(call())
            except pattern.Refused as refused:
                said.append(refused.rule)
    return [said, sketch.count(), sketch.sheet()]


for path in sorted(glob.glob(ROOT + "/tests/programs/report/*.sheet")):
    with open(path, "rb") as file:
        whole = file.read()
    tell_all(whole)
    tell_all(whole[: len(whole) // 2])
    tell_all(whole + b"\0")
    for place in range(4, len(whole), 41):
        tell_all(whole[:place] + bytes([whole[place] ^ place % 256]) + whole[place + 1 :])
for n in range(67):
    tell("longest", lambda: pattern.longest(n))
for number in range(0, 1100, 7):
    tell("card", lambda: pattern.card(number))
for rule in range(-30, 30):
    tell("rule_text", lambda: pattern.rule_text(rule))
tell("version", pattern.version)
