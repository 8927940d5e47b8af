"""What a case meets of document 02's reciprocals, in words, and what some case must meet: 16 before and behind refusals of other fields,
17 by each cause and before an 11, and what is accepted at each limit."""

from itertools import product

import reader
from evaluator import M, formula, inverse, stepped

SCALES = range(reader.MOST_SCALE_OF_A_RECIPROCAL + 1)
OTHER_SCALES = range(SCALES[-1] + 1, 31)
# The bits behind each code; a code that means nothing as with two operands.
WIDTHS = (32, 10, 20, 20, 20, 63, 10, 20)
RECIPROCAL = "110"
SIDES = ("above 0", "below 0")
LOOKED_BEHIND = 3


def codes(text, count):
    """Where each code stands, and its bits: fewer than three where the bytes end inside it. Nothing is tested."""
    at = 32
    for _ in range(count):
        code = text[at : at + 3]
        yield at, code
        if len(code) < 3:
            return
        at += 3 + WIDTHS[int(code, 2)]


def of_bytes(data, number):
    """Bytes that are refused at a scale that reciprocals are not for."""
    scale = int.from_bytes(data[:2], "big") >> 4 & 31
    if len(data) < 4 or scale in SCALES:
        return
    inputs, count = int.from_bytes(data[:4], "big") >> 15 & 31, int.from_bytes(data[:4], "big") >> 5 & 1023
    text = reader.Bits(data).text
    found = list(codes(text, count))
    if number == 16:
        k, at = next((k, at) for k, (at, code) in enumerate(found) if code == RECIPROCAL)
        yield f"16 at scale {scale}"
        yield f"16 before {behind_its_code(data, text[at + 3 : at + 13], inputs + k)}"
    elif any(code in (RECIPROCAL, RECIPROCAL[:1], RECIPROCAL[:2]) for _, code in found):
        yield f"{number} before 16"


def behind_its_code(data, operand, value):
    """What comes next if the scale is one that reciprocals are for."""
    if len(operand) < 10:
        return "its operand's 1" if operand else "its operand's 1, right behind the code"
    if int(operand, 2) >= value:
        return "its operand's 6"
    try:
        formula(at_scale_zero(data))
    except reader.Refused as refusal:
        return f"a later {refusal.number}"
    return "nothing"


def at_scale_zero(data):
    """The same bytes but for the scale."""
    return bytes((data[0] & 254, data[1] & 15)) + data[2:]


def side(centre):
    return "at 0" if centre == 0 else SIDES[centre < 0]


def doubtful(names, value):
    """Which of its doubts are not 0."""
    return " and ".join(name for name, number in zip(names[1:], value[1:]) if number) or "nothing"


def of_step(names, case, want):
    """A step that is refused, with 11 or 17."""
    (scale, *_), program, _ = formula(case.data)
    (name, first, *_), behind = program[want.place], program[want.place + 1 :][:LOOKED_BEHIND]
    known = [row for row in behind if row[0] not in ("constant", "coefficient") and max(row[1:]) < len(want.values)]
    later = {stepped(scale, len(names), row, want.values)[0] for row in known}
    yield from (f"{want.refusal} before a later {number}" for number in later - {0})
    if name != "reciprocal":
        return
    value = want.values[first]
    away = abs(value[0]) - sum(value[1:])
    if want.refusal == 11:
        yield f"11 of a reciprocal {away} from 0, {side(value[0])}"
        return
    yield f"17 at scale {scale}"
    yield f"17 {side(value[0])} by {doubtful(names, value)}, {'passed' if away else 'just reached'}"
    if value[0] and abs(inverse(1 << 2 * scale, value[0])) > M:
        yield "17 before its 11"


def of_accepted(names, case, want):
    (scale, *_), program, _ = formula(case.data)
    for name, first, *_ in program:
        if name == "reciprocal":
            yield from of_reciprocal(names, scale, want.values[first])


def of_reciprocal(names, scale, value):
    T, centre = 1 << 2 * scale, value[0]
    where = f"reciprocal at scale {scale} {side(centre)}"
    yield f"{where}, of what {'does not divide' if T % centre else 'divides'} T"
    if abs(centre) == 2 * T:
        yield f"{where}, a tie"
    if abs(centre) == M:
        yield f"{where}, of M"
    if abs(centre) - sum(value[1:]) == nearest(scale):
        yield f"{where}, as near 0 as may be by {doubtful(names, value)}"


def nearest(scale):
    """How near to 0 an operand may come with a reciprocal in reach: T divided by it is at most M."""
    return -(-(1 << 2 * scale) // M)


def some_doubts(names):
    return {1: (), 2: ("margin",), 3: ("stray", "margin", "stray and margin")}[len(names)]


def required(names):
    doubts = some_doubts(names)
    yield from (f"16 at scale {scale}" for scale in OTHER_SCALES)
    own = ("its operand's 1", "its operand's 1, right behind the code", "its operand's 6")
    yield from (f"16 before {words}" for words in ("nothing", *own, *(f"a later {number}" for number in (1, 5, 6, 7, 8))))
    yield from (f"{number} before 16" for number in range(1, 8))
    yield from (f"17 at scale {scale}" for scale in SCALES)
    yield from ("17 at 0 by nothing, just reached", "11 before a later 17", "17 before a later 11")
    yield from (f"17 at 0 by {doubt}, passed" for doubt in doubts)
    yield from (f"17 {where} by {doubt}, {far}" for where, doubt, far in product(SIDES, doubts, ("just reached", "passed")))
    yield from ("17 before its 11" for _ in doubts[:1])
    yield from (f"11 of a reciprocal {away} from 0, {where}" for away, where in product((1, 2), SIDES))
    for scale, where in product(SCALES, SIDES):
        at = f"reciprocal at scale {scale} {where}"
        yield from (f"{at}, {words}" for words in ("of what divides T", "of what does not divide T", "of M"))
        yield from (f"{at}, as near 0 as may be by {doubt}" for doubt in ("nothing", *doubts))
        if 2 << 2 * scale <= M:
            yield f"{at}, a tie"
