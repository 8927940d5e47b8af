"""What a case of a text meets, in words, and what some case must meet: each refusal, and before each that is tested later; each kind of
byte behind each beginning; each kind of number at each scale; what is open at the 33rd; the counts at their limits."""

import re
from fractions import Fraction
from functools import lru_cache

import text_table
import texts
from grammar import LETTERS, MOST_DIGITS, MOST_OPEN, Misread, shapes_of_a_number
from packer import COEFFICIENT, CONSTANT
from reader import NAMES
from text_cases import INPUTS, MOST_SCALE_OF_A_TIE, SCALES

# Longer texts are looked at as a whole only, and those over this size are not read again.
MOST_LOOKED_AT, MOST_READ_AGAIN = 24, 4000
LEAST_FORMULA = 6
UNLIMITED = 1 << 30
KINDS = (
    *("a letter", "a letter beyond the inputs", "a letter behind p", "a capital", "a digit", "a point", "a plus", "a minus", "a star"),
    *("an opening parenthesis", "a closing one", "a space", "byte 0", "byte 255", "another byte", "the end"),
)
MARKS = {b".": "a point", b"+": "a plus", b"-": "a minus", b"*": "a star", b"(": "an opening parenthesis", b")": "a closing one"}
MARKS |= {b" ": "a space", b"\0": "byte 0", b"\xff": "byte 255", b"": "the end"}
GROUPINGS = (
    *("x", "-x", "--x", "x+x", "x-x", "x*x", "x--x", "x+-x", "x*-x", "-x-x", "-x+x", "-x*x", "-(x)", "(x)*x", "(-x)", "-(-x)", "x*--x"),
    *("x-x-x", "x-x+x", "x+x-x", "x-x*x", "x*x-x", "x*x*x", "x-(x-x)", "x-(x+x)", "x*(x*x)", "(x+x)*x", "x*(x-x)", "-(x-x)", "(x-x)-x"),
)


@lru_cache(maxsize=4096)
def kind(byte, inputs):
    if byte in MARKS:
        return MARKS[byte]
    if byte.isalpha():
        beyond = "a letter beyond the inputs" if byte in LETTERS else "a letter behind p"
        return "a capital" if byte.isupper() else "a letter" if byte in LETTERS[:inputs] else beyond
    return "a digit" if byte.isdigit() else "another byte"


@lru_cache(maxsize=4096)
def ending(begun):
    """What a beginning, or its last bytes, ends in."""
    if number := re.search(rb"([0-9]+)(\.?)([0-9]*)$", begun):
        whole, point, behind = map(len, number.groups())
        return f"{whole} digits" + (f", a point and {behind} digits" if point else "")
    if begun.endswith(b"-"):
        return "a joining minus" if re.search(rb"[a-p0-9)]-$", begun) else "a factor's minus"
    return "a letter" if begun[-1:].isalpha() else MARKS[begun[-1:]] if begun else "nothing"


def of_bytes(case, place):
    """The byte at this offset and the one before it, each with what it stands behind."""
    for at in range(max(0, place - 1), place + 1):
        begun = case.text[:at]
        where = "inside" if begun.count(b"(") > begun.count(b")") else "outside"
        yield f"{where}: {kind(case.text[at:at + 1], case.inputs)} behind {ending(begun[-12:])}"


def bytes_required():
    shapes = [(shape.index(".") if "." in shape else len(shape), len(shape)) for shape in shapes_of_a_number()]
    numbers = {f"{whole} digits" + (f", a point and {size - whole - 1} digits" if size > whole else "") for whole, size in shapes}
    numbers |= {f"{whole} digits, a point and 0 digits" for whole in range(1, MOST_DIGITS)}
    others = {"a letter", "a closing one", "a star", "a plus", "a joining minus", "a factor's minus"}
    for where, first in (("inside", "an opening parenthesis"), ("outside", "nothing")):
        yield from (f"{where}: {byte} behind {end}" for end in numbers | others | {first} for byte in KINDS)


def named(case):
    """The refusal of a case, and of a 4 whether the inputs or the instructions are too many."""
    refusal = texts.pack(*case)[0]
    return f"4 for the {'instructions' if case.inputs in INPUTS else 'inputs'}" if refusal == 4 else str(refusal)


def completed(text):
    """A beginning with the least that makes a text of it."""
    operand = b"0" if not text or text[-1:] in b"+-*(." else b""
    return text + operand + b")" * (text.count(b"(") - text.count(b")"))


def without_limit(case):
    """What is refused if any number may be open at once; before the rest, what else is refused."""
    try:
        tree = text_table.read(case.text, case.inputs, UNLIMITED)
    except Misread as misread:
        return {misread.refusal}
    rows, _ = texts.Reading(case.text, tree).rows(case.scale, case.inputs)
    return of_rows(rows, case.room) or {0}


def of_rows(rows, room):
    """All that is wrong with instructions and room, whatever is refused first."""
    wrong = {"4 for the instructions"} if len(rows) > texts.MOST_INSTRUCTIONS else set()
    return wrong | ({7} if any(map(texts.out_of_range, rows)) else set()) | ({10} if room < LEAST_FORMULA else set())


def may_be_too_deep(text):
    return text.count(b"(") + text.count(b"-") > MOST_OPEN


def of_order(case, refusal, place):
    """What the refusal comes before: what is refused once its cause is gone."""
    if refusal == 3:
        yield f"3 before {named(case._replace(scale=30))}"
    elif refusal == 4 and case.inputs not in INPUTS:
        yield f"4 for the inputs before {named(case._replace(inputs=16))}"
    elif refusal == 18:
        rows, _ = texts.rows_of(case.scale, case.inputs, completed(case.text[:place]))
        yield from (f"18 before {later}" for later in of_rows(rows, case.room) or {0})
        if may_be_too_deep(case.text) and texts.pack(*case._replace(text=case.text[:place] + case.text[place + 1 :]))[0] == 19:
            yield "18 before 19"
    elif refusal == 19:
        yield from (f"19 before {later}" for later in without_limit(case))
    elif refusal in (4, 7):
        rows, _ = texts.rows_of(case.scale, case.inputs, case.text)
        mine = "4 for the instructions" if refusal == 4 else 7
        yield from (f"{mine} before {later}" for later in of_rows(rows, case.room) - {mine})
        if refusal == 4:
            yield f"instruction 513 is {NAMES[rows[512][0]]}" + (", out of range" if texts.out_of_range(rows[512]) else "")


def orders_required():
    last = (0, 7, 10, "4 for the instructions")
    later = {3: (*last, "4 for the inputs", 18, 19), "4 for the inputs": (*last, 18, 19), 18: (*last, 19), 19: (*last, 18)}
    later |= {"4 for the instructions": (7, 10), 7: (10, "4 for the instructions")}
    yield from (f"{first} before {second}" for first, others in later.items() for second in others)
    yield from (f"instruction 513 is {name}" for name in NAMES[:-1])
    yield from (f"instruction 513 is {name}, out of range" for name in ("constant", "coefficient"))


def open_behind(text):
    """What is open behind each byte of a beginning, outermost first."""
    open_now, found = b"", []
    for i, byte in enumerate(text):
        mark, joins = bytes([byte]), i > 0 and text[i - 1 : i] not in (b"(", b"-", b"*", b"+")
        if mark in (b"+", b"*", b")") or mark == b"-" and joins:
            open_now = open_now.rstrip(b"-")
        if mark == b"(" or mark == b"-" and not joins:
            open_now += mark
        found.append(open_now := open_now[:-1] if mark == b")" else open_now)
    return found


def of_open(case, refusal, place):
    """The 33rd, or the 32 that are accepted: of which kinds, and whether anything was closed before."""
    if refusal not in (0, 19) or case.text.count(b"(") + case.text.count(b"-") < MOST_OPEN:
        return
    opens = open_behind(case.text[:place] if refusal else case.text)
    deepest = [i for i, some in enumerate(opens) if len(some) == MOST_OPEN]
    if not deepest:
        return
    some = opens[deepest[-1]]
    what = "parentheses" if b"-" not in some else "minuses" if b"(" not in some else "both"
    again = deepest[-1] - deepest[0] >= len(deepest)
    yield f"19 by {chr(case.text[place])} behind {what}" if refusal else f"32 open: {what}"
    if again:
        yield f"{'19' if refusal else '32 open'}, some closed before: {what}"
    if refusal:
        yield f"19 at offset {place}"


def open_required():
    yield from (f"19 by {byte} behind {what}" for byte in "(-" for what in ("parentheses", "minuses", "both"))
    yield from (f"{what}, some closed before: {kinds}" for what in ("19", "32 open") for kinds in ("parentheses", "minuses", "both"))
    yield from (f"32 open: {what}" for what in ("parentheses", "minuses", "both"))
    # Nothing that is closed again has one byte with the operator behind it.
    yield from (f"19 at offset {place}" for place in range(MOST_OPEN, MOST_OPEN + 40) if place != MOST_OPEN + 1)


def of_a_number(scale, written):
    """How a number comes to its units."""
    exactly = Fraction(written.decode()) * (1 << scale)
    part = exactly % 1
    how = "exact" if part == 0 else "a tie" if part == Fraction(1, 2) else "rounded up" if part > Fraction(1, 2) else "rounded down"
    yield f"scale {scale}: {how}"
    whole, _, behind = written.partition(b".")
    yield f"a number of {len(whole)} and {len(behind)} digits"


def behind_point(written):
    return len(written.partition(b".")[2])


def of_a_limit(case, refusal):
    """A text that is a number: whether it is the last in range, or the first out of it."""
    if not re.fullmatch(rb"[0-9]+(\.[0-9]+)?", case.text):
        return
    behind = behind_point(case.text)
    step = Fraction(1 if refusal != 7 else -1, 10**behind)
    exactly = (Fraction(case.text.decode()) + step) * (1 << case.scale)
    units = (COEFFICIENT, round(exactly), 1) if exactly.denominator > 1 else (CONSTANT, int(exactly), 0)
    if texts.out_of_range(units) == (refusal != 7):
        yield f"scale {case.scale}, {behind} digits behind the point: the {'first out of' if refusal == 7 else 'last in'} range"


def numbers_required():
    for scale in SCALES:
        ties = ["a tie"] if scale <= MOST_SCALE_OF_A_TIE else []
        yield from (f"scale {scale}: {how}" for how in ("exact", "rounded up", "rounded down", *ties))
        for behind in range(MOST_DIGITS):
            if len(str((10**behind << 31) >> scale)) <= MOST_DIGITS and (behind or scale > 1):
                yield from (f"scale {scale}, {behind} digits behind the point: the {end} range" for end in ("last in", "first out of"))
    yield from (f"a number of {whole} and {behind} digits" for whole in range(1, 10) for behind in range(10 - whole))


WIDTHS = (35, 13, 23, 23, 23, 66)


def of_room(case, refusal):
    _, _, lists = texts.listed(case.scale, case.inputs, case.text)
    bits = 42 + sum(WIDTHS[code] for code in lists[2])
    spare = case.room - (bits + 7) // 8
    yield f"{-bits % 8} bits of padding: {'exactly enough' if spare == 0 else 'one too few' if spare == -1 else 'other room'}"
    yield "no room at all" if case.room == 0 else "much more room than needed" if spare > 1000 else "some room"
    if refusal == 0 and (count := len(lists[2])) in (0, 1, 511, 512):
        yield f"{count} instructions" + (f", the last {NAMES[lists[2][-1]]}" if count == 512 else "")


def rest_required():
    yield from (f"{bits} bits of padding: {room}" for bits in range(8) for room in ("exactly enough", "one too few", "other room"))
    yield from ("no room at all", "much more room than needed", "0 instructions", "1 instructions", "511 instructions")
    yield from (f"512 instructions, the last {name}" for name in ("negate", "add", "subtract", "multiply"))
    yield from (f"grouping {shape}" for shape in GROUPINGS)
    yield from (f"scale {scale} accepted" for scale in SCALES)
    yield from (f"inputs {inputs} accepted" for inputs in INPUTS)
    yield from (f"inputs {inputs}: its last letter" for inputs in INPUTS[1:])
    yield from (f"inputs {inputs}: the letter behind refused" for inputs in INPUTS)
    yield from ("18 at offset 0", "18 at the end", "18 at the end of nothing", "18 in between")


def of_accepted(case):
    yield f"scale {case.scale} accepted"
    yield f"inputs {case.inputs} accepted"
    if case.inputs and LETTERS[case.inputs - 1] in case.text:
        yield f"inputs {case.inputs}: its last letter"
    if len(case.text) <= MOST_LOOKED_AT:
        yield "grouping " + re.sub(r"[a-p]|[0-9]+(\.[0-9]+)?", "x", case.text.decode())
        reading = texts.reading(case.text, case.inputs)
        for node in reading.making:
            if texts.is_number(node):
                yield from of_a_number(case.scale, reading.written(node))


def of_misplaced(case, place):
    byte, size = case.text[place : place + 1], len(case.text)
    yield "18 at offset 0" if place == 0 < size else "18 in between" if place < size else f"18 at the end{'' if size else ' of nothing'}"
    if byte == bytes([ord("a") + case.inputs]):
        yield f"inputs {case.inputs}: the letter behind refused"


def met(case, want):
    refusal, place = want.refusal, want.place
    yield f"refusal {refusal}"
    if len(case.text) <= MOST_READ_AGAIN:
        yield from of_order(case, refusal, place)
    yield from of_open(case, refusal, place)
    if refusal in (0, 10):
        yield from of_room(case, refusal)
    if refusal in (0, 7):
        yield from of_a_limit(case, refusal)
    if refusal == 0:
        yield from of_accepted(case)
    if refusal == 18:
        yield from of_misplaced(case, place)
    if refusal in (0, 18) and len(case.text) <= MOST_LOOKED_AT:
        yield from of_bytes(case, place if refusal else len(case.text))


def required():
    parts = (bytes_required(), orders_required(), open_required(), numbers_required(), rest_required())
    return {f"refusal {number}" for number in (0, 3, 4, 7, 10, 18, 19)}.union(*parts)
