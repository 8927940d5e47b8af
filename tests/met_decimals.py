"""What a case of decimal numbers meets, in words, and what some case must meet: each refusal, and before each that is tested later; at each
scale with each number of decimals each way of rounding a centre and a margin; every size of a text with room and without; each kind of byte
behind each beginning of a number and of a margin; reaches of M and of one more."""

import re
from fractions import Fraction
from functools import lru_cache
from itertools import product

import decimal_model
from decimal_frames import Out
from decimal_model import DECIMALS, MARGIN_TEXT, MOST_BYTES, NO_ROOM, NUMBER_TEXT, REACH, SCALE, SCALES, WRONG_DECIMALS
from evaluator import M
from grammar import MOST_DIGITS

HALF = Fraction(1, 2)
SIGNS = ("plus", "minus")
BEHIND = range(MOST_DIGITS)
# Longer texts are not looked at byte by byte.
MOST_LOOKED_AT = 14
LEAST_TEXT = len("0 +- 0")
LISTS = ("the centre's list", "the margin's list", "the text")
MARKS = {b".": "a point", b"-": "a minus", b"+": "a plus", b" ": "a space", b"\0": "byte 0", b"\xff": "byte 255", b"": "the end"}
KINDS = ("a digit", "another byte", *MARKS.values())


def sign_of(number):
    return "minus" if number < 0 else "plus"


def rounding(exactly):
    """How a fraction comes to a whole number."""
    part = exactly % 1
    return "exact" if part == 0 else "a tie" if part == HALF else "rounded up" if part > HALF else "rounded down"


def of_margin(exactly, margin, least):
    """How a margin and what was lost of a centre, both fractions of a count, come to a decimal margin; the least is what two sums differ by."""
    lost = abs(exactly - decimal_model.nearest(exactly))
    part = (margin + lost) % 1
    if margin == 0:
        yield "0, and something lost" if lost else "0, and nothing lost"
    elif part == 0:
        yield "a whole count with what was lost" if lost else "a whole count"
    else:
        yield "just over a whole count" if part == least else "just below one" if part == 1 - least else "rounded up"
    if -(-margin // 1) + -(-lost // 1) > -(-(margin + lost) // 1):
        yield "rounded up together"
    if lost and -(-margin // 1) < -(-(margin + lost) // 1):
        yield "more by what was lost"


def of_counts(case):
    exactly, margin = (Fraction(number * 10**case.decimals, 1 << case.scale) for number in (case.centre, case.margin))
    where = f"scale {case.scale}, {case.decimals} decimals"
    if case.centre:
        yield f"{where}: {rounding(exactly)}, {sign_of(case.centre)}"
    least = Fraction(1, 1 << max(0, case.scale - case.decimals))
    yield from (f"{where}: the margin {words}" for words in of_margin(exactly, margin, least))
    if case.centre < 0 and decimal_model.nearest(exactly) == 0:
        yield f"{where}: a centre below 0 is printed as 0"


def counts_required():
    for scale in SCALES:
        for decimals in DECIMALS:
            # With as many decimals as the scale has bits, or more, a unit is a whole number of counts, and nothing is lost.
            bits = scale - decimals
            ways = ["exact", *["a tie"] * (bits > 0), *["rounded up", "rounded down"] * (bits > 1)]
            margins = ["0, and nothing lost", "a whole count"]
            if bits > 0:
                margins += ["0, and something lost", "a whole count with what was lost", "more by what was lost", "just over a whole count"]
            if bits > 1:
                margins += ["just below one", "rounded up", "rounded up together"]
            where = f"scale {scale}, {decimals} decimals"
            yield from (f"{where}: {way}, {sign}" for way in ways for sign in SIGNS)
            yield from (f"{where}: the margin {words}" for words in margins)
            if 2 * 10**decimals <= 1 << scale:
                yield f"{where}: a centre below 0 is printed as 0"


def of_text(case):
    _, (centre, margin), text = decimal_model.to_decimal(*case[:4], (1, 1), MOST_BYTES)
    before = (len(str(abs(count) // 10**case.decimals)) for count in (centre, margin))
    yield "{} decimals, {} and {} digits before the point, {}".format(case.decimals, *before, sign_of(centre))
    if min(case.places) > 0:
        spare = case.room - len(text)
        yield f"a text of {len(text)} bytes: {'exactly enough' if spare == 0 else 'one too few' if spare == -1 else 'other room'}"
        yield from ["no room at all"] * (case.room == 0)
    missing = [name for name, lacks in zip(LISTS, (case.places[0] < 1, case.places[1] < 1, case.room < len(text))) if lacks]
    yield f"10 by {' and '.join(missing)}" if missing else f"lists of {'one place' if max(case.places) == 1 else 'more places'}"


def texts_required():
    digits = range(1, 11)
    for decimals in DECIMALS:
        yield from (
            f"{decimals} decimals, {whole} and {doubt} digits before the point, {sign}" for whole in digits for doubt in digits for sign in SIGNS
        )
    for size in range(LEAST_TEXT, MOST_BYTES + 1):
        yield from (f"a text of {size} bytes: {room}" for room in ("exactly enough", "one too few", "other room"))
    yield from ("no room at all", "lists of one place", "lists of more places")
    yield from (f"10 by {name}" for name in (*LISTS, " and ".join(LISTS[:2]), " and ".join(LISTS)))


def of_reach(case):
    """A reach of M, or over it by one or by more; and what makes it."""
    centre, margin = case.centre, case.margin
    over = abs(centre) + margin - M
    how = "of M" if over == 0 else "of M + 1" if over == 1 else "beyond"
    by = "the margin" if centre == 0 else f"the centre, {sign_of(centre)}" if margin == 0 else f"both, {sign_of(centre)}"
    yield f"a reach {how} by {by}"
    if over == 0 or over == 1:
        yield f"scale {case.scale}, {case.decimals} decimals: a reach {how}"
    ends = {-(1 << 63): "-2^63", (1 << 63) - 1: "2^63 - 1"}
    yield from [f"the centre {ends.get(centre)}"] * (centre in ends)
    yield from ["the margin 2^64 - 1"] * (margin == (1 << 64) - 1)
    yield from ["a reach that 64 bits cut to one in reach"] * (over > 0 and (abs(centre) + margin) % (1 << 64) <= M)
    yield from ["a reach that 32 bits cut to one in reach"] * (over > 0 and (abs(centre) + margin) % (1 << 32) <= M)


def reaches_required():
    by = ("the margin", *(f"{what}, {sign}" for what in ("the centre", "both") for sign in SIGNS))
    yield from (f"a reach {how} by {what}" for how in ("of M", "of M + 1", "beyond") for what in by)
    for scale, decimals in product(SCALES, DECIMALS):
        yield from (f"scale {scale}, {decimals} decimals: a reach {how}" for how in ("of M", "of M + 1"))
    yield from ("the centre -2^63", "the centre 2^63 - 1", "the margin 2^64 - 1")
    yield from (f"a reach that {bits} bits cut to one in reach" for bits in (32, 64))


def order_out(case, refusal):
    """What the refusal comes before: what is refused once its cause is gone."""
    better = {SCALE: {"scale": 30}, WRONG_DECIMALS: {"decimals": 9}, REACH: {"centre": 0, "margin": 0}}
    if refusal in better:
        yield f"{refusal} before {decimal_model.to_decimal(*case._replace(**better[refusal]))[0]}"


def met_out(case, want):
    yield f"refusal {want.refusal}"
    yield from order_out(case, want.refusal)
    if want.refusal in (0, NO_ROOM):
        yield from of_text(case)
    if want.refusal == 0:
        yield from of_counts(case)
    if want.refusal in (0, REACH) and (want.refusal or abs(case.centre) + case.margin == M):
        yield from of_reach(case)


def required_out():
    yield from (f"refusal {number}" for number in (0, SCALE, NO_ROOM, REACH, WRONG_DECIMALS))
    orders = {SCALE: (0, WRONG_DECIMALS, REACH, NO_ROOM), WRONG_DECIMALS: (0, REACH, NO_ROOM), REACH: (0, NO_ROOM)}
    yield from (f"{first} before {later}" for first, others in orders.items() for later in others)
    for part in (counts_required(), texts_required(), reaches_required()):
        yield from part


def kind(byte):
    return MARKS.get(byte) or ("a digit" if byte.isdigit() else "another byte")


@lru_cache(maxsize=4096)
def begun_as(begun):
    """A beginning of a number in words."""
    minus, whole, point, behind = re.fullmatch(rb"(-?)([0-9]*)(\.?)([0-9]*)", begun).groups()
    words = [*["a minus"] * len(minus), *[f"{len(whole)} digits"] * (whole != b""), *[f"a point and {len(behind)} digits"] * len(point)]
    return " and ".join(words) or "nothing"


def of_bytes(role, text, place):
    """The byte that is misread, or behind a number its end, and each byte before it, with what it stands behind."""
    at = len(text) if place is None else place
    if at <= MOST_LOOKED_AT:
        yield from (f"{role}: {kind(text[i : i + 1])} behind {begun_as(text[:i])}" for i in range(at + 1))
    if place is not None:
        where = "of nothing" if not text else "at the end" if place == len(text) else "at offset 0" if place == 0 else "in between"
        yield f"{role}: misread {where}"


def bytes_required(role, signs):
    points = [(whole, behind) for whole in range(1, MOST_DIGITS) for behind in range(MOST_DIGITS - whole + 1)]
    digits = ["", *(f"{whole} digits" for whole in range(1, MOST_DIGITS + 1))]
    digits += [f"{whole} digits and a point and {behind} digits" for whole, behind in points]
    for begun in (" and ".join(filter(None, (sign, some))) or "nothing" for sign in signs for some in digits):
        yield from (f"{role}: {byte} behind {begun}" for byte in KINDS)
    yield from (f"{role}: misread {where}" for where in ("of nothing", "at the end", "at offset 0", "in between"))


def completed(text, place):
    """The good beginning of a text, with a digit where it needs one."""
    begun = text[:place]
    return begun if begun[-1:].isdigit() else begun + b"0"


def order_in(case, want):
    if want.refusal == SCALE:
        yield from (f"3 before {decimal_model.from_decimal(*case._replace(scale=scale))[0]}" for scale in (0, 30))
    if want.refusal == NUMBER_TEXT:
        yield f"24 before {decimal_model.from_decimal(*case._replace(number=completed(case.number, want.place)))[0]}"
    if want.refusal == MARGIN_TEXT:
        yield f"25 before {decimal_model.from_decimal(*case._replace(margin=completed(case.margin, want.place)))[0]}"
    if want.refusal == REACH:
        yield f"26 before {decimal_model.from_decimal(*case._replace(number=b'0', margin=b'0'))[0]}"
    if want.refusal == NO_ROOM:
        yield f"10 by {' and '.join(name for name, places in zip(LISTS, case.places) if places < 1)}"


def orders_in_required():
    yield from (f"refusal {number}" for number in (0, SCALE, NO_ROOM, NUMBER_TEXT, MARGIN_TEXT, REACH))
    orders = {SCALE: (0, 24, 25, 26, 10), NUMBER_TEXT: (0, 25, 26, 10), MARGIN_TEXT: (0, 26, 10), REACH: (0, 10)}
    yield from (f"{first} before {later}" for first, others in orders.items() for later in others)
    yield from (f"10 by {name}" for name in (*LISTS[:2], " and ".join(LISTS[:2])))


def behind_point(text):
    return len(text.partition(b".")[2])


def of_units(case):
    """How a number and a margin come to units, and what their reach is; for what is read and for a reach that is too far."""
    number, margin = Fraction(case.number.decode()), Fraction(case.margin.decode())
    exactly, doubt = number * (1 << case.scale), margin * (1 << case.scale)
    sign = "minus" if case.number.startswith(b"-") else "plus"
    centre, whole = decimal_model.units(case.scale, number, margin)
    over = abs(centre) + whole - M
    if over in (0, 1):
        yield f"scale {case.scale}: a reach of {'M + 1' if over else 'M'}, {sign}"
        yield from [f"a reach of M + 1 by the number's {rounding(exactly)}"] * (over == 1 and exactly.denominator > 1)
        yield from ["a reach of M + 1 by the margin's rounding up"] * (over == 1 and doubt.denominator > 1)
    if over <= 0:
        yield f"scale {case.scale}, {behind_point(case.number)} behind the point: {rounding(exactly)}, {sign}"
        rounded = "a whole count" if doubt.denominator == 1 else "rounded up"
        lost = "the number exact" if exactly.denominator == 1 else "the number rounded"
        yield f"scale {case.scale}, {behind_point(case.margin)} behind the margin's point: {rounded}, {lost}"


def units_required():
    for scale in SCALES:
        for behind in BEHIND:
            ways = ["exact", *["rounded up", "rounded down"] * (behind > 0), *["a tie"] * (behind > scale)]
            yield from (f"scale {scale}, {behind} behind the point: {way}, {sign}" for way in ways for sign in SIGNS)
            for rounded in ["a whole count", *["rounded up"] * (behind > 0)]:
                yield from (f"scale {scale}, {behind} behind the margin's point: {rounded}, the number {lost}" for lost in ("exact", "rounded"))
        # At scale 0 the largest number with the largest margin is in reach; from 29 on the steps of 10^-8 lead past M.
        ends = ["M"] * (0 < scale < 29) + ["M + 1"] * (scale > 0)
        yield from (f"scale {scale}: a reach of {how}, {sign}" for how in ends for sign in SIGNS)
    yield from (f"a reach of M + 1 by the number's {way}" for way in ("rounded up", "rounded down", "a tie"))
    yield "a reach of M + 1 by the margin's rounding up"


def met_in(case, want):
    yield f"refusal {want.refusal}"
    yield from order_in(case, want)
    if want.refusal in (0, NUMBER_TEXT):
        yield from of_bytes("the number", case.number, want.place if want.refusal else None)
    if want.refusal in (0, MARGIN_TEXT):
        yield from of_bytes("the margin", case.margin, want.place if want.refusal else None)
    if want.refusal in (0, REACH):
        yield from of_units(case)


def required_in():
    parts = (orders_in_required(), units_required(), bytes_required("the number", ("", "a minus")), bytes_required("the margin", ("",)))
    for part in parts:
        yield from part


def met(case, want):
    out = isinstance(case, Out)
    return (f"{'out' if out else 'in'}: {words}" for words in (met_out if out else met_in)(case, want))


def required():
    return {f"out: {words}" for words in required_out()} | {f"in: {words}" for words in required_in()}
