"""The cases that decimals.py runs. Out: at each scale with each number of decimals centres and margins where a rounding turns, every number
of digits, every length of the lists, reaches around M, wrong scales and decimals. In: every short text over a few bytes, each byte behind
each beginning, at each scale with each number of digits behind the point ties, whole counts of units and reaches around M, random texts whole
and damaged."""

import random
from fractions import Fraction
from itertools import islice, product

from decimal_figures import NOT_PRINTED, NOT_READ, PRINTED, READ
from decimal_frames import In, Out
from decimal_model import DECIMALS, MOST_BYTES, SCALES, counted, to_decimal, units
from evaluator import M
from grammar import MOST_DIGITS, shapes_of_a_number
from text_cases import FAR, STRANGE, damaged, decimal

SIGNS = (1, -1)
ENOUGH = MOST_BYTES + 15
BEHIND = range(MOST_DIGITS)
ALPHABET, SHORT = b"01.-x", 5
LONG = 100000
# Centres and margins out of reach: each by itself, both together, and sums that 32 or 64 bits would cut to permitted ones.
TOO_LARGE = (
    *((sign * (M + 1), 0) for sign in SIGNS),
    *((sign * centre, M + 1 - centre) for sign in SIGNS for centre in (0, 1, M // 2, M)),
    *((sign * centre, 0) for sign in SIGNS for centre in (1 << 32, (1 << 32) + 5, (1 << 63) - 1)),
    *((-(1 << 63), margin) for margin in (0, 1, (1 << 63) - 1, 1 << 63, (1 << 63) + 9)),
    *((centre, margin) for centre in (0, 1, -1, 9, -9, M) for margin in (1 << 32, 1 << 63, (1 << 64) - 1, (1 << 64) - 9)),
)
# A byte of each kind: a digit, the marks, bytes beside them, and bytes that seven bits would take for others.
KINDS = (b"", *(bytes([byte]) for byte in b"07.-+ x/:,\0\xff\n\xb0\xad\xae"))
RANDOM_EACH = 12
TRIED_FOR_A_REACH, MOST_OF_A_REACH = 2000, 30


def turning_sizes(scale, decimals):
    """Sizes of a centre where printing turns: ties and whole counts, where a digit comes to the number, half a unit, M; each with its
    neighbours."""
    tie = 1 << max(0, scale - 1 - decimals)
    some = {0, 1 << scale >> 1, 1 << scale, M // 2, M, tie, 3 * tie, (M // tie - 1 | 1) * tie, 2 * tie, M // tie // 2 * 2 * tie}
    some |= {10**digits * (1 << scale) // 10**decimals for digits in range(20)}
    return sorted({size for near in some for size in (near - 1, near, near + 1) if 0 <= size <= M})


def filling(scale, decimals, centre):
    """The least margins that make, with what rounding the centre lost, a whole count, the least over one, and the least below one; and after
    how many units they come again."""
    tens, unit = 10**decimals, 1 << scale
    common = min(unit, 1 << decimals)
    lost, period = abs(centre * tens - counted(scale, decimals, centre, 0)[0] * unit), unit // common
    return [(over - lost // common) * pow(tens // common, -1, period) % period for over in (0, 1, -1)], period


def turning_margins(rng, scale, decimals, centre):
    """Margins that make a whole count, the least over and below one, and those beside them; none, the least, the largest and any other."""
    room, (leasts, period) = M - abs(centre), filling(scale, decimals, centre)
    whole = (leasts[0], leasts[0] + period)
    later = (rng.choice(leasts) + rng.randrange(1, 9) * period for _ in range(2))
    some = {0, 1, room, rng.randrange(room + 1), *leasts[1:], *later, *(near + by for near in whole for by in (-1, 0, 1))}
    return sorted(margin for margin in some if 0 <= margin <= room)


def turning_balls(rng):
    """At each scale with each number of decimals; at the most telling centres with all margins, at the others with one."""
    for scale, decimals in product(SCALES, DECIMALS):
        tie = 1 << max(0, scale - 1 - decimals)
        telling = {0, 1, tie, 3 * tie, 2 * tie, rng.randrange(M), rng.getrandbits(rng.randrange(1, 31))}
        for size, sign in product(turning_sizes(scale, decimals), SIGNS):
            yield Out(scale, decimals, sign * size, rng.choice(turning_margins(rng, scale, decimals, size)))
        for size, sign in product(sorted(size for size in telling if size <= M), SIGNS):
            for margin in turning_margins(rng, scale, decimals, sign * size):
                yield Out(scale, decimals, sign * size, margin)


def reaching(rng):
    """At each scale with each number of decimals reaches of M and of one more."""
    for scale, decimals in product(SCALES, DECIMALS):
        for size, sign in product((0, 1, M // 2, M, rng.randrange(M)), SIGNS):
            yield from (Out(scale, decimals, sign * size, M - size + over) for over in (0, 1))
        centre, margin = rng.choice(TOO_LARGE)
        yield Out(scale, decimals, centre, margin)


def of_digits(rng, digits, most):
    return rng.randrange(10 ** (digits - 1) if digits > 1 else 0, min(10**digits, most + 1))


def every_size(rng):
    """With each number of decimals every number of digits before each point, with and without a minus: room for it, one less and one more."""
    for decimals, whole, doubt, sign in product(DECIMALS, range(1, 11), range(1, 11), SIGNS):
        margin = of_digits(rng, doubt, M - 10 ** (whole - 1))
        centre = sign * (of_digits(rng, whole, M - margin) or sign < 0)
        size = len(to_decimal(0, decimals, centre, margin, (1, 1), ENOUGH)[2])
        yield from (Out(0, decimals, centre, margin, (1, 1), room) for room in (size, size - 1, size + 1))


def every_room(rng):
    """Every length of the buffer; every short length of each list."""
    some = [(4, 4, 9, 9), (4, 1, 9, 9), (20, 4, 3, 1), (0, 0, 0, 0), (0, 9, -1073741824, 1073741823), (0, 0, -7, 10), (30, 9, -1, M - 1)]
    some += [(rng.choice(SCALES), decimals, rng.randrange(-M, M + 1) // 2, rng.randrange(M // 2)) for decimals in DECIMALS]
    for ball in some:
        size = len(to_decimal(*ball, (1, 1), ENOUGH)[2])
        yield from (Out(*ball, (1, 1), room) for room in range(ENOUGH + 1))
        for places, room in product(product((0, 1, 2, 5), repeat=2), (0, 1, size - 1, size, size + 1, ENOUGH)):
            yield Out(*ball, places, room)


def wrong_headers_out():
    """Wrong scales, decimals and balls beside right ones and beside each other, with room and without."""
    scales, decimals = (*FAR, 31, 0, 30), (*FAR, -1, 10, 256, 0, 9)
    for scale, digits, ball in product(scales, decimals, ((9, 9), (-(1 << 63), 0), (M, 1), (0, (1 << 64) - 1), (0, M), (-M, 0))):
        for places, room in (((1, 1), ENOUGH), ((0, 0), 0), ((1, 1), 0)):
            yield Out(scale, digits, *ball, places, room)
    for (centre, margin), places in product(TOO_LARGE, ((1, 1), (0, 1), (1, 0))):
        yield Out(7, 3, centre, margin, places)


def short_texts():
    """Every text of up to five bytes, as the number and as the margin."""
    everything = (bytes(text) for size in range(SHORT + 1) for text in product(ALPHABET, repeat=size))
    for i, text in enumerate(everything):
        yield In(i % 31, text, b"0.1")
        yield In(i * 7 % 31, b"-1", text)


def begun_numbers():
    """What a number may begin with: each shape, each that ends in its point, nothing; with and without a minus."""
    whole = [b"".join(b"." if symbol == "." else b"%d" % (7 * i % 10) for i, symbol in enumerate(shape)) for shape in shapes_of_a_number()]
    pointed = [number + b"." for number in whole if b"." not in number and len(number) < MOST_DIGITS]
    for number in (b"", *whole, *pointed):
        yield from (number, b"-" + number)


def each_byte():
    """A byte of each kind behind each beginning; each of the 256 behind some."""
    for begun, byte in product(begun_numbers(), KINDS):
        yield In(2, begun + byte, b"0")
        yield In(3, b"0", begun + byte)
    for begun, byte in product((b"", b"-", b"1", b"1.", b"-0.5", b"12345678", b"12345678.", b"123456789"), range(256)):
        yield In(0, begun + bytes([byte]) + (b"1" if byte % 2 else b""), b"5")
        yield In(1, b"5", begun + bytes([byte]) + (b"1" if byte % 2 else b""))


def shaped_numbers(rng):
    """1 to 10 digits, a point at each place and nowhere."""
    for size in range(1, MOST_DIGITS + 2):
        for point, scale, minus in product((None, *range(size + 1)), (0, 1, 4, 30, rng.choice(SCALES)), (b"", b"-")):
            digits = bytes(rng.choice(b"0123456789") for _ in range(size))
            number = minus + (digits if point is None else digits[:point] + b"." + digits[point:])
            yield from (In(scale, number, b"0"), In(scale, b"0", number))


def some_margin(rng, scale):
    """A margin that is none, a whole count of units, or neither."""
    behind = rng.choice(BEHIND)
    whole = 5**behind << max(0, behind - scale)
    return decimal(rng.choice((0, whole, rng.randrange(10**behind), rng.randrange(10 ** min(MOST_DIGITS, behind + 1)))), behind)


def some_number(rng, scale):
    return rng.choice((b"", b"-")) + some_margin(rng, scale)


def turning_counts(rng, scale, behind):
    """Counts of 10^-behind where reading turns: whole counts of units and, where there are some, ties, each with its neighbours; others."""
    whole = 5**behind << max(0, behind - scale)
    some = {0, whole, whole * rng.randrange(1, 10), rng.randrange(10 ** (behind + 1)), rng.randrange(10**behind)}
    if behind > scale:
        some |= {whole // 2 * (2 * k + 1) for k in (0, 1, rng.randrange(8))}
    return sorted(count for near in some for count in (near - 1, near, near + 1))


def turning_numbers(rng):
    """At each scale with each number of digits behind the point, as the number with both signs and as the margin."""
    for scale, behind in product(SCALES, BEHIND):
        for text in filter(None, (decimal(count, behind) for count in turning_counts(rng, scale, behind))):
            yield from (In(scale, sign + text, some_margin(rng, scale)) for sign in (b"", b"-"))
            yield In(scale, some_number(rng, scale), text)


def near_reach(rng):
    """At each scale with each number of digits behind the point the numbers, and the margins, next to the last in reach."""
    for scale, behind in product(SCALES, BEHIND):
        last = M * 10**behind >> scale
        for text in filter(None, (decimal(last + by, behind) for by in range(-2, 3))):
            yield from (In(scale, sign + text, b"0") for sign in (b"", b"-"))
            yield In(scale, rng.choice((b"0", b"-0.0", b"0.1")), text)


def with_reach(rng, scale, sign, reach):
    """A number with a margin whose reach is that very number of units; none where there is no such margin."""
    behind = rng.choice(BEHIND)
    most = min(10**MOST_DIGITS - 1, M * 10**behind >> scale)
    number = decimal(rng.choice((rng.randrange(most + 1), *turning_counts(rng, scale, behind))), behind)
    if not number:
        return None
    centre, lost = units(scale, Fraction((sign + number).decode()), Fraction(0))
    need = reach - abs(centre) - lost
    margins = [margin for digits in BEHIND if need >= 0 and (margin := decimal(need * 10**digits >> scale, digits))]
    fitting = [margin for margin in margins if units(scale, Fraction(0), Fraction(margin.decode()))[1] == need]
    return In(scale, sign + number, rng.choice(fitting)) if fitting else None


def reach_by_both(rng):
    """At each scale but 0, where nothing reaches so far, numbers with margins that together reach M, one more and one less."""
    for scale, sign, over in product(SCALES[1:], (b"", b"-"), (-1, 0, 1)):
        tried = (with_reach(rng, scale, sign, M + over) for _ in range(TRIED_FOR_A_REACH))
        yield from islice(filter(None, tried), MOST_OF_A_REACH)


def wrong_headers_in():
    """Wrong scales, texts and reaches beside right ones and beside each other, with room and without."""
    numbers = (b"0.1", b"-0", b"", b"-", b"x", b"1.", b"1234567890", b"2147483647", b"999999999", b"9x", b"-9.")
    margins = (b"0.1", b"0", b"", b"-", b"-1", b"1.", b"1234567890", b"999999999", b"9x", b"9.")
    for scale, number, margin in product((*FAR, 31, 0, 30), numbers, margins):
        yield from (In(scale, number, margin, places) for places in ((1, 1), (0, 0)))
    for number, margin in product(numbers, margins):
        yield from (In(4, number, margin, places) for places in product((0, 1, 2, 5), repeat=2))


def random_texts(rng):
    """At each scale, whole and damaged."""

    def any_byte():
        return rng.choice((*b"0123456789..--", *STRANGE, rng.randrange(256)))

    for scale, _ in product(SCALES, range(RANDOM_EACH)):
        number, margin = some_number(rng, scale), some_margin(rng, scale)
        places = rng.choice(((1, 1), (1, 1), (2, 1), (1, 3), (0, 1), (1, 0)))
        yield In(scale, number, margin, places)
        yield In(scale, damaged(rng, number, any_byte), margin, places)
        yield In(scale, number, damaged(rng, margin, any_byte), places)
        yield In(scale, damaged(rng, number, any_byte), damaged(rng, margin, any_byte), places)


def long_texts():
    for text in (b"0" * LONG, b"1." + b"0" * LONG, b"-" * LONG, b"1" + b"\0" * LONG, b"." * LONG, b"-123456789" + b"." * LONG):
        yield from (In(4, text, b"0"), In(4, b"0", text), In(4, text, text))


def figures():
    for ball, *_ in (*PRINTED, *NOT_PRINTED):
        yield from (Out(*ball), Out(*ball, (1, 1), 0))
    for (scale, number, margin), *_ in (*READ, *NOT_READ):
        yield from (In(scale, number.encode(), margin.encode(), places) for places in ((1, 1), (0, 1)))


def all_cases(seed=7):
    rng = random.Random(seed)
    out = (turning_balls(rng), reaching(rng), every_size(rng), every_room(rng), wrong_headers_out())
    read = (short_texts(), each_byte(), shaped_numbers(rng), turning_numbers(rng), near_reach(rng), reach_by_both(rng), wrong_headers_in())
    for some in (figures(), *out, *read, random_texts(rng), long_texts()):
        yield from some
