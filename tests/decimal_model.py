"""A second printer and reader of decimal numbers, written from the words of the request for honest decimals, with exact fractions.

Which texts are numbers is data: every shape that a number may have. The place of a refusal is the length of the longest beginning of the
text that begins some shape. A second way to the place asks of each beginning whether something behind it makes a number.
"""

import re
from decimal import Decimal
from fractions import Fraction
from functools import lru_cache
from math import ceil, floor

from evaluator import M
from grammar import MOST_DIGITS, shapes_of_a_number

SCALES, DECIMALS = range(31), range(10)
BETWEEN = " +- "
MOST_BYTES = 45
SCALE, NO_ROOM, NUMBER_TEXT, MARGIN_TEXT, REACH, WRONG_DECIMALS = 3, 10, 24, 25, 26, 27
KINDS = {byte: "digit" for byte in b"0123456789"} | {byte: chr(byte) for byte in b".-"}
LONGEST_NUMBER = MOST_DIGITS + 2
WRITTEN = {
    True: re.compile(rb"-?[0-9](?=[0-9.]{0,9}\Z)[0-9]{0,8}(\.[0-9]{1,8})?\Z"),
    False: re.compile(rb"[0-9](?=[0-9.]{0,9}\Z)[0-9]{0,8}(\.[0-9]{1,8})?\Z"),
}


def nearest(exactly):
    """The whole number nearest to a fraction, of two the upper one."""
    below = floor(exactly)
    return min((below, below + 1), key=lambda number: (abs(exactly - number), -number))


def counted(scale, decimals, centre, margin):
    """A ball in units as counts of 10^-decimals: the decimal centre, and the decimal margin as one rounding up of a sum."""
    exactly = Fraction(centre * 10**decimals, 1 << scale)
    decimal_centre = nearest(exactly)
    return decimal_centre, ceil(Fraction(margin * 10**decimals, 1 << scale) + abs(exactly - decimal_centre))


def written(decimals, count):
    return format(Decimal(count).scaleb(-decimals), "f")


def to_decimal(scale, decimals, centre, margin, places, room):
    """(refusal, the decimal centre and margin, the text)."""
    if scale not in SCALES:
        return SCALE, (), b""
    if decimals not in DECIMALS:
        return WRONG_DECIMALS, (), b""
    if abs(centre) + margin > M:
        return REACH, (), b""
    counts = counted(scale, decimals, centre, margin)
    text = BETWEEN.join(written(decimals, count) for count in counts).encode()
    return (NO_ROOM, (), b"") if min(places) < 1 or room < len(text) else (0, counts, text)


@lru_cache(maxsize=None)
def shapes(with_minus):
    """Each shape of a number, and each beginning of one."""
    bare = tuple(shapes_of_a_number())
    whole = frozenset(bare) | (frozenset(("-", *shape) for shape in bare) if with_minus else frozenset())
    return whole, frozenset(shape[:size] for shape in whole for size in range(len(shape) + 1))


def misread_at(text, with_minus):
    """The place at which a text is no number; nowhere if it is one."""
    whole, begun = shapes(with_minus)
    kinds = tuple(KINDS.get(byte) for byte in text[: LONGEST_NUMBER + 1])
    return None if kinds in whole else max(size for size in range(len(kinds) + 1) if kinds[:size] in begun)


def misread_by_completing(text, with_minus):
    """The same place: a beginning is good where it is a number, or is one with one digit more."""
    number = WRITTEN[with_minus]
    if number.match(text):
        return None
    good = (any(number.match(text[:size] + more) for more in (b"", b"0")) for size in range(1, len(text) + 1))
    return next((place for place, goes_on in enumerate(good) if not goes_on), len(text))


def units(scale, number, margin):
    """A number and its margin, as fractions, as a reading in units."""
    exactly = number * (1 << scale)
    return nearest(exactly), ceil(margin * (1 << scale)) + (exactly.denominator > 1)


def from_decimal(scale, number, margin, places):
    """(refusal, its place, the reading's centre and margin)."""
    if scale not in SCALES:
        return SCALE, 0, ()
    for text, with_minus, refusal in ((number, True, NUMBER_TEXT), (margin, False, MARGIN_TEXT)):
        if (place := misread_at(text, with_minus)) is not None:
            return refusal, place, ()
    centre, doubt = units(scale, Fraction(number.decode()), Fraction(margin.decode()))
    if abs(centre) + doubt > M:
        return REACH, 0, ()
    return (NO_ROOM, 0, ()) if min(places) < 1 else (0, 0, (centre, doubt))
