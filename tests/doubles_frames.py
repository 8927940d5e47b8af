"""Cases of the ball run that gives doubles, and their replies, as bytes between doubles.py and driver.c, little-endian.

A case is that of the ball job in frames.py, but with job 7. Its reply: the struct of margins.h (16 bytes), whether the formula, the readings
and the places behind the lists are as they were (1), then every place (8 each) of both work lists, then the 64 bits of every place of both
lists of doubles.
"""

import struct
from array import array
from fractions import Fraction
from typing import NamedTuple

import evaluator
import frames
from frames import HEAD, INTACT, LONGEST_LENT, sentinel

JOB = 7
PARTS = ("centres", "margins")
EXPONENTS = 0x7FF << 52
MINUS_ZERO = 1 << 63


class Wanted(NamedTuple):
    refusal: int
    place: int
    values: list
    pairs: list
    head: bytes


def double_sentinel(number, index):
    """What driver.c puts into a lent list of doubles before the run: NaNs, minus zeros, and numbers of every size."""
    x = sentinel(number, index)
    return (x | EXPONENTS, MINUS_ZERO, x & ~EXPONENTS, x)[index % 4]


SENTINELS = [[double_sentinel(number, i) for i in range(LONGEST_LENT)] for number in (2, 3)]


def meaning(bits):
    """The number that the 64 bits of a double mean, by its sign, exponent field and fraction field; none for an infinity or a NaN."""
    sign, exponent, fraction = bits >> 63, bits >> 52 & 0x7FF, bits & (1 << 52) - 1
    if exponent == 0x7FF:
        return None
    significand, power = ((1 << 52) + fraction, exponent - 1075) if exponent else (fraction, -1074)
    return (-1) ** sign * significand * Fraction(2) ** power


def is_exactly(bits, fraction):
    """Whether these bits mean that very number; for 0 plus zero alone."""
    return meaning(bits) == fraction if fraction else bits == 0


def asked(case):
    """The frame of a case."""
    return bytes([JOB]) + frames.asked(case)[1:]


reply_size = frames.reply_size


def wanted(case):
    """What the second evaluator says of a case, and the bytes of the reply up to the lists of doubles."""
    refusal, place, values, pairs = evaluator.ball_doubles(case.data, case.readings, case.lengths)
    pieces = [struct.pack("<IIQ", refusal, len(pairs), place), INTACT]
    for number, kind in enumerate("qQ"):
        pieces.append(struct.pack(f"<{len(values)}{kind}", *(value[number] for value in values)))
        pieces.append(frames.SENTINELS[number][8 * len(values) : 8 * case.lengths[number]])
    return Wanted(refusal, place, values, pairs, b"".join(pieces))


def doubles_in(case, reply):
    """The bits at each place of both lists of doubles."""
    start = HEAD + 8 * sum(case.lengths[:2])
    places = array("Q", reply[start:])
    return places[: case.lengths[2]], places[case.lengths[2] :]


def wrong_places(case, want, reply):
    """Each place of a list of doubles that is not as it should be: which list, which place, its bits."""
    for part, places in enumerate(doubles_in(case, reply)):
        for i, bits in enumerate(places):
            if not (is_exactly(bits, want.pairs[i][part]) if i < len(want.pairs) else bits == SENTINELS[part][i]):
                yield part, i, bits


def right(case, reply):
    want = wanted(case)
    return reply[: len(want.head)] == want.head and not any(wrong_places(case, want, reply))


def told(case, want, reply):
    """What differs, in words."""
    lines = []
    if reply[: len(want.head)] != want.head:
        working = case._replace(lengths=case.lengths[:2])
        lines += ["second evaluator:", frames.told(working, want.head), "driver:", frames.told(working, reply)]
    for part, i, bits in wrong_places(case, want, reply):
        should = f"exactly {want.pairs[i][part] or 'plus zero'}" if i < len(want.pairs) else f"what it held, {SENTINELS[part][i]:016x}"
        lines.append(f"{PARTS[part]}, place {i}: the bits {bits:016x} mean {meaning(bits)}, and it should be {should}")
    return "\n".join("  " + line for line in lines)
