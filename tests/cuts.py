"""Formulas with one field that is refused, at every place within a byte, whole and cut at each byte: first 1, then the field's own test."""

from itertools import product

import reader
from reader import LARGEST as M

HEADERS = (
    *({"version": version} for version in range(128)),
    *({"scale": scale} for scale in range(32)),
    *({"m": m} for m in range(32)),
    *({"l": l} for l in (0, 1, 2, 511, 512, 513, 514, 1022, 1023)),
    *({"n": n} for n in range(32)),
)
# Each a code with its fields, after so many values that operand 9 is permitted and operand 1000 is not.
REFUSED = (
    *((7, 0, 0), (7, 1000, 1000), (6, 1000), (6, 1023), (0, -(1 << 31)), (1, 1000), (4, 1000, 0), (4, 0, 1000), (2, 1000, 1000)),
    *((5, -(1 << 31), 0), (5, -(1 << 31), M), (5, M, 1), (5, -M, 1), (5, 1, M), (5, M, M)),
)
# Coefficients that are permitted: the least and the largest margins, alone and with the largest reach.
COEFFICIENTS = ((5, 0, 0), (5, 2, 1), (5, -1, 0), (5, 0, M), (5, M - 1, 1), (5, 1 - M, 1), (5, -M, 0), (5, -1, M - 1), (5, 1 << 30, (1 << 30) - 1))
# Scales around the largest that reciprocals are for.
SCALES_DIVIDED = (0, 15, 16, 17, 30)
INPUTS = 10
MOST_OUTPUTS = 16
PLACES_IN_A_BYTE = 8


def with_cuts(data):
    for size in range(len(data) + 1):
        yield data[:size]


def headers():
    for fields in HEADERS:
        kept = {"scale": 4, "m": 1, "program": [(4, 0, 0)], "outputs": [1]} | fields
        yield from with_cuts(reader.pack(**kept))


def programs():
    for before in range(PLACES_IN_A_BYTE):
        for refused in REFUSED:
            yield from with_cuts(reader.pack(4, INPUTS, [(4, 9, 0)] * before + [refused, (1, 0)], [0]))
        for count in (1, 2, 3, 4):
            yield from with_cuts(reader.pack(4, INPUTS, [(4, 9, 0)] * before, [0] * (count - 1) + [1000]))


def coefficients():
    """Coefficients at every place within a byte and at every distance from the end of the bytes, permitted ones and refused ones."""
    refused = tuple(row for row in REFUSED if row[0] == 5)
    for before, count in product(range(PLACES_IN_A_BYTE), range(1, MOST_OUTPUTS + 1)):
        for row in COEFFICIENTS + refused:
            yield reader.pack(4, INPUTS, [(4, 9, 0)] * before + [row], [9] * count)
    for before, row in product(range(PLACES_IN_A_BYTE), COEFFICIENTS):
        yield from with_cuts(reader.pack(4, INPUTS, [(4, 9, 0)] * before + [row], [INPUTS + before]))
        yield reader.pack(4, INPUTS, [(1, 9)] * before + [row] * 3, [INPUTS + before] * 2)


def margins_near():
    """Every margin around what each centre leaves room for."""
    for centre in (0, 1, -1, 2, -9, 1 << 16, -(1 << 30), M - 1, 1 - M, M, -M, -(1 << 31)):
        room = M - abs(centre)
        for margin in {0, 1, 2, room - 1, room, room + 1, 1 << 30, M - 1, M}:
            if 0 <= margin <= M:
                yield reader.pack(4, INPUTS, [(5, centre, margin), (4, 10, 9), (2, 11, 10)], [10, 11, 12])


def reciprocals():
    """Reciprocals at every place within a byte and at every distance from the end of the bytes, at scales that they are for and at others:
    of the first value, of the last, of none yet, and cut behind the code and inside the operand."""
    for before, count, scale in product(range(PLACES_IN_A_BYTE), range(1, MOST_OUTPUTS + 1), (16, 17)):
        for name in (0, INPUTS + before - 1, INPUTS + before, 1023):
            yield reader.pack(scale, INPUTS, [(4, 9, 0)] * before + [(6, name)], [9] * count)
    for before, scale, name in product(range(PLACES_IN_A_BYTE), SCALES_DIVIDED, (9, 1000)):
        yield from with_cuts(reader.pack(scale, INPUTS, [(4, 9, 0)] * before + [(6, name)], [INPUTS + before]))
    for before, scale in product(range(PLACES_IN_A_BYTE), range(32)):
        yield reader.pack(scale, INPUTS, [(1, 9)] * before + [(6, 9)] * 3, [INPUTS + before] * 2)


def two_refused():
    """Two instructions that are refused, one behind the other: the first one's refusal, at a scale that reciprocals are not for too."""
    rows = (6, 0), (6, 1000), (7, 0, 0), (4, 1000, 0), (0, -(1 << 31)), (5, M, 1), (1, 9)
    for before, scale, (first, second) in product((0, 3, 5), (16, 17), product(rows, repeat=2)):
        yield reader.pack(scale, INPUTS, [(4, 9, 0)] * before + [first, second], [0])


def flips():
    """Every bit of files with coefficients and with reciprocals, flipped."""
    weighed = [(5, 2, 1)], [(4, 9, 0), (5, -M, 0), (4, 10, 11)], [(1, 0), (5, M - 1, 1), (5, 0, 0), (2, 11, 12)]
    divided = [(6, 0)], [(4, 9, 0), (6, 10), (6, 11)], [(5, 2, 1), (6, 10), (4, 11, 9)]
    for scale, program in (*product((4,), weighed), *product((4, 16, 17), divided)):
        data = reader.pack(scale, INPUTS, program, [INPUTS + len(program) - 1, 0])
        for bit in range(8 * len(data)):
            yield flipped(data, bit)


def flipped(data, bit):
    changed = bytearray(data)
    changed[bit // 8] ^= 128 >> bit % 8
    return bytes(changed)


def padding():
    """Every bit of the padding set, and bytes that follow."""
    for count in range(1, 17):
        data = reader.pack(4, INPUTS, [], [9] * count)
        left = -(32 + 10 * count) % 8
        for bits in range(1 << left):
            yield data[:-1] + bytes([data[-1] | bits])
        yield from (data + b"\0", data + b"\1", data + bytes(9), data + bytes(4096))


def all_cuts():
    for some in (headers, programs, coefficients, margins_near, reciprocals, two_refused, flips, padding):
        yield from some()
