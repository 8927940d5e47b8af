"""Explanations worked out by hand, with the arithmetic beside them."""

import reader
from evaluator import M
from explaining_frames import ADMITTED_TO, NEVER, NOTHING, Case

EXAMPLE = bytes.fromhex("0241004180000280200003")
DOUBLED, INVERSE, SQUARE = reader.pack(0, 1, [(2, 0, 0)], [1]), reader.pack(0, 1, [(6, 0)], [1]), reader.pack(4, 1, [(4, 0, 0)], [1])


def one(data, middle, stray, margin):
    return Case(data, ([middle], [stray], [margin]))


# Each with its refusal, answer, parts, what was met and its place.
FIGURES = (
    # Document 01's admission gives 9 9 4.
    (Case(EXAMPLE, ([24, -10], [3, 2], [1, 1])), (0, NOTHING, 0, 0, 0)),
    # At 128 a half of M, 2^30 - 1/2, is rounded down: twice that is M - 1. At 129 it is 1082130431, and twice that is over M.
    (one(DOUBLED, 0, M, 0), (0, ADMITTED_TO, 128, 11, 0)),
    (one(DOUBLED, 0, 0, M), (0, ADMITTED_TO, 128, 11, 0)),
    # At 255 twice 2^30 - 2^22 is in reach; the whole is 2^31.
    (one(DOUBLED, 0, 1 << 30, 0), (0, ADMITTED_TO, 255, 11, 0)),
    # At 0 the sum is 2^30 - 1 twice, at 1 it is that and twice a unit.
    (one(DOUBLED, (1 << 30) - 1, 256, 256), (0, ADMITTED_TO, 0, 11, 0)),
    (one(DOUBLED, 1 << 30, 7, 7), (0, NEVER, 0, 11, 0)),
    # 200 at 127 is 99.2, at 128 it is 100.
    (one(INVERSE, 100, 200, 0), (0, ADMITTED_TO, 127, 17, 0)),
    (one(INVERSE, -100, 0, 200), (0, ADMITTED_TO, 127, 17, 0)),
    # At 255 the parts are 0 and 4, which is less than 5.
    (one(INVERSE, 5, 1, 5), (0, ADMITTED_TO, 255, 17, 0)),
    (one(INVERSE, 5, 0, 4), (0, NOTHING, 0, 0, 0)),
    (one(INVERSE, 0, 5, 5), (0, NEVER, 0, 17, 0)),
    # A sixteenth of 185000 squared is 2139062500, of 186000 squared 2162250000; h adds 1.
    (one(SQUARE, 0, 256000, 0), (0, ADMITTED_TO, 185, 11, 0)),
    # From 128 on instruction 1 is refused, from 129 on instruction 0: at 128 it is 1, with the whole domain 0.
    (Case(reader.pack(0, 2, [(2, 1, 1), (6, 0)], [3]), ([100, 0], [200, M], [0, 0])), (0, ADMITTED_TO, 127, 17, 1)),
    # At 0 instruction 3 is refused, with the whole domain 0.
    (Case(reader.pack(0, 1, [(6, 0), (0, M), (1, 1), (2, 2, 2)], [4]), ([9], [9], [0])), (0, NEVER, 0, 11, 3)),
    # Without inputs nothing shrinks.
    (Case(reader.pack(0, 0, [(0, M), (2, 0, 0)], [1]), ([], [], [])), (0, NEVER, 0, 11, 1)),
    (Case(reader.pack(0, 0, [(0, 5), (6, 0)], [1]), ([], [], [])), (0, NOTHING, 0, 0, 0)),
    # Refused before anything is admitted.
    (Case(EXAMPLE[:-1], ([24, -10], [3, 2], [1, 1])), (1, 0, 0, 0, 0)),
    (Case(EXAMPLE, ([24, -10], [3], [1, 1])), (13, 0, 0, 0, 0)),
    (Case(EXAMPLE, ([24, -10], [3, -2], [1, 1])), (14, 0, 0, 0, 1)),
    (Case(EXAMPLE, ([24, M], [3, 0], [1, 1])), (15, 0, 0, 0, 1)),
)
