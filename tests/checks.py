"""Bytes for the check job: each field at its limits, the longest formula cut and flipped, damaged random formulas."""

import random
from itertools import product

import reader
from cuts import flipped
from damage import damaged
from reader import LARGEST as M

EXAMPLE = bytes.fromhex("0241004180000280200003")


# Prime to 8, 13 and 66: such steps come to every bit of a byte, of a reciprocal and of a coefficient.
FLIPPED_EVERY = 7
# A random formula with reciprocals seldom has a scale that they are not for.
SHARE_DIVIDED_ANYWAY = 0.1


def of_most_counts(program, scale=30):
    return reader.pack(scale, 16, program, [527 - 32 * k for k in range(16)])


def longest():
    """16 inputs, 512 coefficients, 16 outputs: 4,248 bytes. Every second coefficient has the largest reach."""
    centres = [(k * 2654435761) % (2 * M + 1) - M for k in range(512)]
    return of_most_counts([(5, centre, (M - abs(centre)) >> k % 2) for k, centre in enumerate(centres)])


def longest_exact():
    """The same with 512 constants: 2,264 bytes."""
    return of_most_counts([(0, (k * 2654435761) % (1 << 32) or 1) for k in range(512)])


def longest_divided():
    """As many instructions, each the reciprocal of the value 16 before it, at the largest scale that has them: 856 bytes."""
    return of_most_counts([(6, k) for k in range(512)], scale=16)


def random_formula(rng):
    m = rng.choice((0, 1, 2, 5, 16))
    l = rng.choice((0, 1, 2, 7, 30))
    scale = rng.randrange(31)
    codes = 7 if scale <= 16 or rng.random() < SHARE_DIVIDED_ANYWAY else 6
    program = []
    for k in range(l):
        code = rng.randrange(codes) if m + k else rng.choice((0, 5))
        if code in (0, 5):
            centre = rng.choice((0, 1, -1, M, -M, rng.randrange(1 << 31)))
            program.append((0, centre) if code == 0 else (5, centre, rng.randrange(M - abs(centre) + 1)))
        else:
            program.append((code, *(rng.randrange(m + k) for _ in range(1 if code in (1, 6) else 2))))
    outputs = [rng.randrange(m + l) for _ in range(rng.randrange(1, 17))] if m + l else [0]
    return reader.pack(scale, m, program, outputs)


def all_checks():
    yield EXAMPLE
    yield b""
    for scale in range(32):
        yield reader.pack(scale, 1, [], [0])
        yield reader.pack(scale, 1, [(6, 0)], [1])
    for version in range(128):
        yield reader.pack(4, 1, [], [0], version=version)
    yield reader.pack(0, 0, [], [0])
    for m in range(32):
        yield reader.pack(0, m, [], [0])
    for n in range(32):
        yield reader.pack(0, 1, [], [0] * n)
    for l in (0, 511, 512, 513, 514, 1023):
        yield reader.pack(0, 1, [(1, 0)] * min(l, 512), [0], l=l)
    for scale, code in product((0, 16, 17), range(8)):
        yield reader.pack(scale, 2, [(code, 0, 1)], [0])
    for constant in (-(1 << 31), 1 - (1 << 31), (1 << 31) - 1, -1, 0):
        yield reader.pack(0, 0, [(0, constant)], [0])
    for name in (0, 1, 2, 3, 1023):
        yield reader.pack(0, 1, [(1, 0), (2, 0, name)], [2])
        yield reader.pack(0, 1, [(1, 0), (2, name, 0)], [2])
        yield reader.pack(0, 1, [(1, 0), (1, 0)], [name])
    for whole, every in ((longest_exact(), 1), (longest(), FLIPPED_EVERY), (longest_divided(), FLIPPED_EVERY)):
        yield whole
        for size in range(len(whole)):
            yield whole[:size]
        for bit in range(0, 8 * len(whole), every):
            yield flipped(whole, bit)
    rng = random.Random(1)
    for _ in range(5000):
        data = random_formula(rng)
        yield data
        for _ in range(3):
            yield damaged(rng, data)


def figures():
    """What documents 01 and 02 say of some of them."""
    yield EXAMPLE, (0, 4, 2, 2, 1)
    yield b"", (1,)
    yield reader.pack(0, 0, [], [0]), (6,)
    yield longest(), (0, 30, 16, 512, 16)
    yield longest_exact(), (0, 30, 16, 512, 16)
    yield longest_divided(), (0, 16, 16, 512, 16)
