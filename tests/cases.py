"""The cases that compare.py runs: the documents' figures, small products, reciprocals and whole factors at each scale, each limit, random
ones, some of them spoilt, and each place of a refusal."""

import random
from itertools import product
from math import isqrt

import reader
from cuts import all_cuts, flipped
from checks import all_checks, longest, longest_divided, longest_exact
from damage import damaged, misfielded, needed, roomy, short, wrong_readings
from dividing import all_by_job, quotients, reciprocals
from evaluator import M
from figures import figures
from formulas import CODES, large_run, small_run
from frames import JOBS, PARTS, Case
from places import all_places
from wholes import admissions

RANDOM_RUNS = 66000
LARGE_EVERY = 50
MOST_PAIRS = 12000


def case_of(rng, data, readings):
    parts = len(readings)
    return Case(JOBS[parts], data, readings, roomy(rng, needed(data, parts)))


def products_of(rng, scale, pairs):
    """The products of these pairs of values, eight in a formula."""
    for start in range(0, len(pairs), 8):
        some = pairs[start : start + 8]
        readings = [value for pair in some for value in pair]
        program = [(CODES.index("multiply"), 2 * k, 2 * k + 1) for k in range(len(some))]
        data = reader.pack(scale, len(readings), program, range(len(readings), len(readings) + len(some)))
        yield case_of(rng, data, tuple(map(list, zip(*readings))))


def small_products(rng):
    """Every product of small plain values and balls and many of matryoshki, ties on both sides of zero among them."""
    for scale, parts in product((0, 1, 2, 4), (1, 2, 3)):
        doubts = list(product(range(3), repeat=parts - 1))
        operands = [(centre, *rest) for centre in range(-9, 10) for rest in doubts]
        pairs = list(product(operands, repeat=2))
        rng.shuffle(pairs)
        yield from products_of(rng, scale, pairs[:MOST_PAIRS])


def with_remainder(scale, left, right):
    """A factor beside `right`, an odd one, so that the product has the remainder `left` by Q: the least, and as large as is in reach."""
    unit = 1 << scale
    least = left * pow(right, -1, unit) % unit
    most = min(M, ((M - 2) << scale) // right)
    return {least, least + (most - least) // unit * unit} if least <= most else set()


def remainders(rng):
    """At each scale products whose remainder by Q is near 0, h or Q, small ones and the largest in reach, of both signs."""
    for scale in range(31):
        unit, root = 1 << scale, isqrt(M << scale) | 1
        near = sorted({(place + by) % unit for place in (0, unit // 2) for by in (-2, -1, 0, 1, 2)})
        factors = [(left, right) for right in (1, 3, min(root, M), M) for rest in near for left in with_remainder(scale, rest, right)]
        centres = [(left * sign, right * other) for left, right in factors for sign, other in product((1, -1), repeat=2)]
        for parts in (1, 2, 3):
            yield from products_of(rng, scale, [tuple(beside(rng, centre, parts) for centre in pair) for pair in centres])


def beside(rng, centre, parts):
    """A value with this centre, and no doubt or little."""
    return (centre, *(rng.randrange(2) if abs(centre) < M - 1 else 0 for _ in range(parts - 1)))


def spoilt(rng, case):
    """The case with one thing or more wrong with it."""
    parts = PARTS[case.job]
    data, readings, lengths = case.data, case.readings, case.lengths
    what = rng.choice(("bytes", "bytes", "readings", "room", "two"))
    if what == "bytes" or (what == "two" and rng.random() < 0.3):
        data = rng.choice((damaged, misfielded))(rng, data)
    if what == "readings" or (what == "two" and rng.random() < 0.6):
        readings = wrong_readings(rng, readings)
    if what in ("room", "two"):
        lengths = short(rng, needed(case.data, parts))
    return Case(case.job, data, readings, lengths)


def random_cases(rng):
    """Each random run, a lesser job on its readings, and the case spoilt or the check."""
    for i in range(RANDOM_RUNS):
        parts = rng.randrange(1, 4)
        data, readings = (small_run if i % LARGE_EVERY else large_run)(rng, parts)
        case = case_of(rng, data, readings)
        yield case
        lesser = rng.randrange(1, parts + 1)
        if lesser < parts:
            yield case_of(rng, data, readings[:lesser])
        if i % 4:
            yield spoilt(rng, case)
        else:
            yield Case("check", data)
            yield Case("check", rng.choice((damaged, misfielded))(rng, data))


def every_scale(rng):
    """Each scale, its version, scale and counts field by field, in every job."""
    for scale in range(31):
        data = reader.pack(scale, 1, [(CODES.index("multiply"), 0, 0)], [1])
        for parts in (1, 2, 3):
            case = case_of(rng, data, ([1 << scale], [1], [1])[:parts])
            yield case
            yield from (case._replace(data=flipped(data, bit)) for bit in range(32))


def lengths_near(rng):
    """Every number of readings and of places around what a formula needs, list by list."""
    data = reader.pack(4, 3, [(CODES.index("multiply"), 0, 1), (CODES.index("add"), 2, 3)], [4, 0])
    readings = [24, -10, 5], [3, 2, 0], [1, 1, 2]
    for parts in (1, 2, 3):
        case = case_of(rng, data, readings[:parts])
        for part, length in product(range(parts), range(18)):
            lists = tuple((numbers * 6)[:length] if i == part else numbers for i, numbers in enumerate(case.readings))
            yield case._replace(readings=lists)
            yield case._replace(readings=tuple((numbers * 6)[:length] for numbers in case.readings))
        for number, length in product(range(2 * parts), range(8)):
            yield case._replace(lengths=tuple(length if i == number else enough for i, enough in enumerate(needed(data, parts))))


def longest_runs():
    """The longest formulas in every job, with just enough room and with a place too few in each list."""
    for data, parts in product((longest(), longest_exact(), longest_divided()), (1, 2, 3)):
        centres = [(-1) ** i * (i + 1 << 14) for i in range(16)]
        readings = tuple(centres if part == 0 else [i * part for i in range(16)] for part in range(parts))
        enough = needed(data, parts)
        yield Case(JOBS[parts], data, readings, enough)
        for number in range(2 * parts):
            yield Case(JOBS[parts], data, readings, tuple(length - (i == number) for i, length in enumerate(enough)))


def weighed(rng):
    """Products and sums of small coefficients and readings: the coefficient first and second, in all three kinds."""
    values = list(product((-17, -8, -1, 0, 1, 2, 8, 24), (0, 1, 5)))
    for scale, parts in product((0, 1, 4, 16), (1, 2, 3)):
        for (centre, margin), (c, r) in product(values, repeat=2):
            program = [(5, centre, margin), (4, 0, 1), (4, 1, 0), (3, 1, 0), (2, 2, 3)]
            yield case_of(rng, reader.pack(scale, 1, program, [5, 4, 1]), ([c], [r], [margin])[:parts])


def cut_cases():
    """Bytes with something wrong in them, to each job in turn."""
    readings, lengths = ([1] * 10, [0] * 10, [0] * 10), (40, 40, 40, 16, 16, 16)
    for i, data in enumerate(all_cuts()):
        parts = 1 + i % 3
        yield Case("check", data)
        yield Case(JOBS[parts], data, readings[:parts], lengths[: 2 * parts])


def by_both_doors(some):
    """Every second ball case goes through the door over records, where its lists are of one length."""
    turn = False
    for case in some:
        if case.job == "ball" and len(case.readings[0]) == len(case.readings[1]):
            turn = not turn
            case = case._replace(job="records" if turn else "ball")
        yield case


def of_every_kind(rng):
    for case, *_ in figures():
        yield case
    yield from small_products(rng)
    yield from every_scale(rng)
    yield from lengths_near(rng)
    yield from longest_runs()
    yield from weighed(rng)
    yield from (case_of(rng, *run) for run in (*reciprocals(), *quotients()))
    yield from cut_cases()
    yield from (Case("check", data) for data in all_checks())
    yield from random_cases(rng)
    yield from remainders(rng)
    yield from (case_of(rng, *run) for run in admissions())


def all_cases(seed=1):
    yield from by_both_doors(of_every_kind(random.Random(seed)))
    yield from all_places()
    yield from all_by_job()
