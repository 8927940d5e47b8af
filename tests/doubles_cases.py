"""The cases that doubles.py runs, each a case of the ball job: balls of every size at each scale, zeros by each instruction, lent lists of
every length, random runs, some of them spoilt, and each place of a refusal."""

import random
from itertools import chain, product

import reader
from cases import case_of, longest_runs, spoilt
from cuts import all_cuts
from damage import needed, resized
from dividing import all_by_job
from evaluator import M
from formulas import large_run, small_run
from frames import Case
from places import all_places

SCALES = range(31)
TOGETHER = 16
RANDOM_RUNS = 5000
LARGE_EVERY = 100
CUTS_EVERY = 10
# The powers of two, the numbers beside them, and M.
SIZES = sorted({0, M} | {(1 << power) + by for power in range(31) for by in (-1, 0, 1)})


def some_balls(rng):
    """Each size as a centre with both signs and as a margin: beside 0, beside all that there is room for, and beside others."""
    for size in SIZES:
        room = M - size
        for other in (0, room, rng.choice([some for some in SIZES if some <= room]), rng.randrange(room + 1)):
            yield from ((size, other), (-size, other), (other, size), (-other, size))


def given(balls):
    """The readings themselves, in another order."""
    return [], balls, range(len(balls))[::-1]


def negated(balls):
    return [(1, k) for k in range(len(balls))], [(-centre, margin) for centre, margin in balls], range(len(balls), 2 * len(balls))


def held(balls):
    """Coefficients, in a formula without inputs."""
    return [(5, *ball) for ball in balls], [], range(len(balls))


def every_scale(rng):
    """At each scale each of these balls as an output."""
    for scale in SCALES:
        balls = sorted(set(some_balls(rng)))
        rng.shuffle(balls)
        for number, start in enumerate(range(0, len(balls), TOGETHER)):
            program, values, outputs = (given, negated, held)[number % 3](balls[start : start + TOGETHER])
            readings = [ball[0] for ball in values], [ball[1] for ball in values]
            yield case_of(rng, reader.pack(scale, len(values), program, outputs), readings)


def zeros(rng):
    """At each scale a zero centre by each instruction, with and without a margin. The product by a half is the tie below zero, which is rounded
    up to 0."""
    for scale, margin in product(SCALES, (0, 1, 5)):
        half = max(1, (1 << scale) >> 1)
        program = [(0, 0), (1, 0), (2, 1, 2), (3, 1, 1), (4, 0, 2), (5, 0, margin), (4, 4, 3)]
        if scale:
            program += [(0, half), (4, 11, 3)]
        if 2 * scale < 30:
            program += [(0, M), (0, -M), (6, len(program) + 4), (6, len(program) + 5)]
        readings = [0, 9, -9, -1], [margin, margin, margin, 0]
        names = [0, *(4 + k for k, row in enumerate(program) if row not in ((0, half), (0, M), (0, -M)))]
        yield case_of(rng, reader.pack(scale, 4, program, names), readings)


def lengths_near():
    """Every number of outputs, each list of doubles from none to more than enough, with each of the other; and short work lists."""
    for n in range(1, 17):
        data = reader.pack(n + 7, 2, [(2, 0, 1), (1, 2)], resized([3, 0, 2, 1], n))
        case = Case("ball", data, ([24, -10], [3, 2]), needed(data, 2))
        for both in product(sorted({0, 1, n - 1, n, n + 1, n + 4, 17}), repeat=2):
            yield case._replace(lengths=(4, 4, *both))
        yield from (case._replace(lengths=(*works, n, n + 1)) for works in ((3, 4), (4, 3), (0, 9), (9, 0), (5, 9), (9, 5)))


def random_cases(rng):
    """Each random run, and the same spoilt."""
    for i in range(RANDOM_RUNS):
        case = case_of(rng, *(small_run if i % LARGE_EVERY else large_run)(rng, 2))
        yield case
        yield spoilt(rng, case)


def cut_cases():
    for i, data in enumerate(all_cuts()):
        if i % CUTS_EVERY == 0:
            yield Case("ball", data, ([1] * 10, [0] * 10), (40, 40, 16, 16))


def all_cases(seed=5):
    rng = random.Random(seed)
    yield from every_scale(rng)
    yield from zeros(rng)
    yield from lengths_near()
    yield from random_cases(rng)
    yield from cut_cases()
    yield from (case for case in chain(longest_runs(), all_places(), all_by_job()) if case.job == "ball")
