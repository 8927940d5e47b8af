"""Cases of the refusals that have a place, and of 13, which comes before them: a bad reading at each place, by each of its parts, alone
and beside others; lists of wrong lengths; what is refused before and behind them; and each instruction out of reach, and each a reciprocal
of what may be 0."""

import random
from itertools import combinations, permutations, product

import reader
from damage import needed, resized
from evaluator import M
from frames import PARTS, Case

RUNS = ("plain", "ball", "records", "admit")
MOST_INPUTS, MOST_INSTRUCTIONS = 16, 512
LOWEST, HIGHEST = -(1 << 63), (1 << 63) - 1
# Past M by one and by more; some are small in 32 bits, and some add up to a small number in 64.
LARGE = (M + 1, M + 2, 1 << 32, (1 << 32) + 5, 1 << 62, HIGHEST)
CENTRES = (*LARGE, *(-number for number in LARGE), LOWEST)
NEGATIVE = (-1, -2, -M, -M - 1, -(1 << 32), 1 - (1 << 63), LOWEST)
# Each part is permitted by itself.
SUMS = {
    1: (),
    2: ((M, 1), (-M, 1), (1, M), (-1, M), (M, M)),
    3: ((M, 1, 0), (-M, 0, 1), (0, M, 1), (0, 1, M), (M - 1, 1, 1), (1 - M, 1, 1), (M, M, M)),
}
# Numbers of one reading, each with each.
SOME_CENTRES = (0, -2, M, -M, M + 1, -M - 1, 1 << 62, 1 - (1 << 63), HIGHEST, LOWEST)
SOME_DOUBTS = (0, 1, 2, M, M + 1, 1 << 62, HIGHEST, -1, -M - 1, LOWEST)
# Bad readings of each kind; the last ones have a negative margin or stray and too large a reach.
BAD = {
    1: ((M + 1,), (LOWEST,)),
    2: ((M + 1, 0), (LOWEST, 0), (-M, 1), (0, HIGHEST), (0, -1), (5, LOWEST), (LOWEST, -1), (-M - 1, LOWEST)),
    3: (
        *((M + 1, 0, 0), (LOWEST, 0, 0), (1 - M, 1, 1), (0, HIGHEST, 0), (0, 0, HIGHEST), (0, -1, 0), (0, 0, -1), (5, LOWEST, 0)),
        *((5, 0, LOWEST), (LOWEST, -1, 0), (LOWEST, 0, -1), (0, HIGHEST, -1), (0, LOWEST, HIGHEST)),
    ),
}
NEIGHBOURS = ((0, 1), (0, 15), (7, 8), (14, 15))
SEVERAL = 200
# More than a count of 16 bits holds.
LONG = 1 << 16
# One for each refusal of the bytes, 1 to 8 and 16, with two inputs where they can be read.
REFUSED_BYTES = (
    *(reader.pack(4, 2, [(4, 0, 1)], [2])[:-1], reader.pack(4, 2, [], [0], version=2), reader.pack(31, 2, [], [0])),
    *(reader.pack(4, 2, [], [], n=0), reader.pack(4, 2, [(7, 0, 1)], [2]), reader.pack(4, 2, [(4, 0, 1)], [3])),
    *(reader.pack(4, 2, [(0, -(1 << 31))], [2]), reader.pack(4, 2, [(4, 0, 1)], [2]) + b"\0", reader.pack(17, 2, [(6, 0)], [2])),
)
# What may be 0 by each of its doubts: 0 itself, just reached, and passed. At scale 16 the reciprocals of some centres are out of reach too.
MAY_BE_ZERO = {
    1: ((0,),),
    2: ((0, 0), (1, 1), (-2, 2), (0, M), (3, 5), (-3, 5), (-7, 7), ((1 << 30) - 1, 1 << 30)),
    3: (
        *((0, 0, 0), (1, 1, 0), (-1, 0, 1), (2, 1, 1), (-2, 1, 2), (0, 5, 0), (0, 0, 5), (0, 2, 2), (9, 4, 5), (3, 5, 0), (-3, 5, 0)),
        *((3, 0, 5), (-3, 0, 5), (-(1 << 29), 1 << 28, 1 << 28)),
    ),
}
# Instructions that stay in reach, whatever value 0 is.
IN_REACH = (((1, 0), (0, -5), (5, 7, 3), (0, M), (5, -1, M - 1)) * MOST_INSTRUCTIONS)[:MOST_INSTRUCTIONS]


def good(parts, count):
    return [(7 * i - 50, i % 4, i % 3)[:parts] for i in range(count)]


def formula(m):
    """It has these inputs and uses the first and the last of them, if there are any."""
    return reader.pack(4, m, [(0, 5), (1, m), *([(4, 0, m - 1), (2, m, m + 2)] if m else [])], [m, m + 1])


def case_of(job, data, values):
    parts = PARTS[job]
    return Case(job, data, tuple([value[part] for value in values] for part in range(parts)), needed(data, parts))


def with_bad(job, bad, m=MOST_INPUTS):
    """Readings that are good, but for those that are given with their places."""
    values = good(PARTS[job], m)
    for place, value in bad.items():
        values[place] = value
    return case_of(job, formula(m), values)


def by_one_part(parts):
    """Readings with one part that is bad, or with parts that are bad together."""
    for part in range(parts):
        for number in CENTRES if part == 0 else LARGE + NEGATIVE:
            yield tuple(number if i == part else 0 for i in range(parts))
    yield from SUMS[parts]


def alone():
    for job, place in product(RUNS, range(MOST_INPUTS)):
        yield from (with_bad(job, {place: value}) for value in by_one_part(PARTS[job]))


def each_with_each():
    for job in RUNS:
        parts = PARTS[job]
        for i, value in enumerate(product(SOME_CENTRES, *(SOME_DOUBTS,) * (parts - 1))):
            yield with_bad(job, {i % MOST_INPUTS: value})


def first_and_last():
    """In formulas of every number of inputs."""
    for job, m in product(RUNS, range(1, MOST_INPUTS + 1)):
        for place, value in product({0, m - 1}, BAD[PARTS[job]]):
            yield with_bad(job, {place: value}, m)


def beside_others(rng):
    """The lowest is told, whatever the others are."""
    for job in RUNS:
        kinds = BAD[PARTS[job]]
        for places, values in product(NEIGHBOURS, product(kinds, repeat=2)):
            yield with_bad(job, dict(zip(places, values)))
        for _ in range(SEVERAL):
            places = rng.sample(range(MOST_INPUTS), rng.randrange(2, MOST_INPUTS + 1))
            yield with_bad(job, {place: rng.choice(kinds) for place in places})


def some_lists(job):
    """Each choice of lists of readings; records are one list."""
    parts = PARTS[job]
    if job == "records":
        return [(0, 1)]
    return [chosen for count in range(1, parts + 1) for chosen in combinations(range(parts), count)]


def recounted(case, chosen, length):
    return case._replace(readings=tuple(resized(numbers, length) if i in chosen else numbers for i, numbers in enumerate(case.readings)))


def counts():
    """Each list too short and too long, by one and by many, with good readings and with bad ones."""
    for job, m in product(RUNS, (0, 1, 2, 15, 16)):
        lengths = {0, max(0, m - 1), m + 1, m + 2, 17, 2 * m, 256 + m} - {m}
        for chosen, length, value in product(some_lists(job), sorted(lengths), (None, BAD[PARTS[job]][0], BAD[PARTS[job]][-1])):
            yield recounted(with_bad(job, {} if value is None or not m else {0: value}, m), chosen, length)
    for job in RUNS:
        yield from (recounted(with_bad(job, {}, 2), chosen, LONG + 2) for chosen in some_lists(job))


def refused_readings(job):
    """Two readings of which one is bad, and a reading too few."""
    for value in BAD[PARTS[job]]:
        yield with_bad(job, {1: value}, 2)
    for chosen in some_lists(job):
        yield recounted(with_bad(job, {}, 2), chosen, 1)


def in_order():
    """Wrong readings with damaged bytes, which come before them; with too little room and with a refused step, which come behind."""
    out_of_reach = reader.pack(4, 2, [(0, M), (2, 2, 2), (1, 3), (1, 4)], [5])
    by_zero = reader.pack(4, 2, [(0, 0), (6, 2), (1, 3), (1, 4)], [5])
    for job in RUNS:
        for case in refused_readings(job):
            no_room = (0,) * len(case.lengths)
            for data, lengths in product(REFUSED_BYTES, (case.lengths, no_room)):
                yield case._replace(data=data, lengths=lengths)
            yield from (case._replace(data=data) for data in (out_of_reach, by_zero))
            yield case._replace(lengths=no_room)
            yield from one_too_short(case)


def one_too_short(case):
    """Each lent list short by a place."""
    for short in range(len(case.lengths)):
        yield case._replace(lengths=tuple(length - (i == short) for i, length in enumerate(case.lengths)))


def first_of_two():
    """A sum out of reach and a reciprocal of what may be 0, one behind the other; with too little room, which comes before both."""
    for job, rows in product(RUNS, permutations(((2, 3, 3), (6, 2)))):
        case = case_of(job, reader.pack(16, 2, [(0, 0), (0, M), *rows], [2]), good(PARTS[job], 2))
        yield case
        yield from one_too_short(case)


def steps():
    """Each instruction of the longest lists out of reach, by each part in turn, and every second behind it too."""
    for k in range(MOST_INSTRUCTIONS):
        m, beyond = 1 + k % MOST_INPUTS, ((2, 0, 0), (4, 0, 0))[k % 2]
        behind = [row for step in IN_REACH for row in (beyond, step)]
        data = reader.pack(4, m, [*IN_REACH[:k], *behind[: MOST_INSTRUCTIONS - k]], [m + k, 0])
        for job in RUNS:
            parts = PARTS[job]
            far = tuple(M if i == k % parts else 0 for i in range(parts))
            yield case_of(job, data, [far, *good(parts, m - 1)])


def divisions():
    """Each instruction of the longest lists a reciprocal of what may be 0, at each scale; others before it that are accepted, and behind it
    sums out of reach and more of its kind."""
    for k in range(MOST_INSTRUCTIONS):
        m = 2 + k % (MOST_INPUTS - 1)
        before = [(6, m + 1) if row == (0, M) else row for row in IN_REACH[:k]]
        behind = [row for step in IN_REACH for row in ((6, 0), (2, 1, 1), step)]
        data = reader.pack(k % 17, m, [*before, *behind[: MOST_INSTRUCTIONS - k]], [m + k, 0])
        for job in RUNS:
            parts = PARTS[job]
            near = MAY_BE_ZERO[parts]
            yield case_of(job, data, [near[k % len(near)], (M, 0, 0)[:parts], *good(parts, m - 2)])


def all_places():
    rng = random.Random(4)
    for some in (alone, each_with_each, first_and_last, counts, in_order, first_of_two, steps, divisions):
        yield from some()
    yield from beside_others(rng)
