"""The cases that explaining.py runs. A stair is a formula whose instructions are refused from one t on each, the earlier ones from greater t
on: each t is the largest that is admitted, and what is met at t + 1, at t + 2 and by the whole domain differs. Then strays and margins of each
size, in each reading, near M; domains that are admitted, at the limit too, or never; each of 512 instructions; whole factors, reciprocals and
coefficients; random formulas, some of them spoilt; and bytes, lists and readings that are refused first."""

import random
from itertools import islice, product

import places
import reader
from cuts import all_cuts
from damage import damaged, misfielded, wrong_readings
from evaluator import ALL_PARTS, M, reach
from explaining_frames import STEPS, Case
from explaining_figures import FIGURES
from formulas import OUTPUTS, large_run, random_run
from wholes import at_the_edge

MOST_INPUTS, MOST_INSTRUCTIONS = 16, 512
SIGNS = (1, -1)
EVERY_T, SMALL = range(ALL_PARTS), range(1, ALL_PARTS)
# Reciprocals are for these scales; at the last one they stay in reach where the steps of a stair are not too small.
LEAST_STEP = {0: 1, 4: 1, 11: 1, 16: 1024}
STYLES = ("stray", "margin", "both", "uneven")
SOME_T = (1, 2, 3, 127, 128, 129, 254, 255, 256)
NEAR_M = (M, M - 1, M - 255, M - 256, M // 2, M // 2 + 1, M // 3)
INPUTS, SIZES, RANDOM_SCALES = (0, 1, 1, 1, 2, 2, 3), (1, 1, 2, 2, 3, 4, 5), (*range(31), *range(17))
RANDOM_WIDE, RANDOM_SPOILT, RANDOM_LARGE, EDGES_EACH, CUTS_EVERY, LATE_EVERY = 5000, 3000, 6, 3, 2, 16


def case_of(data, values):
    """The domain as its three lists."""
    return Case(data, tuple([value[part] for value in values] for part in range(3)))


def doubt_at(t, doubts):
    """Strays and margins together, at t."""
    return sum(number * t // ALL_PARTS for number in doubts)


def jumps(doubts):
    """The t from which on the doubt is greater than just below."""
    return [t for t in range(1, ALL_PARTS + 1) if doubt_at(t, doubts) > doubt_at(t - 1, doubts)]


class Rows:
    """The rows of a formula with so many inputs; each that is added makes the value that is given."""

    def __init__(self, inputs):
        self.inputs, self.rows = inputs, []

    def add(self, *row):
        self.rows.append(row)
        return self.inputs + len(self.rows) - 1

    def refused_from(self, t, number, name, doubts, sign=1):
        """The value `name` has the middle 0 and these doubts: from t on this number is met."""
        doubt = doubt_at(t, doubts)
        beside = self.add(0, sign * (M + 1 - doubt if number == 11 else doubt))
        made = self.add(2, name, beside) if sign > 0 else self.add(3, beside, name)
        if number == 17:
            self.add(6, made)

    def refused_always(self, number):
        beside = self.add(0, M if number == 11 else 0)
        self.add(*((2, beside, beside) if number == 11 else (6, beside)))

    def case(self, scale, values, outputs=1):
        last = self.inputs + len(self.rows) - 1
        return case_of(reader.pack(scale, self.inputs, self.rows, [last - k % (last + 1) for k in range(outputs)]), values)


def doubts_of(rng, style, least=1):
    """A stray and a margin that together grow by at least this with each t."""
    step, other = (rng.choice((least, least + rng.randrange(9), rng.randrange(least, 1 << 20))) for _ in range(2))
    if style == "uneven":
        return ALL_PARTS * step + rng.randrange(ALL_PARTS), rng.randrange(3 * ALL_PARTS)
    return (ALL_PARTS * step * (style != "margin"), ALL_PARTS * other * (style != "stray"))


def others(rng):
    """Readings that no step uses, with doubts that shrink too."""
    return [(rng.randrange(-99, 100), rng.randrange(600), rng.randrange(600)) for _ in range(rng.choice((0, 0, 1, 3)))]


def stair(rng, scale, doubts, steps, before=()):
    """A step for each t and number, refused from that t on, of the reading behind those before."""
    rows = Rows(len(before) + 1)
    for t, number in steps:
        rows.refused_from(t, number, len(before), doubts, rng.choice(SIGNS))
    return rows.case(scale, [*before, (0, *doubts)], rng.choice((1, 1, 2)))


def stairs(rng):
    """Each t as the largest, then each number, and with the whole domain each other one."""
    for t, met, whole in product(EVERY_T, STEPS, STEPS):
        scale = rng.choice(list(LEAST_STEP))
        steps = [(ALL_PARTS, whole)] * (t + 1 < ALL_PARTS) + [(t + 2, rng.choice(STEPS))] * (t + 2 < ALL_PARTS) + [(t + 1, met)]
        yield stair(rng, scale, doubts_of(rng, rng.choice(STYLES), LEAST_STEP[scale]), steps, others(rng))


def small_doubts(rng):
    """Each stray and each margin from 1 to 255, by itself and beside another; they round down to 0 at many t."""
    for size, alone, turned in product(SMALL, (True, False), (1, -1)):
        doubts, number = (size, 0 if alone else rng.choice(SMALL))[::turned], rng.choice(STEPS)
        some = jumps(doubts)
        first, *later = sorted(rng.sample(some, min(3, len(some))))
        steps = [*((t, rng.choice(STEPS)) for t in reversed(later)), (first, number)]
        yield stair(rng, rng.choice((0, 4)), doubts, steps, () if alone else others(rng))


def large_doubts(rng):
    """Strays and margins near M: as they are, in sums, in products, and beside a coefficient."""
    programs = ([], [(2, 0, 0)], [(1, 0), (3, 0, 1)], [(4, 0, 0)], [(0, 1), (2, 0, 1), (2, 2, 0)], [(5, 3, 2), (4, 0, 1), (2, 2, 0)])
    for size, part, middle, rows in product(NEAR_M, (1, 2), (0, 1, -1, 200), programs):
        value = [middle, 0, 0]
        value[part] = size - abs(middle)
        yield case_of(reader.pack(rng.choice((0, 4, 16, 30)), 1, rows, [len(rows)]), [value])
    for stray in (1, M // 2, M - 1):
        yield case_of(reader.pack(4, 1, [(0, 1), (2, 0, 1)], [2]), [(0, stray, M - stray)])


def each_reading(rng):
    """One reading's doubt decides, that of each of sixteen, by its stray and by its margin."""
    for place, part, number, _ in product(range(MOST_INPUTS), (1, 2), STEPS, range(2)):
        values = [[0, 0, 0] for _ in range(MOST_INPUTS)]
        values[place][part] = rng.choice((3, 255, 256, 1000, 256 * 77, 100003))
        rows, doubts = Rows(MOST_INPUTS), values[place][1:]
        rows.refused_from(rng.choice(jumps(doubts)), number, place, doubts, rng.choice(SIGNS))
        yield rows.case(4, values)


def together(rng):
    """The doubts of all readings decide together, each rounded down by itself."""
    for count, number, most in product(range(2, MOST_INPUTS + 1), STEPS, (3, 255, 5000)):
        values = [[rng.randrange(-9, 10), rng.randrange(most), rng.randrange(1, most)] for _ in range(count)]
        values[-1][0] -= sum(middle for middle, _, _ in values)
        rows, total = Rows(count), 0
        for k in range(1, count):
            total = rows.add(2, total, k)
        doubts = [number for _, *some in values for number in some]
        rows.refused_from(rng.choice(jumps(doubts)), number, total, doubts, rng.choice(SIGNS))
        yield rows.case(0, values)


def never(rng):
    """Refused at 0 with each number, and from each t on by an earlier instruction with each number; or by none."""
    for met, whole, t in product(STEPS, (*STEPS, None), SOME_T):
        doubts = doubts_of(rng, rng.choice(STYLES))
        rows = Rows(1)
        if whole:
            rows.refused_from(t, whole, 0, doubts)
        rows.refused_always(met)
        yield rows.case(rng.choice((0, 7)), [(0, *doubts)])


def without_inputs(rng):
    """Nothing shrinks: admitted as it is, or never."""
    for number, before, scale in product((None, *STEPS), range(6), (0, 4, 16)):
        rows = Rows(0)
        for _ in range(before):
            rows.add(*rng.choice(((0, rng.randrange(-M, M + 1)), (5, rng.randrange(99), rng.randrange(99)))))
        if number:
            rows.refused_always(number)
        else:
            rows.add(0, M)
        yield rows.case(scale, [], rng.choice((1, 16)))


def nothing(rng):
    """Domains that are admitted: without doubts, with small ones, and at the limit of each number."""
    for m, scale in product(range(1, MOST_INPUTS + 1), (0, 4, 30)):
        values = [(rng.randrange(-9, 10), 0, 0) for _ in range(m)]
        yield case_of(reader.pack(scale, m, [(4, 0, m - 1), (2, m, 0)], [m + 1]), values)
        yield case_of(reader.pack(scale, m, [(1, 0)], [m]), [(middle, rng.randrange(9), rng.randrange(9)) for middle, *_ in values])
    for style, number, sign, scale in product(STYLES, STEPS, SIGNS, (0, 4, 11)):
        rows, doubts = Rows(1), doubts_of(rng, style)
        rows.refused_from(ALL_PARTS, number, 0, (sum(doubts) + 1, 0), sign)
        yield rows.case(scale, [(0, *doubts)])


def each_instruction(rng):
    """Each of 512 instructions met with each number, behind others that are accepted, and some of them at 0; the doubts are so small that few
    domains are tried."""
    for k, number in product(range(MOST_INSTRUCTIONS), STEPS):
        m, doubts = 1 + k % MOST_INPUTS, rng.choice(((1, 0), (0, 1), (2, 0), (1, 1), (3, 0), (0, 3)))
        doubt = doubt_at(rng.choice(jumps(doubts)), doubts)
        row, at_zero, middle = ((2, 0, 0), 1 << 30, (1 << 30) - doubt) if number == 11 else ((6, 0), 0, doubt)
        behind = MOST_INSTRUCTIONS - k - 1 if k % LATE_EVERY == 0 else min(MOST_INSTRUCTIONS - k - 1, rng.randrange(9))
        rows = [*places.IN_REACH[:k], row, *[row, (1, 0)] * behind][: k + 1 + behind]
        for some in (middle, *[at_zero] * (k % LATE_EVERY in (0, LATE_EVERY - 1))):
            yield case_of(reader.pack(k % 10, m, rows, [m + k]), [(some, *doubts), *places.good(3, m - 1)])


def widened(u, readings):
    """A domain of which the given one is the u-th part."""
    middles, *doubts = readings
    return (middles, *([-(-number * ALL_PARTS // u) for number in numbers] for numbers in doubts))


def in_reach(readings):
    return all(reach(value) <= M for value in zip(*readings))


def part_of_a_larger(rng, data, readings, tries=4):
    """The domain as part of a larger one, where there is one."""
    larger = (widened(rng.randrange(1, ALL_PARTS + 1), readings) for _ in range(tries))
    return Case(data, next((domain for domain in larger if in_reach(domain)), readings))


def edges_of_wholes(rng):
    """Products that h alone puts out of reach, where a factor strays or not; as they are and as parts of larger domains."""
    for data, readings in at_the_edge():
        yield Case(data, readings)
        yield from (part_of_a_larger(rng, data, readings) for _ in range(EDGES_EACH))


def steep_reciprocals(rng):
    """A reciprocal that is out of reach just before its operand may be 0, by a stray and by a margin, of both signs."""
    for t, part, sign in product((0, 1, 7, 100, 128, 200, 253), (1, 2), SIGNS):
        step = rng.randrange(1000, 5000)
        value = [sign * (step * (t + 1) + 1), 0, 0]
        value[part] = step * ALL_PARTS
        yield case_of(reader.pack(16, 1, [(6, 0), (4, 0, 1)], [1]), [value])


def with_wide_doubts(rng, data, readings):
    """The middles as they are, strays and margins of every size that there is room for."""
    middles, strays, margins = readings[0], [], []
    for middle in middles:
        strays.append(rng.randrange(M - abs(middle) + 1) >> rng.choice((1, 2, 8, 16, 24, 31)))
        margins.append(rng.randrange(M - abs(middle) - strays[-1] + 1) >> rng.choice((1, 2, 8, 16, 24, 31)))
    return Case(data, (middles, strays, margins))


def random_cases(rng):
    """Random formulas, short ones, whose domain is part of a larger one or has wide doubts; and some of them spoilt."""
    for i in range(RANDOM_WIDE):
        run = random_run(rng, 3, rng.choice(RANDOM_SCALES), rng.choice(INPUTS), rng.choice(SIZES), rng.choice(OUTPUTS))
        case = rng.choice((part_of_a_larger, with_wide_doubts))(rng, *run)
        yield case
        if i < RANDOM_SPOILT:
            bad = rng.choice(((True, False), (False, True), (True, True)))
            data = rng.choice((damaged, misfielded))(rng, case.data) if bad[0] else case.data
            yield Case(data, wrong_readings(rng, case.readings) if bad[1] else case.readings)
    yield from (part_of_a_larger(rng, *large_run(rng, 3)) for _ in range(RANDOM_LARGE))


def refused_first():
    """Bytes, numbers of readings and readings that are refused, and each before what is tested later."""
    readings = ([1] * 10, [0] * 10, [0] * 10), ([1] * 10, [-1] * 10, [0] * 10), ([M] * 10, [0] * 10, [1] * 10), ([], [], [])
    for i, data in enumerate(islice(all_cuts(), 0, None, CUTS_EVERY)):
        yield Case(data, readings[i % len(readings)])
    rng, before = random.Random(11), None
    for some in (places.alone(), places.each_with_each(), places.first_and_last(), places.counts(), places.in_order(), places.beside_others(rng)):
        for found in some:
            case = Case(found.data, found.readings)
            # Lent lists, in which alone some cases differ, are none here.
            if found.job == "admit" and case != before:
                yield case
                before = case


def all_cases(seed=9):
    rng = random.Random(seed)
    yield from (case for case, _ in FIGURES)
    for some in (stairs, small_doubts, large_doubts, each_reading, together, never, without_inputs, nothing, each_instruction):
        yield from some(rng)
    yield from edges_of_wholes(rng)
    yield from steep_reciprocals(rng)
    yield from random_cases(rng)
    yield from refused_first()
