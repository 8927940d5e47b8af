"""Inputs for the program `margins`, each with what it is: accepted, refused at each place, and of another form (12)."""

import random
from itertools import product

import reader
import reciprocals
from checks import longest, longest_divided, longest_exact
from cuts import COEFFICIENTS, HEADERS, INPUTS, REFUSED
from damage import wrong_readings
from evaluator import M
from figures import DIFFERENCE, DIFFERENCES, EXAMPLE, EXAMPLES, QUOTIENT, QUOTIENTS, WEIGHED, WEIGHT, WHOLES
from formulas import large_run, small_run
from met_dividing import OTHER_SCALES
from places import IN_REACH, MAY_BE_ZERO, MOST_INPUTS, MOST_INSTRUCTIONS, good
from program_malformed import READING, WORDS, malformed, text

RANDOM_ACCEPTED = 40
RANDOM_WRONG = 20
BEYOND_TEN_DIGITS = 10**10
# Numbers of every permitted form, on each side of the limits.
NUMBERS = (b"-0", b"007", b"0000000024", b"-000000024", b"2147483647", b"-2147483647", b"2147483648", b"-2147483648",
           b"4294967295", b"4294967296", b"4294967320", b"-4294967320", b"9999999999", b"-9999999999")
# A reading that is refused by itself.
BAD = {b"plain": b"2147483648", b"ball": b"24 -3", b"admit": b"24 3 -1"}


def of_lists(data, readings):
    return text(data, WORDS[len(readings) - 1], [" ".join(map(str, value)).encode() for value in zip(*readings)])


def examples():
    """Document 01's example in each job."""
    for readings, _ in EXAMPLES:
        yield "example", of_lists(EXAMPLE, tuple(zip(*readings)))


def random_runs(rng):
    for i in range(RANDOM_ACCEPTED):
        yield "random run", of_lists(*(small_run if i % 8 else large_run)(rng, 1 + i % 3))
    for i in range(RANDOM_WRONG):
        data, readings = small_run(rng, 1 + i % 3)
        wrong = wrong_readings(rng, readings)
        if all(abs(number) < BEYOND_TEN_DIGITS for numbers in wrong for number in numbers):
            yield "random run with wrong readings", of_lists(data, wrong)


def refused_formulas():
    """Each refusal from 1 to 8, with readings that would do, and with readings that would not; 16 is among the reciprocals."""
    for fields in (*HEADERS[::12], {"scale": 31}):
        kept = {"scale": 4, "m": 1, "program": [(4, 0, 0)], "outputs": [1]} | fields
        yield "header", text(reader.pack(**kept), b"plain", [b"24"])
    for refused in REFUSED:
        data = reader.pack(4, INPUTS, [refused, (1, 0)], [0])
        yield "instruction", text(data, b"ball", [b"24 3"] * INPUTS)
        yield "instruction, no readings", text(data, b"ball", [])
    for size in range(len(EXAMPLE)):
        yield "cut formula", text(EXAMPLE[:size], b"admit", [b"24 3 1", b"-10 2 1"])
    for more in (b"\0", b"\xff", bytes(100)):
        yield "bytes follow", text(EXAMPLE + more, b"plain", [b"24", b"-10"])
    reading_out = reader.pack(4, 1, [], [0])
    for bit in range(6):
        yield "padding", text(reading_out[:-1] + bytes([1 << bit]), b"plain", [b"24"])
    for word in WORDS:
        yield "formula of no bytes", text(b"", word, [])


def coefficients():
    """A weight of 0.1 in each job; coefficients at their limits, and sums with them; files cut before, inside and behind one."""
    for value, _ in WEIGHED:
        yield "a weight of 0.1", text(WEIGHT, WORDS[len(value) - 1], [" ".join(map(str, value)).encode()])
    for word in WORDS:
        yield "a weight alone, too many readings", text(reader.pack(4, 0, [(5, 2, 1)], [0]), word, [READING[word]])
        for row in COEFFICIENTS:
            yield "a coefficient", text(reader.pack(4, 0, [row, (1, 0)], [0, 1]), word, [])
            yield "a sum with a coefficient", text(reader.pack(0, 1, [row, (2, 0, 1)], [2]), word, [READING[word]])
    for centre, margin in ((2, 1), (-(1 << 31), 0)):
        data = reader.pack(4, 1, [(5, centre, margin), (4, 0, 1)], [2])
        for size in range(len(data) + 1):
            yield "a cut formula with a coefficient", text(data[:size], b"ball", [b"160 0"])


def of_values(data, values):
    return of_lists(data, tuple(zip(*values)))


def divided():
    """Reciprocals and quotients in each job, those at a limit among them; scales that reciprocals are not for, with readings that would do
    and without; files cut before, inside and behind one, at a scale that it is for and at one that it is not."""
    for scale, value, _ in reciprocals.ALL:
        yield f"a reciprocal at scale {scale}", of_values(reader.pack(scale, 1, [(6, 0)], [1]), [value])
    for data, some in ((QUOTIENT, QUOTIENTS), (DIFFERENCE, DIFFERENCES)):
        for readings, *_ in some:
            yield "a quotient", of_values(data, readings)
    for i, scale in enumerate(OTHER_SCALES):
        for word in WORDS[i % 3 :][:1] if i else WORDS:
            yield f"a reciprocal at scale {scale}", text(reader.pack(scale, 1, [(6, 0)], [1]), word, [READING[word]])
            yield f"a reciprocal at scale {scale}, no readings", text(reader.pack(scale, 1, [(6, 1)], [1]), word, [])
    for scale in (16, 17):
        data = reader.pack(scale, 2, [(1, 1), (6, 2), (4, 0, 3)], [4])
        for size in range(len(data) + 1):
            yield "a cut formula with a reciprocal", text(data[:size], b"ball", [b"5898240 65536", b"39321600 0"])


def whole_factors():
    for scale, factors, _ in WHOLES:
        yield f"factors {factors} at scale {scale}", of_values(reader.pack(scale, 2, [(4, 0, 1)], [2]), factors)


def counts():
    """A wrong number of reading lines, up to what fits; and numbers of them at the limits."""
    for word in WORDS:
        for count in (0, 1, 3, 16, 17, 18, 100, 500):
            yield f"{count} readings for two inputs", text(EXAMPLE, word, [READING[word]] * count)
        for count in (1, 2, 3):
            yield f"{count} bad readings for two inputs", text(EXAMPLE, word, [BAD[word]] * count)
        yield "longest formula", text(longest(), word, [READING[word]] * 16)
        yield "longest formula of constants", text(longest_exact(), word, [READING[word]] * 16)
        yield "longest formula of reciprocals", text(longest_divided(), word, [READING[word]] * 16)
    yield "too many readings for a refused formula", text(EXAMPLE[:-1], b"plain", [b"1"] * 40)
    yield "no inputs, no readings", text(reader.pack(4, 0, [(0, -5)], [0]), b"admit", [])


def sizes():
    for number in NUMBERS:
        yield "one plain reading", text(reader.pack(4, 1, [(1, 0)], [1, 0]), b"plain", [number])
        yield "a centre", text(EXAMPLE, b"ball", [number + b" 0", b"1 0"])
        yield "a margin", text(EXAMPLE, b"ball", [b"1 0", b"1 " + number])
        yield "a stray", text(EXAMPLE, b"admit", [b"1 0 0", b"1 " + number + b" 0"])
    for reading in (b"2147483646 1", b"2147483646 2", b"-2147483646 1", b"-2147483646 2", b"0 2147483647", b"0 -1", b"2147483648 -1"):
        yield "reach of a ball", text(reader.pack(0, 1, [], [0]), b"ball", [reading])
    matryoshki = b"2147483645 1 1", b"2147483645 2 1", b"-2147483645 1 2", b"0 0 2147483647", b"5 -1 0", b"5 0 -1"
    for reading in (*matryoshki, b"-2147483648 -1 0", b"0 2147483648 -1", b"0 -1 2147483648"):
        yield "reach of a matryoshka", text(reader.pack(0, 1, [], [0]), b"admit", [reading])
    for numbers in ((b"2147483647", b"-1"), (b"2147483647", b"1"), (b"-2147483647", b"-1")):
        yield "sum at the limit", text(reader.pack(4, 2, [(2, 0, 1)], [2]), b"plain", numbers)
    for reading in (b"0 0", b"0 1"):
        yield "sum of balls at the limit", text(reader.pack(0, 2, [(2, 0, 1)], [2]), b"ball", [b"2147483646 1", reading])


def bad_readings():
    """The lowest at each place, by each of its parts, and others behind it."""
    data = reader.pack(4, MOST_INPUTS, [(1, 0)], [MOST_INPUTS])
    for parts, place in product((1, 2, 3), range(MOST_INPUTS)):
        large = (M + 1, BEYOND_TEN_DIGITS - 1)[place % 2]
        behind = [(large, 0, 0)[:parts], (5, -1, -1)[:parts]] * MOST_INPUTS
        for part, number in ((0, -large), *product(range(1, parts), (large, -1))):
            lowest = tuple(number if i == part else 0 for i in range(parts))
            values = [*good(parts, place), lowest, *behind[: MOST_INPUTS - 1 - place]]
            yield f"reading {place} and those behind it", of_lists(data, tuple(zip(*values)))


def steps():
    """Each instruction out of reach, in the three jobs by turns, and others behind it."""
    for k in range(MOST_INSTRUCTIONS):
        m, parts = 1 + k % MOST_INPUTS, 1 + k % 3
        program = [*IN_REACH[:k], (2, 0, 0), (1, 0), (2, 0, 0)][:MOST_INSTRUCTIONS]
        far = tuple(M if i == k // 3 % parts else 0 for i in range(parts))
        yield f"instruction {k} out of reach", of_lists(reader.pack(4, m, program, [m + k]), tuple(zip(far, *good(parts, m - 1))))


def divisions():
    """Each instruction a reciprocal of what may be 0, in the three jobs by turns; behind it a sum out of reach and one more of its kind."""
    for k in range(MOST_INSTRUCTIONS):
        m, parts = 2 + k % (MOST_INPUTS - 1), 1 + k % 3
        near, far = MAY_BE_ZERO[parts], (M, 0, 0)[:parts]
        program = [*IN_REACH[:k], (6, 0), (2, 1, 1), (6, 0)][:MOST_INSTRUCTIONS]
        values = [near[k // 3 % len(near)], far, *good(parts, m - 2)]
        yield f"instruction {k} divides by what may be 0", of_values(reader.pack(k % 17, m, program, [m + k]), values)


def all_inputs(seed=1):
    yield from examples()
    yield from random_runs(random.Random(seed))
    for some in (refused_formulas, coefficients, divided, whole_factors, counts, sizes, bad_readings, steps, divisions, malformed):
        yield from some()
