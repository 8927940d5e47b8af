"""A second evaluator, written from document 01 and document 02's requests b, c, e, f, g and i: the three runs in exact integers and
fractions, the ball's outputs as fractions, exact arithmetic on fractions, and a refused domain explained by trying every t.

A value is a tuple: (x,) in a plain run, (centre, margin) in a ball run, (middle, stray, margin) in an admission.
"""

from fractions import Fraction
from functools import lru_cache
from math import ceil, floor

import reader

M = 2147483647
# Of these parts a domain that shrinks keeps t.
ALL_PARTS = 256
# Lent lists that have room for every formula.
ENOUGH = (528, 528, 528, 16, 16, 16)

formula = lru_cache(maxsize=16)(reader.formula)


def rounded(scale, p):
    unit = 1 << scale
    half = unit // 2 if scale else 0
    return (p + half) // unit


def up(scale, p):
    return -(-p // (1 << scale))


def reach(value):
    return abs(value[0]) + sum(value[1:])


def misread(value):
    """The refusal of a reading, 0 for none."""
    if min(value[1:], default=0) < 0:
        return 14
    return 15 if reach(value) > M else 0


def plain_product(scale, left, right):
    return (rounded(scale, left[0] * right[0]),)


def ball_product(scale, left, right):
    (a, r), (b, s) = left, right
    c = rounded(scale, a * b)
    return c, up(scale, (abs(a) + r) * s + abs(b) * r + abs(a * b - c * (1 << scale)))


def is_whole(scale, factor):
    """Whether every centre that a matryoshka covers is one and the same multiple of Q: times any other it needs no rounding."""
    middle, stray, _ = factor
    return stray == 0 and middle % (1 << scale) == 0


def margin_product(left, right):
    """What the margins of two matryoshki put into the product's, in units of 1/Q and without h."""
    (A, R, r), (B, S, s) = left, right
    return (abs(A) + R + r) * s + (abs(B) + S) * r


def matryoshka_product(scale, left, right):
    (A, R, _), (B, S, _) = left, right
    half = (1 << scale) // 2 if scale else 0
    rounding = 0 if is_whole(scale, left) or is_whole(scale, right) else half
    stray = up(scale, (abs(A) + R) * S + abs(B) * R)
    return rounded(scale, A * B), stray, up(scale, margin_product(left, right) + rounding)


PRODUCTS = {1: plain_product, 2: ball_product, 3: matryoshka_product}


def may_be_zero(value):
    """Whether a centre's doubt, a stray and a margin together, goes as far as 0; of a plain value, whether it is 0."""
    return abs(value[0]) <= sum(value[1:])


def inverse(T, a):
    return floor(Fraction(T, a) + Fraction(1, 2))


def plain_reciprocal(T, value):
    return (inverse(T, *value),)


def ball_reciprocal(T, value):
    a, r = value
    exactly = T % a == 0
    return inverse(T, a), ceil(Fraction(T * r, (abs(a) - r) * abs(a))) + (0 if exactly else 1)


def matryoshka_reciprocal(T, value):
    A, R, r = value
    t = abs(A) - R
    return inverse(T, A), ceil(Fraction(T * R, t * abs(A))), ceil(Fraction(T * r, (t - r) * t)) + 1


RECIPROCALS = {1: plain_reciprocal, 2: ball_reciprocal, 3: matryoshka_reciprocal}


def step(scale, parts, instruction, values):
    """What one instruction makes, in reach or not; no reciprocal of what may be 0."""
    name, first, *second = instruction
    if name == "constant":
        return (first, *(0,) * (parts - 1))
    if name == "coefficient":
        return ((first,), (first, *second), (first, 0, *second))[parts - 1]
    left = values[first]
    if name == "negate":
        return (-left[0], *left[1:])
    if name == "reciprocal":
        return RECIPROCALS[parts](1 << 2 * scale, left)
    right = values[second[0]]
    if name == "multiply":
        return PRODUCTS[parts](scale, left, right)
    centre = left[0] + right[0] if name == "add" else left[0] - right[0]
    return (centre, *(r + s for r, s in zip(left[1:], right[1:])))


def stepped(scale, parts, instruction, values):
    """The refusal of one instruction, 0 for none, and what it makes."""
    name, first, *_ = instruction
    if name == "reciprocal" and may_be_zero(values[first]):
        return 17, None
    made = step(scale, parts, instruction, values)
    return (11 if reach(made) > M else 0), made


def run(parts, data, readings, lengths):
    """(refusal, place, values for the work lists, outputs). Lengths are those of the work lists, then of the output lists."""
    try:
        (scale, m, l, n), program, outputs = formula(data)
    except reader.Refused as refusal:
        return refusal.number, 0, [], []
    if any(len(numbers) != m for numbers in readings):
        return 13, 0, [], []
    values = list(zip(*readings))
    for i, value in enumerate(values):
        if misread(value):
            return misread(value), i, [], []
    if min(lengths[:parts]) < m + l or min(lengths[parts:]) < n:
        return 10, 0, [], []
    for k, instruction in enumerate(program):
        refusal, made = stepped(scale, parts, instruction, values)
        if refusal:
            return refusal, k, values, []
        values.append(made)
    return 0, 0, values, [values[name] for name in outputs]


def plain(data, readings, lengths):
    return run(1, data, readings, lengths)


def ball(data, readings, lengths):
    return run(2, data, readings, lengths)


def admit(data, readings, lengths):
    return run(3, data, readings, lengths)


def ball_doubles(data, readings, lengths):
    """The ball run, each output as the two fractions that its doubles must be."""
    refusal, place, values, outputs = ball(data, readings, lengths)
    unit = 1 if refusal else 1 << formula(data)[0][0]
    return refusal, place, values, [(Fraction(centre, unit), Fraction(margin, unit)) for centre, margin in outputs]


def at_part(t, readings):
    """The domain with every stray and margin its t/256, rounded down."""
    middles, *doubts = readings
    return (middles, *(tuple(number * t // ALL_PARTS for number in numbers) for numbers in doubts))


def admissions(data, readings):
    """The refusal, 0 for none, its place and the outputs at each t from 0 to 256. The same domain, which small numbers give at several t, gets
    the same answer."""
    known, found = {}, []
    for t in range(ALL_PARTS + 1):
        narrow = at_part(t, readings)
        if narrow[1:] not in known:
            refusal, place, _, outputs = admit(data, narrow, ENOUGH)
            known[narrow[1:]] = refusal, place, outputs
        found.append(known[narrow[1:]])
    return found


def centre_of(scale, centre, _margin):
    return Fraction(centre, 1 << scale)


def exact(scale, program, fractions, inside=centre_of):
    """All values in exact arithmetic, with no rounding and no limit. A coefficient is the fraction that is taken inside its margin."""
    values = list(fractions)
    for name, first, *second in program:
        if name == "constant":
            made = Fraction(first, 1 << scale)
        elif name == "coefficient":
            made = inside(scale, first, *second)
        elif name == "negate":
            made = -values[first]
        elif name == "reciprocal":
            made = 1 / values[first]
        elif name == "add":
            made = values[first] + values[second[0]]
        elif name == "subtract":
            made = values[first] - values[second[0]]
        else:
            made = values[first] * values[second[0]]
        values.append(made)
    return values


def contains(scale, centre, margin, fraction):
    """Whether the ball contains n/d: |n·Q − c·d| is at most r·d."""
    n, d = fraction.numerator, fraction.denominator
    return abs((n << scale) - centre * d) <= margin * d
