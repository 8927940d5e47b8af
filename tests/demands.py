"""Demands 2 and 3 tried on single runs: exact arithmetic on fractions inside the readings, balls inside an admitted domain."""

from fractions import Fraction
from functools import partial

from evaluator import contains, exact, formula
from frames import Case
from reader import OF_ONE_OPERAND

MOST_DEGREE = 48
SHARE_TOWARDS_ZERO = 0.2


def divides(program):
    return any(name == "reciprocal" for name, *_ in program)


def small_enough(m, program):
    """Exact numbers grow with the degree; past this one they are slow. Reciprocals have denominators that do not go into one another."""
    degrees, alike = [1] * m, not divides(program)
    for name, first, *second in program:
        if name in ("constant", "coefficient"):
            degrees.append(1)
        elif name in OF_ONE_OPERAND:
            degrees.append(degrees[first])
        else:
            pair = degrees[first], degrees[second[0]]
            degrees.append(max(pair) if alike and name != "multiply" else sum(pair))
        if degrees[-1] > MOST_DEGREE:
            return False
    return True


def fraction_inside(rng, scale, centre, margin):
    """A fraction that the ball contains: either end, the centre, or any other."""
    parts = rng.choice((1, 1, 2, 3, 10, 1000))
    share = rng.choice((-parts, 0, parts, rng.randrange(-parts, parts + 1)))
    return Fraction(centre * parts + margin * share, parts << scale)


def end_towards_zero(scale, centre, margin):
    return Fraction(centre - margin if centre > 0 else centre + margin, 1 << scale)


def exact_values(rng, data, balls):
    """All values in exact arithmetic for random fractions inside these balls and coefficients and, in a formula that divides, for their
    ends on the side of 0; nothing where they grow too large."""
    (scale, m, _, _), program, _ = formula(data)
    if not small_enough(m, program):
        return
    for inside in (partial(fraction_inside, rng), *([end_towards_zero] if divides(program) else [])):
        yield exact(scale, program, [inside(scale, *ball) for ball in balls], inside)


def encloses(rng, data, balls, values):
    """Demand 2: of each trial, whether each value's ball contains the exact value."""
    scale = formula(data)[0][0]
    for exact_ones in exact_values(rng, data, balls):
        yield all(contains(scale, *ball, number) for ball, number in zip(values, exact_ones))


def ball_inside(rng, middle, stray, margin):
    moved = rng.choice((-stray, stray, rng.randrange(-stray, stray + 1)))
    return middle + moved, rng.choice((0, margin, rng.randrange(margin + 1)))


def ball_towards_zero(middle, stray, margin):
    return middle - stray if middle > 0 else middle + stray, margin


def covered(rng, admission):
    """A plain and a ball case on balls that the domain of an admission covers: random ones or, at times, those that come nearest to 0."""
    domain = list(zip(*admission.readings))
    if rng.random() < SHARE_TOWARDS_ZERO:
        balls = [ball_towards_zero(*matryoshka) for matryoshka in domain]
    else:
        balls = [ball_inside(rng, *matryoshka) for matryoshka in domain]
    centres, margins = [c for c, _ in balls], [s for _, s in balls]
    work, output = admission.lengths[0], admission.lengths[3]
    plain = Case("plain", admission.data, (centres,), (work, output))
    return plain, Case(rng.choice(("ball", "records")), admission.data, (centres, margins), (work, work, output, output))


def keeps(rng, data, balls, admitted, plain, ball):
    """Demand 3: whether a plain and a ball run, each (refusal, values), keep what the admitted values say."""
    if plain[0] or ball[0]:
        return False
    for (middle, stray, static), (bare,), (centre, margin) in zip(admitted, plain[1], ball[1]):
        if centre != bare or margin > static or abs(centre - middle) > stray:
            return False
    scale = formula(data)[0][0]
    return all(
        contains(scale, bare, static, number)
        for exact_ones in exact_values(rng, data, balls)
        for (bare,), (_, _, static), number in zip(plain[1], admitted, exact_ones)
    )
