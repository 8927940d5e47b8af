"""Formulas that multiply, with domains: factors that are whole and factors that miss it by little, in each combination at each scale, as
inputs, constants and coefficients; products that h alone puts out of reach; and chains of products."""

from itertools import product

import reader
from evaluator import M, is_whole, reach, stepped
from met_wholes import HALVED, SCALES, WAYS, over, sizes, units_of_half

TOGETHER = 8
MULTIPLY = 4
# Not whole where h is not 0; with the first and the last of them the most units in reach have a product in reach.
SMALL = (0, 1, 0), (5, 2, 0), (-7, 1, 1), (1, 0, 0)


def forms(values):
    """Each factor as an input and, where it does not stray, as a constant or a coefficient."""
    for value in values:
        yield "input", value
        if value[1] == 0:
            yield "coefficient" if value[2] else "constant", value


def wholes(scale):
    """None, one, three and the most units in reach, of both signs; with a margin where h does not decide, and where it does."""
    unit, three = 1 << scale, 3 << scale
    middles = {*sizes(scale).values(), *((three, -three) if three <= M else ())}
    return [(middle, 0, 0) for middle in sorted(middles)] + list(product((0, unit, -unit), (0,), (1, unit // 2 + 1)))


def missing(scale):
    """None, one and the most units, of both signs, missed in each way."""
    for middle, way in product(sizes(scale).values(), WAYS):
        stray, by = over(scale, way)
        value = middle + by, stray, 0
        if reach(value) <= M and not is_whole(scale, value):
            yield value


def both_ways(some, beside):
    return [pair for one, other in product(some, beside) for pair in ((one, other), (other, one))]


def pairs(scale):
    """Pairs of factors: one whole, both, and neither."""
    unit, whole, missed = 1 << scale, list(forms(wholes(scale))), list(forms(missing(scale)))
    beside = list(forms(value for value in SMALL if not is_whole(scale, value)))
    certain = [form for form in beside if form[1][2] == 0]
    yield from both_ways(whole, beside)
    yield from product(whole, (("input", (unit, 0, 1)), ("constant", (-unit, 0, 0))))
    for number, form in enumerate(missed):
        yield from both_ways([form], [certain[number % len(certain)]])
    yield from both_ways((form for form in missed if abs(form[1][0]) == unit), [("input", (-7, 1, 1))])
    if scale > 1:
        yield from product(forms([(2, 0, 0)]), forms([(unit // 2, 0, 0)]))


def formula_of(scale, some):
    """The products of these pairs, each an output, and the domain."""
    factors = [factor for pair in some for factor in pair]
    domain = [value for kind, value in factors if kind == "input"]
    names, rows, used = [], [], 0
    for kind, (middle, _, margin) in factors:
        if kind == "input":
            names.append(used)
            used += 1
        else:
            names.append(len(domain) + len(rows))
            rows.append((0, middle) if kind == "constant" else (5, middle, margin))
    rows += ((MULTIPLY, *both) for both in zip(names[::2], names[1::2]))
    last = len(domain) + len(rows)
    readings = tuple([value[part] for value in domain] for part in range(3))
    return reader.pack(scale, len(domain), rows, range(last - len(some), last)), readings


def multiplied(scale, factors):
    """The refusal of a product, 0 for none, and the product."""
    return stepped(scale, 3, ("multiply", 0, 1), factors)


def in_reach():
    """Eight in a formula."""
    for scale in SCALES:
        some = [pair for pair in pairs(scale) if not multiplied(scale, [value for _, value in pair])[0]]
        yield from (formula_of(scale, some[start : start + TOGETHER]) for start in range(0, len(some), TOGETHER))


def at_reach(scale, factor):
    """Factors that are not whole, beside which h decides this one's product: its reach is M without h and M + 1 with it."""
    about = min(M, (M << scale) // reach(factor))
    limit = M if is_whole(scale, factor) else M + 1
    for by, *doubts in product(range(4), range(3), range(2)):
        both = factor, (about - by - sum(doubts), *doubts)
        if not is_whole(scale, both[1]) and units_of_half(scale, both) and reach(multiplied(scale, both)[1]) == limit:
            yield both[1]


def at_the_edge():
    """Products in reach for want of h, and out of reach for h alone: by one unit, of both signs, and by what nearly is; each by itself, in
    turn in each form and order."""
    for scale in HALVED:
        unit = 1 << scale
        near = [value for value in missing(scale) if abs(abs(value[0]) - unit) < 2]
        for turn, factor in enumerate(((unit, 0, 0), (-unit, 0, 0), (unit, 0, 1), *near), scale):
            other, some = next(at_reach(scale, factor), None), list(forms([factor]))
            if other:
                yield formula_of(scale, [both_ways([some[turn // 2 % len(some)]], [("input", other)])[turn % 2]])


def chains():
    """At each scale one unit times x again and again, on either side, the unit an input, a constant or a coefficient, and results; and none
    and one times themselves."""
    for scale, certain in product(SCALES, (True, False)):
        unit = 1 << scale
        x, minus = ((-7, 0, 0), (5, -unit, 0)) if certain else ((5, 2, 1), (0, -unit))
        rows = [minus, (1, 2), (3, 1, 1), (4, 1, 1), (4, 3, 3), (4, 4, 4), (4, 2, 0)]
        for one in (1, 2, 3, 5, 6):
            last = 1 + len(rows)
            rows += (MULTIPLY, one, last), (MULTIPLY, last + 1, one)
        yield reader.pack(scale, 2, rows, range(3, 2 + len(rows))), tuple(map(list, zip(x, (unit, 0, 0))))


def admissions():
    yield from in_reach()
    yield from at_the_edge()
    yield from chains()
