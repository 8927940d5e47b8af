"""What an admission meets of document 02's whole factors, in words, and what some case must meet: at each scale each combination of whole
factors and others, each way to miss being whole by little, and where h decides a unit of the margin or the reach."""

from itertools import product

from evaluator import M, formula, is_whole, margin_product, reach, stepped, up

SCALES = range(31)
# At these h is not 0.
HALVED = SCALES[1:]
WHICH = {(False, False): "neither", (True, False): "the first", (False, True): "the second", (True, True): "both"}
PLACES = ("the first", "the second")
KINDS = ("input", "constant")
# The stray of a factor that is not whole, and what its middle has over a multiple of Q: so many, and so many halves of Q.
WAYS = {
    "strays": (1, 0, 0),
    "is one over": (0, 1, 0),
    "is one short": (0, -1, 0),
    "is half over": (0, 0, 1),
    "strays and is one over": (1, 1, 0),
    "strays and is one short": (1, -1, 0),
}
SIZES = ("0", "Q", "-Q", "the most", "-the most")


def half(scale):
    return (1 << scale) // 2


def units_of_half(scale, factors):
    """By how many units, none or one, the product's margin is more with h than without."""
    doubt = margin_product(*factors)
    return up(scale, doubt + half(scale)) - up(scale, doubt)


def over(scale, way):
    """The stray, and what stands over a multiple of Q."""
    stray, units, halves = WAYS[way]
    return stray, units + halves * half(scale)


def misses(scale, factor):
    """The ways in which a factor that is not whole nearly is."""
    middle, stray, _ = factor
    for way in WAYS:
        wanted, by = over(scale, way)
        if stray == wanted and (middle - by) % (1 << scale) == 0:
            yield way


def sizes(scale):
    unit, most = 1 << scale, M >> scale << scale
    return dict(zip(SIZES, (0, unit, -unit, most, -most)))


def kind(m, program, name):
    """What a value of a formula is made by."""
    if name < m:
        return "input"
    made = program[name - m][0]
    return made if made in ("constant", "coefficient") else "result"


def multiplies_whole(data, values):
    """Whether one of an admission's products has a whole factor; no values are those of a refusal."""
    (scale, *_), program, _ = formula(data)
    factors = [values[factor] for name, *names in program if values and name == "multiply" for factor in names]
    return any(is_whole(scale, factor) for factor in factors)


def of_run(case, want):
    """An admission whose steps were taken, one that was refused among them."""
    (scale, m, *_), program, _ = formula(case.data)
    for name, *names in program[: len(want.values) - m + 1]:
        if name == "multiply":
            kinds, factors = [kind(m, program, some) for some in names], [want.values[some] for some in names]
            yield from (f"product at scale {scale}, {words}" for words in of_product(scale, kinds, factors))


def of_product(scale, kinds, factors):
    wholes, units = tuple(is_whole(scale, factor) for factor in factors), units_of_half(scale, factors)
    yield f"{WHICH[wholes]} whole, {' by '.join(kinds)}, h {'decides' if units else 'does not decide'}"
    if units:
        yield from of_reach(scale, any(wholes), factors)
    if units and not any(wholes):
        yield from of_misses(scale, kinds, factors)
    if units or scale == 0:
        yield from (words for *some, whole in zip(PLACES, kinds, factors, wholes) if whole for words in of_whole(scale, *some))


def of_reach(scale, left_out, factors):
    """Where h makes a unit: whether it alone would put the product out of reach, or does."""
    reached = reach(stepped(scale, len(factors[0]), ("multiply", 0, 1), factors)[1])
    if left_out and reached == M:
        yield "in reach for want of h"
    if not left_out and reached == M + 1:
        yield "out of reach for h alone"


def of_misses(scale, kinds, factors):
    for place, made, factor in zip(PLACES, kinds, factors):
        yield from (f"{place} a {made} that {way}" for way in misses(scale, factor))
    (A, R, _), (B, S, _) = factors
    if R == S == 0 and A * B % (1 << scale) == 0:
        yield "a multiple of Q by factors that are not"


def of_whole(scale, place, made, factor):
    middle, _, margin = factor
    yield f"{place} a whole {made} {'with a margin' if margin else 'without one'}"
    yield from (f"{place} a whole {made}, {words}" for words, size in sizes(scale).items() if middle == size)


def combinations(scale):
    """Of whole factors and others. At scale 0 every constant is whole, and h decides nothing."""
    for wholes, kinds in product(WHICH, product(KINDS, repeat=2)):
        at = f"{WHICH[wholes]} whole, {' by '.join(kinds)}"
        if scale:
            yield f"{at}, h decides"
        if set(kinds) == {"input"} or scale == 0 and all(whole or made == "input" for whole, made in zip(wholes, kinds)):
            yield f"{at}, h does not decide"


def at_halved(scale):
    """A constant does not stray."""
    for place, made, way in product(PLACES, KINDS, WAYS):
        if made == "input" or over(scale, way)[0] == 0:
            yield f"{place} a {made} that {way}"
    yield from ("in reach for want of h", "out of reach for h alone")
    if scale > 1:
        yield "a multiple of Q by factors that are not"


def required():
    for scale in SCALES:
        words = [*combinations(scale), *(at_halved(scale) if scale in HALVED else ())]
        for place in PLACES:
            words += (f"{place} a whole {made}, {size}" for made, size in product(KINDS, SIZES))
            words += (f"{place} a whole {made} without one" for made in (*KINDS, "coefficient", "result"))
            words += (f"{place} a whole {made} with a margin" for made in ("input", "coefficient"))
        yield from (f"product at scale {scale}, {some}" for some in words)
