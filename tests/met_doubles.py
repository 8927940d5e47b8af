"""What a case of doubles meets, in words, and what some case must meet: what a ball case must, each lent list too short by itself, and at
each scale the numbers where a double could go wrong."""

import met
from evaluator import M, formula
from reader import NAMES

SCALES = range(31)
LISTS = ("work centres", "work margins", "centres", "margins")
# T/M is below a half up to this scale, and the reciprocal of M therefore 0.
MOST_SCALE_OF_A_ZERO_RECIPROCAL = 14


def met_by(case, want):
    yield from met.met(case, want)
    if want.refusal == 10:
        yield "10 by " + " and ".join(too_short(case))
    elif want.refusal == 0:
        yield from of_lists(case, len(want.pairs))
        yield from of_outputs(case, want.values)


def too_short(case):
    _, m, l, n = formula(case.data)[0]
    return [name for name, length, least in zip(LISTS, case.lengths, (m + l, m + l, n, n)) if length < least]


def of_lists(case, outputs):
    centres, margins = (length - outputs for length in case.lengths[2:])
    yield f"{outputs} outputs, places behind them in {'both' if centres and margins else 'one' if centres or margins else 'none'}"
    yield f"{'fewer' if centres < margins else 'more' if centres > margins else 'as many'} places for centres"


def of_size(size):
    yield from (words for words, number in (("0", 0), ("M", M)) if size == number)
    if size:
        yield "odd" if size % 2 else "even"
    if size.bit_count() == 1:
        yield f"2^{size.bit_length() - 1}"


def of_outputs(case, values):
    (scale, m, _, _), program, outputs = formula(case.data)
    for name in outputs:
        centre, margin = values[name]
        yield from (f"scale {scale}: the centre {'-' if centre < 0 else ''}{words}" for words in of_size(abs(centre)))
        yield from (f"scale {scale}: the margin {words}" for words in of_size(margin))
        if centre == 0 and name >= m:
            yield f"scale {scale}: 0 by {program[name - m][0]}, {'with a' if margin else 'no'} margin"


def zeros_required(scale):
    for name in NAMES:
        if name != "reciprocal" or scale <= MOST_SCALE_OF_A_ZERO_RECIPROCAL:
            yield f"{name}, with a margin" if name != "constant" else f"{name}, no margin"
        if name in ("negate", "add", "subtract", "coefficient"):
            yield f"{name}, no margin"


def required():
    sizes = ("M", "odd", "even", *(f"2^{power}" for power in range(31)))
    words = {some for some in met.required() if some.startswith("ball: ")}
    for scale in SCALES:
        words |= {f"scale {scale}: the {part}{size}" for part in ("centre ", "centre -", "margin ") for size in sizes}
        words |= {f"scale {scale}: the {part} 0" for part in ("centre", "margin")}
        words |= {f"scale {scale}: 0 by {zero}" for zero in zeros_required(scale)}
    words |= {f"{n} outputs, places behind them in {which}" for n in range(1, 17) for which in ("both", "one", "none")}
    words |= {f"{many} places for centres" for many in ("fewer", "more", "as many")}
    return words | {f"10 by {name}" for name in LISTS}
