"""Formulas that divide, with readings: reciprocals around each limit at each scale, quotients; and cases of each run by itself with what it
must meet of them."""

from itertools import permutations, product

import reader
from damage import needed
from evaluator import M, stepped
from frames import PARTS, Case
from met_dividing import OTHER_SCALES, SCALES, nearest
from places import RUNS

TOGETHER = 16


def sizes_divided(scale):
    """Around the powers of two where a reciprocal turns: the least, Q, T and 2T, and those beside them; and the largest."""
    powers = {0, 1, 2, 3, 4, *range(scale - 1, scale + 2), *range(2 * scale - 1, 2 * scale + 2), 30}
    near = {(1 << power) + by for power in powers if 0 <= power <= 30 for by in (-1, 0, 1)}
    return sorted(near - {0} | {10, 1000, 1431655765, M - 1, M})


def doubts_beside(size, parts):
    """Strays and margins with which a centre of this size is away from 0, just away, and just not; the largest among them."""
    if parts == 1:
        return ((),)
    if parts == 2:
        return [(margin,) for margin in (0, 1, 2, size // 2, size - 2, size - 1, size, size + 1, M - size)]
    pairs = [(0, 0), (0, 1), (1, 0), (1, 1), (size // 3, size // 3), (size - 2, 0), (0, size - 2), (size - 3, 1), (size // 2, size)]
    for both in (size - 1, size):
        pairs += (both, 0), (0, both), (both // 2, both - both // 2)
    return pairs


def operands_divided(scale, parts):
    """Each size with both signs and with each doubt that its reach leaves room for."""
    for size, sign in product(sizes_divided(scale), (1, -1)):
        for doubts in sorted(set(doubts_beside(size, parts))):
            if min(doubts, default=0) >= 0 and size + sum(doubts) <= M:
                yield sign * size, *doubts
    yield from ((0, *doubts) for doubts in product((0, 1, M >> 1), repeat=parts - 1))


def together(scale, values):
    """The reciprocals of these values, each an output."""
    count = len(values)
    data = reader.pack(scale, count, [(6, k) for k in range(count)], range(count, 2 * count))
    return data, tuple(map(list, zip(*values)))


def reciprocals():
    """At each scale reciprocals around each limit: those that are accepted sixteen in a formula, the others alone."""
    for scale, parts in product(SCALES, (1, 2, 3)):
        accepted = []
        for value in operands_divided(scale, parts):
            if stepped(scale, parts, ("reciprocal", 0), [value])[0]:
                yield reader.pack(scale, 1, [(6, 0)], [1]), tuple([number] for number in value)
            else:
                accepted.append(value)
        for start in range(0, len(accepted), TOGETHER):
            yield together(scale, accepted[start : start + TOGETHER])


def quotients():
    """A quotient, its reciprocal, and a difference that may be 0 divided by; in all three kinds, some refused at each of the steps."""
    centres, doubts = (-17, -8, -1, 1, 2, 8, 24), (0, 1, 5)
    program = [(6, 1), (4, 0, 2), (6, 3), (3, 3, 0), (6, 5), (2, 4, 6)]
    for scale, parts, top in product((0, 4, 16), (1, 2, 3), centres):
        for bottom, margin in product(centres, doubts):
            values = (top, 1, margin), (bottom, margin, 1)
            units = tuple([value[part] << max(0, scale - 6) for value in values] for part in range(parts))
            yield reader.pack(scale, 2, program, [3, 4, 7]), units


def nearest_to_zero(scale, parts):
    """Operands as near 0 as a reciprocal in reach lets them: without doubt, with the least of each kind, and with the largest."""
    near = nearest(scale)
    for size, sign in product((near, near + 1, near + 2, M + near >> 1), (1, -1)):
        doubt = size - near
        doubts = {1: ((),), 2: ((doubt,),), 3: ((doubt, 0), (0, doubt), (doubt // 2, doubt - doubt // 2))}[parts]
        yield from ((sign * size, *some) for some in doubts if sum(some) == doubt)


def case_of(job, data, readings):
    return Case(job, data, readings, needed(data, PARTS[job]))


def accepted_at_limits():
    """Each run by itself: as near 0 as may be, M, and the two sides of a tie and the tie, with both signs."""
    for scale, job in product(SCALES, RUNS):
        parts = PARTS[job]
        sizes = [size for size in (M, 2 << 2 * scale, (2 << 2 * scale) - 1, (2 << 2 * scale) + 1) if size <= M]
        values = [(sign * size, *(0,) * (parts - 1)) for size, sign in product(sizes, (1, -1))]
        for some in (values, sorted(set(nearest_to_zero(scale, parts)))):
            for start in range(0, len(some), TOGETHER):
                yield case_of(job, *together(scale, some[start : start + TOGETHER]))


def over_scale():
    """Each run by itself at each scale that reciprocals are not for: whole, with an operand that names nothing, cut right behind the code,
    which ends the sixth byte, and cut inside the operand; with a byte too few and a byte too many behind it."""
    for scale, job in product(OTHER_SCALES, RUNS):
        whole, nameless = (reader.pack(scale, 1, [(1, 0), (6, name)], [1]) for name in (0, 1023))
        yield from (refused(job, data) for data in (whole, nameless, whole[:6], whole[:7], whole[:-1], whole + b"\0"))


def over_scale_and_more():
    """Each run by itself: another instruction that is refused, before such a reciprocal and behind it."""
    others = (7, 0, 0), (1, 1000), (4, 1000, 0), (4, 0, 1000), (0, -(1 << 31)), (5, M, 1)
    for job, other in product(RUNS, others):
        for rows in permutations((other, (6, 0))):
            yield refused(job, reader.pack(17, 1, rows, [1]))


def refused(job, data):
    """Bytes that are refused, with readings for one input."""
    parts = PARTS[job]
    return Case(job, data, ([1], [0], [0])[:parts], (4,) * (2 * parts))


def all_by_job():
    yield from accepted_at_limits()
    yield from over_scale()
    yield from over_scale_and_more()
