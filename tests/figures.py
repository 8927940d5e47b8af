"""Document 01's figures, marked and unmarked, its examples, and document 02's on coefficients, reciprocals, whole factors and the place of
a refusal: cases with what they must give."""

import reader
import reciprocals
from formulas import CODES
from frames import JOBS, Case

M = 2147483647
EXAMPLE = bytes.fromhex("0241004180000280200003")

# Scale, instruction, operands, and the result or the refusal of the only instruction.
STEPS = (
    (4, "multiply", ((24, 3), (-10, 2)), (-15, 6)),
    (4, "multiply", ((1, 0), (1, 0)), (0, 1)),
    (4, "multiply", ((8, 0), (1, 0)), (1, 1)),
    (4, "multiply", ((-8, 0), (1, 0)), (0, 1)),
    (4, "multiply", ((-9, 0), (1, 0)), (-1, 1)),
    (0, "multiply", ((3, 1), (-5, 2)), (-15, 13)),
    (4, "multiply", ((24, 3, 1), (-10, 2, 1)), (-15, 6, 3)),
    (4, "multiply", ((1, 0, 0), (1, 0, 0)), (0, 0, 1)),
    (4, "multiply", ((16, 0, 0), (5, 2, 0)), (5, 2, 0)),
    (0, "add", ((2147483646, 1), (0, 0)), (2147483646, 1)),
    (0, "add", ((2147483646, 1), (0, 1)), 11),
    (4, "add", ((M,), (-1,)), (M - 1,)),
    (4, "add", ((M,), (1,)), 11),
    (4, "negate", ((M,),), (-M,)),
)

# Scale, two factors and their product. Where neither factor is whole, half a unit goes on the margin before it is rounded up.
WHOLES = (
    (4, ((16, 0, 0), (5, 2, 1)), (5, 2, 1)),
    (4, ((5, 2, 1), (16, 0, 0)), (5, 2, 1)),
    (4, ((48, 0, 0), (5, 2, 1)), (15, 6, 3)),
    (4, ((5, 2, 1), (-32, 0, 0)), (-10, 4, 2)),
    (4, ((0, 0, 0), (5, 2, 1)), (0, 0, 0)),
    (4, ((16, 0, 0), (32, 0, 0)), (32, 0, 0)),
    # A margin does not keep a factor from being whole: 7*1 and 7*2 are below one unit, and with a half more the second would be over it.
    (4, ((16, 0, 1), (5, 2, 0)), (5, 2, 1)),
    (4, ((16, 0, 2), (5, 2, 0)), (5, 2, 1)),
    # A stray does, and so does a middle that is one off.
    (4, ((16, 1, 0), (5, 2, 0)), (5, 3, 1)),
    (4, ((5, 2, 0), (16, 1, 0)), (5, 3, 1)),
    (4, ((17, 0, 0), (5, 2, 0)), (5, 3, 1)),
    (4, ((5, 2, 0), (15, 0, 0)), (5, 2, 1)),
    # 8*2 is a multiple of Q, and neither factor is.
    (4, ((8, 0, 0), (2, 0, 0)), (1, 0, 1)),
    (0, ((3, 0, 0), (5, 2, 1)), (15, 6, 3)),
    (30, ((-1073741824, 0, 0), (5, 2, 0)), (-5, 2, 0)),
    (30, ((1073741823, 0, 0), (5, 2, 0)), (5, 2, 1)),
)

# Readings for the example formula, and its only output.
EXAMPLES = (
    (((24,), (-10,)), (9,)),
    (((24, 3), (-10, 2)), (9, 9)),
    (((24, 3, 1), (-10, 2, 1)), (9, 9, 4)),
)

# Readings for the example formula, and the refusal with its place.
LOWEST = -(1 << 63)
REFUSED = (
    (((24, 3),), (13, 0)),
    (((24, -3), (-10, -2), (5, -1)), (13, 0)),
    (((24, 3), (-10, -2)), (14, 1)),
    (((24, 3, -1), (-10, -2, 1)), (14, 0)),
    (((24, 3, 1), (-10, 2, LOWEST)), (14, 1)),
    (((LOWEST, -1), (M + 1, 0)), (14, 0)),
    (((M + 1,), (LOWEST,)), (15, 0)),
    (((24,), (LOWEST,)), (15, 1)),
    (((M, 1), (-10, -2)), (15, 0)),
    (((24, 3, 1), (2 - M, 2, 1)), (15, 1)),
    (((M,), (M,)), (11, 0)),
    (((M,), (16,)), (11, 1)),
)

# 0.1 at scale 4 is 1.6 units: as a coefficient 2 give or take 1. A reading of 160 units, times it, and what that gives: the exact
# product is 16, which 20 give or take 0 would not hold. 160 units are 10 times Q: where they do not stray, h is left out.
WEIGHT = reader.pack(4, 1, [(5, 2, 1), (4, 0, 1)], [2, 1])
WEIGHED = (
    ((160,), ((20,), (2,))),
    ((160, 0), ((20, 10), (2, 1))),
    ((1, 0), ((0, 1), (2, 1))),
    ((0, 0), ((0, 0), (2, 1))),
    ((-160, 16), ((-20, 13), (2, 1))),
    ((160, 0, 0), ((20, 0, 10), (2, 0, 1))),
    ((160, 3, 1), ((20, 1, 11), (2, 0, 1))),
)

# Minutes lost per probe sent at scale 16: value 2 is 1 divided by the probes, value 3 the minutes times it. Of 600 probes it is
# 2^32/39321600 = 109.23, so (109, 1). 90 minutes, give or take 1, times it are 90*109 = 9810 units, give or take 91*1 + 1*109; so is
# the static margin, the minutes being whole. Two probes give or take two may be none.
QUOTIENT = reader.pack(16, 2, [(6, 1), (4, 0, 2)], [3, 2])
PROBES = 600 << 16
QUOTIENTS = (
    (((90 << 16,), (PROBES,)), (0, 0), ((9810,), (109,))),
    (((90 << 16, 1 << 16), (PROBES, 0)), (0, 0), ((9810, 200), (109, 1))),
    (((90 << 16, 0, 1 << 16), (PROBES, 0, 0)), (0, 0), ((9810, 0, 200), (109, 0, 1))),
    (((0,), (0,)), (17, 0), ()),
    (((90 << 16, 1 << 16), (2 << 16, 2 << 16)), (17, 0), ()),
    (((90 << 16, 0, 1 << 16), (2 << 16, 1 << 16, 1 << 16)), (17, 0), ()),
    (((M, 0), (2, 0)), (11, 0), ()),
    (((M, 0), (3, 0)), (11, 1), ()),
)
# The reciprocal of a difference, behind other instructions.
DIFFERENCE = reader.pack(4, 2, [(1, 0), (3, 0, 1), (6, 3), (6, 2)], [4, 5])
DIFFERENCES = (
    (((24,), (8,)), (0, 0), ((16,), (-11,))),
    (((24,), (24,)), (17, 2), ()),
    (((0,), (24,)), (17, 3), ()),
    (((24, 3), (8, 13)), (17, 2), ()),
    # The difference is (16, 15), its reciprocal (16, 240); of (-24, 3) it is (-11, 3).
    (((24, 3), (8, 12)), (0, 0), ((16, 240), (-11, 3))),
)

# Bytes and the refusal that they give, 0 for none.
CHECKS = (
    (EXAMPLE, 0),
    (b"", 1),
    (reader.pack(30, 1, [], [0]), 0),
    (reader.pack(31, 1, [], [0]), 3),
    (reader.pack(0, 0, [], [0]), 6),
    (reader.pack(0, 0, [(5, M - 1, 1)], [0]), 0),
    (reader.pack(0, 0, [(5, M, 1)], [0]), 7),
    (reader.pack(0, 0, [(5, -M, 0)], [0]), 0),
    (reader.pack(0, 0, [(5, -M - 1, 0)], [0]), 7),
    # 32 + 66 bits would be over 12 bytes: the margin's last bits are not there, and its centre's test is not yet due.
    (reader.pack(0, 0, [(5, -M - 1, 0)], [0])[:12], 1),
    *((reader.pack(scale, 1, [(7, 0, 0)], [0]), 5) for scale in (0, 16, 17)),
    *((reader.pack(scale, 1, [(6, 0)], [1]), 0 if scale <= 16 else 16) for scale in (0, 15, 16, 17, 30)),
    *((reader.pack(scale, 1, [(6, 1)], [1]), 6 if scale <= 16 else 16) for scale in (16, 17)),
    # 32 + 3 bits are in 5 bytes: the code is there, its operand is not.
    *((reader.pack(scale, 1, [(6, 0)], [1])[:5], 1 if scale <= 16 else 16) for scale in (16, 17)),
    (reader.pack(17, 1, [(6, 0)], [1])[:4], 1),
)


def exactly_enough(data, readings, values, outputs):
    parts = len(readings[0])
    lists = tuple([value[part] for value in readings] for part in range(parts))
    return Case(JOBS[parts], data, lists, (values,) * parts + (outputs,) * parts)


def figures():
    """Each case with its refusal, its place and its outputs."""
    for scale, name, operands, result in STEPS:
        data = reader.pack(scale, len(operands), [(CODES.index(name), *range(len(operands)))], [len(operands)])
        case = exactly_enough(data, operands, len(operands) + 1, 1)
        yield (case, result, 0, []) if isinstance(result, int) else (case, 0, 0, [result])
    for scale, factors, result in WHOLES:
        yield exactly_enough(reader.pack(scale, 2, [(4, 0, 1)], [2]), factors, 3, 1), 0, 0, [result]
    for readings, output in EXAMPLES:
        yield exactly_enough(EXAMPLE, readings, 4, 1), 0, 0, [output]
    for readings, refusal in REFUSED:
        yield exactly_enough(EXAMPLE, readings, 4, 1), *refusal, []
    for scale, value, result in reciprocals.ALL:
        case = exactly_enough(reader.pack(scale, 1, [(6, 0)], [1]), (value,), 2, 1)
        yield (case, result, 0, []) if isinstance(result, int) else (case, 0, 0, [result])
    for data, values, some in ((QUOTIENT, 4, QUOTIENTS), (DIFFERENCE, 6, DIFFERENCES)):
        for readings, refusal, outputs in some:
            yield exactly_enough(data, readings, values, 2), *refusal, list(outputs)
    for value, outputs in WEIGHED:
        yield exactly_enough(WEIGHT, (value,), 3, 2), 0, 0, list(outputs)
    for data, refusal in CHECKS:
        yield Case("check", data), refusal, 0, []
