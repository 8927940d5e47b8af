"""What goes wrong with a case: damaged bytes, readings of a wrong number or size, lent lists that are too short."""

import reader
from evaluator import M, formula
from formulas import CODES
from numbers_near import TOO_LARGE

MOST_INPUTS = 16


def damaged(rng, data):
    data = bytearray(data)
    kind = rng.randrange(4)
    if kind == 0 and data:
        data[rng.randrange(len(data))] ^= 1 << rng.randrange(8)
    elif kind == 1 and data:
        data[rng.randrange(len(data))] = rng.randrange(256)
    elif kind == 2:
        del data[rng.randrange(len(data) + 1) :]
    else:
        data += bytes(rng.randrange(256) if rng.randrange(2) else 0 for _ in range(rng.randrange(1, 4)))
    return bytes(data)


def misfielded(rng, data):
    """The same formula with one field that is not permitted, or only just is; all other bits as they were."""
    (scale, m, l, n), program, outputs = formula(data)
    program, outputs = [(CODES.index(name), *rest) for name, *rest in program], list(outputs)
    counts = {"version": 1, "l": l, "n": n}
    what = rng.choice(("version", "scale", "m", "l", "n", "output", "instruction", "instruction", "instruction"))
    if what == "version":
        counts[what] = rng.choice((0, 2, 3, 127))
    elif what == "scale":
        scale = rng.choice((31, 31, 31, 17))
    elif what == "m":
        m = rng.choice((15, 16, 17, 31))
    elif what in counts:
        counts[what] = rng.choice((0, 512, 513, 1023) if what == "l" else (0, 16, 17, 31))
    elif what == "output" or not program:
        outputs[rng.randrange(n)] = rng.choice((m + l - 1, m + l, 1023))
    else:
        k = rng.randrange(l)
        program[k] = misinstructed(rng, program[k], m + k)
    return reader.pack(scale, m, program, outputs, **counts)


def misinstructed(rng, instruction, value):
    """A code that means nothing, a reciprocal, a constant of -2^31, a coefficient at its reach or beyond it, or an operand that is not made
    yet."""
    code, *rest = instruction
    if rng.random() < 0.2:
        return rng.choice((6, 7, 7)), *(number & 1023 for number in rest)
    if code == CODES.index("constant"):
        return code, rng.choice((-(1 << 31), 1 - (1 << 31), M))
    if code == CODES.index("coefficient"):
        return code, *rng.choice(coefficients_near(rest[0]))
    rest[rng.randrange(len(rest))] = rng.choice((value - 1 if value else 0, value, value + 1, 1023))
    return code, *rest


def coefficients_near(centre):
    """This centre with margins on both sides of its limit, and centres at theirs."""
    room = M - abs(centre)
    return (centre, room), (centre, min(M, room + 1)), (centre, M), (M, 1), (-M, 1), (M - 1, 1), (-(1 << 31), 0), (-(1 << 31), M)


def resized(numbers, length):
    return [numbers[i % len(numbers)] if numbers else 0 for i in range(length)]


def miscounted(rng, readings):
    """One list or all of them with a wrong number of readings."""
    m = len(readings[0])
    length = rng.choice([size for size in (m - 1, m + 1, 0, MOST_INPUTS + 1) if size >= 0 and size != m])
    wrong = rng.randrange(len(readings) + 1)
    return tuple(resized(numbers, length) if wrong in (i, len(readings)) else numbers for i, numbers in enumerate(readings))


def outside(rng, readings):
    """One reading or some outside their limits: far or by one, in any of their parts, or a margin or stray below zero."""
    changed = [list(numbers) for numbers in readings]
    m = len(changed[0])
    for i in rng.sample(range(m), min(m, rng.choice((1, 1, 2, 3)))):
        value = [numbers[i] for numbers in changed]
        part = rng.randrange(len(changed))
        pick = rng.random()
        if pick < 0.4 or (part and pick < 0.7):
            changed[part][i] = rng.choice(TOO_LARGE) if pick < 0.4 else -rng.randrange(1, 4)
        else:
            over = M + 1 - sum(map(abs, value))
            changed[part][i] += -over if value[part] < 0 else over
    return tuple(changed)


def wrong_readings(rng, readings):
    if readings[0] and rng.random() < 0.6:
        return outside(rng, readings)
    return miscounted(rng, readings)


def needed(data, parts):
    """The lengths of the lent lists that just have room."""
    _, m, l, n = formula(data)[0]
    return (m + l,) * parts + (n,) * parts


def roomy(rng, enough):
    """Lent lists that have room: some exactly, some with more."""
    return tuple(length + rng.choice((0, 0, 0, 1, 2, 7)) for length in enough)


def short(rng, enough):
    """One lent list, or each of them, short by one place or more."""
    lengths = list(roomy(rng, enough))
    wrong = rng.randrange(len(lengths) + 1)
    for i, length in enumerate(enough):
        if wrong in (i, len(lengths)):
            lengths[i] = rng.choice((length - 1, length - 1, 0, rng.randrange(length)))
    return tuple(lengths)
