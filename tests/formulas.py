"""Random formulas made along with a run on their readings, so that they stay in reach, or leave it by a little."""

import reader
from evaluator import M, may_be_zero, reach, stepped
from numbers_near import reading

CODES = reader.NAMES
WEIGHTS = (2, 1, 3, 3, 6, 2, 3)
WITHOUT_RECIPROCALS = (*WEIGHTS[:-1], 0)
TRIES = 4
SIZES = (0, 1, 2, 2, 3, 3, 4, 5, 6, 7, 8, 12, 20)
INPUTS = (0, 1, 1, 2, 2, 2, 3, 3, 4, 5, 8, 16)
OUTPUTS = (1, 1, 1, 2, 3, 5, 16)


class Growing:
    """A formula and the values that its run has made so far."""

    def __init__(self, rng, scale, parts, readings):
        self.rng, self.scale, self.parts = rng, scale, parts
        self.values = list(readings)
        self.inputs = len(readings)
        self.program = []
        self.divides = scale <= reader.MOST_SCALE_OF_A_RECIPROCAL

    def instruction(self):
        rng, made = self.rng, len(self.values)
        weights = WEIGHTS if self.divides else WITHOUT_RECIPROCALS
        code = rng.choices(CODES, weights)[0] if made else rng.choice(("constant", "coefficient"))
        if code in ("constant", "coefficient"):
            return (code, *reading(rng, self.scale, 1 if code == "constant" else 2))
        if code == "reciprocal":
            return code, self.divisor()
        return (code, *(self.operand() for _ in range(1 if code == "negate" else 2)))

    def divisor(self):
        """An operand, rather one that is away from 0."""
        some = [self.operand() for _ in range(TRIES)]
        return next((name for name in some if not may_be_zero(self.values[name])), some[0])

    def operand(self):
        """Any value, but often a late one, so that chains grow deep."""
        made = len(self.values)
        return self.rng.randrange(made) if self.rng.getrandbits(1) else made - 1 - self.rng.randrange(min(made, 4))

    def stepped(self, instruction):
        return stepped(self.scale, self.parts, instruction, self.values)

    def add(self, instruction):
        refusal, made = self.stepped(instruction)
        self.program.append(instruction)
        # The run has stopped before a value that is refused; what stands there no longer matters.
        self.values.append((0,) * self.parts if refusal else made)

    def add_in_reach(self):
        for _ in range(TRIES):
            instruction = self.instruction()
            if not self.stepped(instruction)[0]:
                return self.add(instruction)
        return self.add(("constant", self.rng.randrange(-9, 10)))

    def add_edge(self, beyond):
        """A constant, exact or with a margin, and a sum or a product whose reach is M, or is just beyond M, or nearly so."""
        rng = self.rng
        name = rng.randrange(len(self.values))
        value = self.values[name]
        sign = rng.choice((1, -1))
        if rng.getrandbits(1) and value[0]:
            about = (M << self.scale) // abs(value[0]) + rng.randrange(-1, 2)
            constant, code = sign * min(M, about), "multiply"
        else:
            constant = (M - reach(value) + beyond) * (-1 if value[0] < 0 else 1)
            code = "add" if sign > 0 else "subtract"
            constant *= sign
        self.add(self.constant_of_reach(max(-M, min(M, constant))))
        self.add((code, name, len(self.values) - 1) if code == "subtract" or rng.getrandbits(1) else (code, len(self.values) - 1, name))

    def add_near_zero(self):
        """A constant, a difference that is just away from 0 or just not, and its reciprocal."""
        rng, made = self.rng, len(self.values)
        name = rng.randrange(made)
        centre, *doubts = self.values[name]
        away = (sum(doubts) + rng.choice((-1, 0, 1, 1, 2, 3, 4))) * rng.choice((1, -1))
        self.add(("constant", max(-M, min(M, centre - away))))
        self.add(("subtract", name, made))
        self.add(("reciprocal", made + 1))

    def constant_of_reach(self, constant):
        """The constant, or a coefficient with its sign and reach; a plain run looks at the centre alone."""
        rng, size = self.rng, abs(constant)
        if rng.getrandbits(1):
            return "constant", constant
        if self.parts == 1:
            return "coefficient", constant, rng.randrange(M - size + 1)
        margin = rng.choice((0, min(1, size), size, rng.randrange(size + 1)))
        return "coefficient", (size - margin) * (-1 if constant < 0 else 1), margin

    def packed(self, outputs):
        return reader.pack(self.scale, self.inputs, [(CODES.index(name), *rest) for name, *rest in self.program], outputs)


def random_outputs(rng, count, values):
    """The last value is often among them."""
    return [values - 1 if rng.random() < 0.3 else rng.randrange(values) for _ in range(count)]


def random_run(rng, parts, scale, m, l, n):
    """A formula's bytes with readings for one kind of run: mostly in reach, at times at its edge or out of it."""
    readings = [reading(rng, scale, parts) for _ in range(m)]
    growing = Growing(rng, scale, parts, readings)
    edge = rng.random()
    while len(growing.program) < l:
        if edge < 0.3 and growing.values and l - len(growing.program) >= 2 and rng.random() < 2 / l:
            growing.add_edge(beyond=0 if edge < 0.1 else rng.randrange(1, 3))
        elif edge < 0.4 and growing.values and rng.random() < 2 / l:
            growing.add(growing.instruction())
        elif 0.4 < edge < 0.6 and growing.divides and growing.values and l - len(growing.program) >= 3 and rng.random() < 3 / l:
            growing.add_near_zero()
        else:
            growing.add_in_reach()
    data = growing.packed(random_outputs(rng, n, m + l))
    return data, tuple([value[part] for value in readings] for part in range(parts))


def small_run(rng, parts):
    scale = rng.randrange(31)
    m, l = rng.choice(INPUTS), rng.choice(SIZES)
    return random_run(rng, parts, scale, m, l if m + l else 1, rng.choice(OUTPUTS))


def large_run(rng, parts):
    """The limits of document 01 and sizes on the way to them."""
    m, l, n = rng.choice((0, 1, 8, 15, 16)), rng.choice((60, 128, 255, 256, 511, 512, 512)), rng.choice((1, 15, 16))
    return random_run(rng, parts, rng.randrange(31), m, l, n)
