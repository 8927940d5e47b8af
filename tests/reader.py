"""A second reader of packed formulas, written from document 01 and document 02's requests b and e: the file is one string of '0' and
'1'."""

LARGEST = 2147483647
NAMES = ("constant", "negate", "add", "subtract", "multiply", "coefficient", "reciprocal")
OF_ONE_OPERAND = ("negate", "reciprocal")
MOST_SCALE_OF_A_RECIPROCAL = 16


class Refused(Exception):
    """A refusal with its number."""

    def __init__(self, number):
        super().__init__(number)
        self.number = number


class Bits:
    """The bits of some bytes, taken from the front."""

    def __init__(self, data):
        self.text = "".join(format(byte, "08b") for byte in data)
        self.done = 0

    def field(self, width):
        if self.done + width > len(self.text):
            raise Refused(1)
        taken = self.text[self.done : self.done + width]
        self.done += width
        return int(taken, 2)

    def padding(self):
        left = self.text[self.done :]
        if len(left) >= 8 or "1" in left:
            raise Refused(8)


def header(bits):
    if bits.field(7) != 1:
        raise Refused(2)
    scale = bits.field(5)
    if scale > 30:
        raise Refused(3)
    counts = []
    for width, low, high in ((5, 0, 16), (10, 0, 512), (5, 1, 16)):
        count = bits.field(width)
        if not low <= count <= high:
            raise Refused(4)
        counts.append(count)
    return (scale, *counts)


def operand(bits, below):
    name = bits.field(10)
    if name >= below:
        raise Refused(6)
    return name


def signed(bits):
    number = bits.field(32)
    return number - (1 << 32) if number >> 31 else number


def constant(bits):
    number = signed(bits)
    if number == -(1 << 31):
        raise Refused(7)
    return (number,)


def coefficient(bits):
    """A centre and a margin; either is tested when both were read."""
    centre, margin = signed(bits), bits.field(31)
    if centre == -(1 << 31) or abs(centre) + margin > LARGEST:
        raise Refused(7)
    return centre, margin


def instruction(bits, value, scale):
    code = bits.field(3)
    if code >= len(NAMES):
        raise Refused(5)
    name = NAMES[code]
    if name == "reciprocal" and scale > MOST_SCALE_OF_A_RECIPROCAL:
        raise Refused(16)
    if name in ("constant", "coefficient"):
        return (name, *(constant if name == "constant" else coefficient)(bits))
    return (name, *(operand(bits, value) for _ in range(1 if name in OF_ONE_OPERAND else 2)))


def formula(data):
    """(scale, m, l, n), the instructions and the outputs."""
    bits = Bits(data)
    scale, m, l, n = header(bits)
    program = [instruction(bits, m + k, scale) for k in range(l)]
    outputs = [operand(bits, m + l) for _ in range(n)]
    bits.padding()
    return (scale, m, l, n), program, outputs


def pack(scale, m, program, outputs, version=1, n=None, l=None):
    """The bytes of a formula, its fields as they are given, permitted or not."""
    fields = [(version, 7), (scale, 5), (m, 5), (len(program) if l is None else l, 10), (len(outputs) if n is None else n, 5)]
    for code, *rest in program:
        widths = {0: (32,), 5: (32, 31), 6: (10,)}.get(code, (10, 10))
        fields += [(code, 3), *((number % (1 << width), width) for number, width in zip(rest, widths))]
    fields += [(name, 10) for name in outputs]
    text = "".join(format(number, f"0{width}b") for number, width in fields)
    text += "0" * (-len(text) % 8)
    return bytes(int(text[i : i + 8], 2) for i in range(0, len(text), 8))
