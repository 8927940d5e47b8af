"""A second packer, and a second way back into lists, written from document 02's requests a, b and e: the file is one string of '0' and
'1'.

A formula as lists is (scale, inputs, codes, firsts, seconds, outputs), any of its numbers permitted or not.
"""

from functools import lru_cache

from evaluator import formula
from reader import LARGEST, MOST_SCALE_OF_A_RECIPROCAL, NAMES, Refused

CONSTANT, NEGATE, COEFFICIENT, RECIPROCAL = map(NAMES.index, ("constant", "negate", "coefficient", "reciprocal"))
# Those that have no second field.
OF_ONE_FIELD = (CONSTANT, NEGATE, RECIPROCAL)


def bits(number, width, least, most, refusal):
    """A field of this width; a number below zero in two's complement."""
    if not least <= number <= most:
        raise Refused(refusal)
    return format(number % (1 << width), f"0{width}b")


def header(scale, inputs, lengths, outputs):
    text = "0000001" + bits(scale, 5, 0, 30, 3) + bits(inputs, 5, 0, 16, 4)
    if len(set(lengths)) > 1:
        raise Refused(4)
    return text + bits(lengths[0], 10, 0, 512, 4) + bits(outputs, 5, 1, 16, 4)


def coefficient(centre, margin):
    """A centre leaves this much room for its margin; none where it is itself too large."""
    room = LARGEST - abs(centre)
    text = bits(margin, 31, 0, room, 7)
    return bits(centre, 32, -LARGEST, LARGEST, 7) + text


def instruction(code, first, second, value, scale):
    text = bits(code, 3, 0, len(NAMES) - 1, 5)
    if code == RECIPROCAL and scale > MOST_SCALE_OF_A_RECIPROCAL:
        raise Refused(16)
    if code == CONSTANT:
        return text + bits(first, 32, -LARGEST, LARGEST, 7)
    if code == COEFFICIENT:
        return text + coefficient(first, second)
    text += bits(first, 10, 0, value - 1, 6)
    return text if code in OF_ONE_FIELD else text + bits(second, 10, 0, value - 1, 6)


@lru_cache(maxsize=16)
def packed(scale, inputs, codes, firsts, seconds, outputs):
    """The bytes, or the first refusal in the order in which the fields are written."""
    text = [header(scale, inputs, (len(codes), len(firsts), len(seconds)), len(outputs))]
    for k, fields in enumerate(zip(codes, firsts, seconds)):
        text.append(instruction(*fields, inputs + k, scale))
    text += [bits(name, 10, 0, inputs + len(codes) - 1, 6) for name in outputs]
    whole = "".join(text)
    whole += "0" * (-len(whole) % 8)
    return bytes(int(whole[i : i + 8], 2) for i in range(0, len(whole), 8))


def pack(lists, room):
    """(refusal, the bytes that are written)."""
    try:
        data = packed(*lists)
    except Refused as refusal:
        return refusal.number, b""
    return (0, data) if len(data) <= room else (10, b"")


def lists_of(data):
    """The lists of an accepted formula; a field that the code does not have is 0."""
    (scale, inputs, _, _), program, outputs = formula(data)
    rows = [(NAMES.index(name), *fields, 0)[:3] for name, *fields in program]
    return (scale, inputs, *(tuple(row[part] for row in rows) for part in range(3)), tuple(outputs))


def unpack(data, lengths):
    """(refusal, (scale, inputs, instructions, outputs), the four lists that are written)."""
    nothing = (0, 0, 0, 0), ((), (), (), ())
    try:
        counts = formula(data)[0]
    except Refused as refusal:
        return refusal.number, *nothing
    if min(lengths[:3]) < counts[2] or lengths[3] < counts[3]:
        return 10, *nothing
    return 0, counts, lists_of(data)[2:]
