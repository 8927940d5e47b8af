"""Cases and replies as bytes between compare.py and driver.c, little-endian.

A case: job (1 byte), the formula's length (4) and bytes, then each list of readings as length (4) and numbers (8 each), then the length (4)
of each lent list, work lists before output lists. A reply: the struct of margins.h (16 bytes), whether the formula and the readings are
as they were (1), then every place (8 each) of every lent list.
"""

import struct
from array import array
from typing import NamedTuple

import evaluator
import reader

# At first each by the number of its reading's parts; the last is the ball job through its door over records.
JOBS = ("check", "plain", "ball", "admit", "records")
RUNS = {"plain": evaluator.plain, "ball": evaluator.ball, "admit": evaluator.admit, "records": evaluator.ball}
PARTS = {"check": 0, "plain": 1, "ball": 2, "admit": 3, "records": 2}
LONGEST_LENT = 1024
INTACT = b"\x01"
HEAD = 17


class Case(NamedTuple):
    job: str
    data: bytes
    readings: tuple = ()
    lengths: tuple = ()


class Wanted(NamedTuple):
    refusal: int
    place: int
    values: list
    outputs: list
    reply: bytes


def sentinel(number, index):
    """What driver.c puts into a lent list before the run."""
    mask = (1 << 64) - 1
    x = ((number + 1) * 0x9E3779B97F4A7C15 + (index + 1) * 0xBF58476D1CE4E5B9) & mask
    x = ((x ^ x >> 31) * 0x94D049BB133111EB) & mask
    return x ^ x >> 29


SENTINELS = [struct.pack(f"<{LONGEST_LENT}Q", *(sentinel(number, i) for i in range(LONGEST_LENT))) for number in range(6)]


def asked(case):
    """The frame of a case."""
    pieces = [bytes([JOBS.index(case.job)]), struct.pack("<I", len(case.data)), case.data]
    for numbers in case.readings:
        pieces.append(struct.pack(f"<I{len(numbers)}q", len(numbers), *numbers))
    pieces.append(struct.pack(f"<{len(case.lengths)}I", *case.lengths))
    return b"".join(pieces)


def reply_size(case):
    return HEAD + 8 * sum(case.lengths)


def wanted(case):
    """What the second evaluator says of a case, and the bytes that say so."""
    if case.job == "check":
        return checked(case.data)
    refusal, place, values, outputs = RUNS[case.job](case.data, case.readings, case.lengths)
    pieces = [struct.pack("<IIQ", refusal, len(outputs), place), INTACT]
    parts = PARTS[case.job]
    for number, length in enumerate(case.lengths):
        written = values if number < parts else outputs
        kind = "Q" if number % parts else "q"
        pieces.append(struct.pack(f"<{len(written)}{kind}", *(value[number % parts] for value in written)))
        pieces.append(SENTINELS[number][8 * len(written) : 8 * length])
    return Wanted(refusal, place, values, outputs, b"".join(pieces))


def checked(data):
    try:
        scale, m, l, n = evaluator.formula(data)[0]
    except reader.Refused as refusal:
        return Wanted(refusal.number, 0, [], [], struct.pack("<IIHHI", refusal.number, 0, 0, 0, 0) + INTACT)
    return Wanted(0, 0, [], [], struct.pack("<IIHHI", 0, scale, m, n, l) + INTACT)


def right(case, reply):
    return wanted(case).reply == reply


def told(case, reply):
    """A reply in words, each lent list with its numbers."""
    head = struct.unpack_from("<IIHHI" if case.job == "check" else "<IIQ", reply)
    fields = ("refusal", "scale", "inputs", "outputs", "instructions") if case.job == "check" else ("refusal", "outputs", "place")
    lines = [", ".join(f"{field} {number}" for field, number in zip(fields, head))]
    if reply[HEAD - 1 : HEAD] != INTACT:
        lines.append("the formula or the readings were changed")
    start = HEAD
    for number, length in enumerate(case.lengths):
        parts = PARTS[case.job]
        places = array("Q" if number % parts else "q", reply[start : start + 8 * length])
        sentinels = array(places.typecode, SENTINELS[number])
        shown = " ".join("-" if place == sentinel else str(place) for place, sentinel in zip(places, sentinels))
        lines.append(f"{'work' if number < parts else 'output'} list {number % parts}: {shown}")
        start += 8 * length
    return "\n".join("    " + line for line in lines)
