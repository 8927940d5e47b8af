"""Cases of explaining a domain, and their replies, as bytes between explaining.py and driver.c, little-endian.

A case: job 11 (1 byte), the formula's length (4) and bytes, then middles, strays and margins, each as length (4) and numbers (8 each). Its
reply: the struct of margins.h (16 bytes), whether the formula, the lists and what stands around these are as they were (1).
"""

import struct
from typing import NamedTuple

import evaluator
from evaluator import ALL_PARTS, ENOUGH
from frames import HEAD, INTACT

JOB = 11
NOTHING, ADMITTED_TO, NEVER = 1, 2, 3
ANSWERS = {NOTHING: "nothing to explain", ADMITTED_TO: "admitted to", NEVER: "never admitted"}
FIELDS = ("refusal", "answer", "parts", "met", "place")
FORM = "<IBBHQ"
STEPS = (11, 17)


class Case(NamedTuple):
    data: bytes
    readings: tuple


class Wanted(NamedTuple):
    refusal: int
    answer: int
    parts: int
    met: int
    place: int
    # At each t, of a domain that is refused at a step.
    admissions: list
    reply: bytes


def asked(case):
    """The frame of a case."""
    lists = (struct.pack(f"<I{len(numbers)}q", len(numbers), *numbers) for numbers in case.readings)
    return struct.pack("<BI", JOB, len(case.data)) + case.data + b"".join(lists)


def reply_size(_case):
    return HEAD


def answered(refusal, answer, parts, met, place, found=()):
    fields = refusal, answer, parts, met, place
    return Wanted(*fields, list(found), struct.pack(FORM, *fields) + INTACT)


def wanted(case):
    """What the second evaluator says of a case by trying every t, and the bytes that say so."""
    refusal, place, _, _ = evaluator.admit(case.data, case.readings, ENOUGH)
    if refusal not in STEPS:
        return answered(refusal, 0, 0, 0, place) if refusal else answered(0, NOTHING, 0, 0, 0)
    found = evaluator.admissions(case.data, case.readings)
    admitted = [t for t in range(ALL_PARTS) if found[t][0] == 0]
    if not admitted:
        return answered(0, NEVER, 0, *found[0][:2], found)
    return answered(0, ADMITTED_TO, admitted[-1], *found[admitted[-1] + 1][:2], found)


def right(case, reply):
    return wanted(case).reply == reply


def told(_case, reply):
    """A reply in words."""
    fields = struct.unpack_from(FORM, reply)
    words = ", ".join(f"{name} {number}" for name, number in zip(FIELDS, fields))
    changed = "" if reply[HEAD - 1 : HEAD] == INTACT else "\n    what is only read, or what stands around it, was changed"
    return f"    {ANSWERS.get(fields[1], 'no answer')}: {words}{changed}"
