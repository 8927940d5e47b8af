"""Cases of packing and reading back, and their replies, as bytes between packing.py and driver.c, little-endian.

A case of packing: job 5 (1 byte), scale and inputs (8 each), then codes, firsts, seconds and outputs, each as length (4) and numbers (8
each), then the buffer's length (4). Its reply: the struct of margins.h (16 bytes), whether the lists and the bytes around the buffer are
as they were (1), then every byte of the buffer.

A case of reading back: job 6 (1 byte), the formula's length (4) and bytes, then the length (4) of each lent list. Its reply: the struct
(16 bytes), whether the formula and the places behind the lists are as they were (1), then every place (8 each) of every lent list.
"""

import struct
from array import array
from typing import NamedTuple

import packer
from frames import HEAD, INTACT, SENTINELS, sentinel

LISTS = ("codes", "firsts", "seconds", "outputs")
LONGEST_BUFFER = 8192
BUFFER_SENTINELS = bytes(sentinel(len(LISTS), i) & 255 for i in range(LONGEST_BUFFER))


class Pack(NamedTuple):
    lists: tuple
    room: int


class Unpack(NamedTuple):
    data: bytes
    lengths: tuple


class Wanted(NamedTuple):
    refusal: int
    reply: bytes


def asked(case):
    """The frame of a case."""
    if isinstance(case, Unpack):
        return struct.pack("<BI", 6, len(case.data)) + case.data + struct.pack("<4I", *case.lengths)
    scale, inputs, *lists = case.lists
    pieces = [struct.pack("<Bqq", 5, scale, inputs)]
    pieces += [struct.pack(f"<I{len(numbers)}q", len(numbers), *numbers) for numbers in lists]
    return b"".join(pieces) + struct.pack("<I", case.room)


def reply_size(case):
    return HEAD + (8 * sum(case.lengths) if isinstance(case, Unpack) else case.room)


def wanted(case):
    """What the second packer says of a case, and the bytes that say so."""
    if isinstance(case, Unpack):
        refusal, (scale, inputs, instructions, outputs), lists = packer.unpack(case.data, case.lengths)
        pieces = [struct.pack("<IIHHI", refusal, scale, inputs, outputs, instructions), INTACT]
        for number, (written, length) in enumerate(zip(lists, case.lengths)):
            pieces += [struct.pack(f"<{len(written)}q", *written), SENTINELS[number][8 * len(written) : 8 * length]]
        return Wanted(refusal, b"".join(pieces))
    refusal, data = packer.pack(case.lists, case.room)
    return Wanted(refusal, struct.pack("<IIQ", refusal, len(data), 0) + INTACT + data + BUFFER_SENTINELS[len(data) : case.room])


def right(case, reply):
    return wanted(case).reply == reply


def bytes_in(reply):
    """The formula that a reply of packing holds."""
    return reply[HEAD : HEAD + struct.unpack_from("<I", reply, 4)[0]]


def lists_in(case, reply):
    """The formula as lists that a reply of reading back holds."""
    _, scale, inputs, outputs, instructions = struct.unpack_from("<IIHHI", reply)
    lists, start = [], HEAD
    for length, written in zip(case.lengths, (instructions,) * 3 + (outputs,)):
        lists.append(struct.unpack_from(f"<{written}q", reply, start))
        start += 8 * length
    return (scale, inputs, *lists)


def told(case, reply):
    """A reply in words; a place that is as it was is a minus."""
    back = isinstance(case, Unpack)
    fields = ("refusal", "scale", "inputs", "outputs", "instructions") if back else ("refusal", "bytes", "place")
    lines = [", ".join(f"{field} {number}" for field, number in zip(fields, struct.unpack_from("<IIHHI" if back else "<IIQ", reply)))]
    if reply[HEAD - 1 : HEAD] != INTACT:
        lines.append("what is only read, or what stands around a lent list, was changed")
    start = HEAD
    for number, length in enumerate(case.lengths if back else ()):
        places, sentinels = array("q", reply[start : start + 8 * length]), array("q", SENTINELS[number])
        lines.append(f"{LISTS[number]}: " + " ".join("-" if place == held else str(place) for place, held in zip(places, sentinels)))
        start += 8 * length
    if not back:
        lines.append("bytes: " + " ".join("-" if byte == held else f"{byte:02x}" for byte, held in zip(reply[HEAD:], BUFFER_SENTINELS)))
    return "\n".join("    " + line for line in lines)
