"""Cases of packing texts, and their replies, as bytes between expressions.py and driver.c, little-endian.

A case: job 8 (1 byte), scale and inputs (8 each), the text's length (4) and bytes, then the buffer's length (4). Its reply: the struct of
margins.h (16 bytes), whether the text and the bytes around the buffer are as they were (1), then every byte of the buffer.
"""

import struct
from typing import NamedTuple

import texts
from frames import HEAD, INTACT
from packing_frames import BUFFER_SENTINELS

JOB = 8


class Text(NamedTuple):
    scale: int
    inputs: int
    text: bytes
    room: int


class Wanted(NamedTuple):
    refusal: int
    place: int
    data: bytes
    reply: bytes


def asked(case):
    """The frame of a case."""
    head = struct.pack("<BqqI", JOB, case.scale, case.inputs, len(case.text))
    return head + case.text + struct.pack("<I", case.room)


def reply_size(case):
    return HEAD + case.room


def wanted(case):
    """What the second packer of texts says of a case, and the bytes that say so."""
    refusal, place, data = texts.pack(*case)
    reply = struct.pack("<IIQ", refusal, len(data), place) + INTACT + data + BUFFER_SENTINELS[len(data) : case.room]
    return Wanted(refusal, place, data, reply)


def right(case, reply):
    return wanted(case).reply == reply


def told(_, reply):
    """A reply in words; a place that is as it was is a minus."""
    lines = [", ".join(f"{field} {number}" for field, number in zip(("refusal", "bytes", "place"), struct.unpack_from("<IIQ", reply)))]
    if reply[HEAD - 1 : HEAD] != INTACT:
        lines.append("the text, or what stands around the buffer, was changed")
    lines.append("bytes: " + " ".join("-" if byte == held else f"{byte:02x}" for byte, held in zip(reply[HEAD:], BUFFER_SENTINELS)))
    return "\n".join("    " + line for line in lines)
