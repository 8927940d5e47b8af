"""Cases of decimal numbers out and in, and their replies, as bytes between decimals.py and driver.c, little-endian.

A case out: job 9 (1 byte), scale, decimals, centre and margin (8 each), the lengths (4 each) of the lists for the decimal centre and the
decimal margin, then the buffer's length (4). Its reply: the struct of margins.h (16 bytes), whether what stands around the buffer and behind
the lists is as it was (1), every place (8 each) of both lists, then every byte of the buffer.

A case in: job 10 (1 byte), scale (8), the number's and the margin's text, each as length (4) and bytes, then the lengths (4 each) of the lists
for the centre and the margin. Its reply: the struct (16 bytes), whether the texts and what stands behind the lists are as they were (1), then
every place (8 each) of both lists.
"""

import struct
from array import array
from typing import NamedTuple

import decimal_model
from frames import HEAD, INTACT, SENTINELS
from packing_frames import BUFFER_SENTINELS

LISTS = ("centres", "margins")


class Out(NamedTuple):
    scale: int
    decimals: int
    centre: int
    margin: int
    places: tuple = (1, 1)
    room: int = decimal_model.MOST_BYTES


class In(NamedTuple):
    scale: int
    number: bytes
    margin: bytes
    places: tuple = (1, 1)


class Wanted(NamedTuple):
    refusal: int
    place: int
    numbers: tuple
    text: bytes
    reply: bytes


def asked(case):
    """The frame of a case."""
    if isinstance(case, Out):
        return struct.pack("<BqqqQ2II", 9, *case[:4], *case.places, case.room)
    texts = (struct.pack("<I", len(text)) + text for text in (case.number, case.margin))
    return struct.pack("<Bq", 10, case.scale) + b"".join(texts) + struct.pack("<2I", *case.places)


def reply_size(case):
    return HEAD + 8 * sum(case.places) + (case.room if isinstance(case, Out) else 0)


def wanted(case):
    """What the second printer and reader says of a case, and the bytes that say so."""
    text, place, out = b"", 0, isinstance(case, Out)
    if out:
        refusal, numbers, text = decimal_model.to_decimal(*case)
    else:
        refusal, place, numbers = decimal_model.from_decimal(*case)
    pieces = [struct.pack("<IIQ", refusal, len(text) if out else len(numbers) // 2, place), INTACT]
    for number, length in enumerate(case.places):
        pieces += [struct.pack("<q", numbers[number])] if numbers else []
        pieces.append(SENTINELS[number][8 if numbers else 0 : 8 * length])
    pieces += [text, BUFFER_SENTINELS[len(text) : case.room]] if out else []
    return Wanted(refusal, place, numbers, text, b"".join(pieces))


def right(case, reply):
    return wanted(case).reply == reply


def told(case, reply):
    """A reply in words; a place of a list that is as it was is a minus, a byte of the buffer a tilde."""
    fields = ("refusal", "bytes" if isinstance(case, Out) else "outputs", "place")
    lines = [", ".join(f"{field} {number}" for field, number in zip(fields, struct.unpack_from("<IIQ", reply)))]
    if reply[HEAD - 1 : HEAD] != INTACT:
        lines.append("what is only read, or what stands around a lent list, was changed")
    start = HEAD
    for number, length in enumerate(case.places):
        places, sentinels = array("q", reply[start : start + 8 * length]), array("q", SENTINELS[number])
        lines.append(f"{LISTS[number]}: " + " ".join("-" if place == held else str(place) for place, held in zip(places, sentinels)))
        start += 8 * length
    if isinstance(case, Out):
        lines.append("text: " + "".join("~" if byte == held else ascii(chr(byte))[1:-1] for byte, held in zip(reply[start:], BUFFER_SENTINELS)))
    return "\n".join("    " + line for line in lines)
