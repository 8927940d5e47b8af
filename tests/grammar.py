"""The grammar of formulas as people write them, as data, written from document 02's request h; and a reading of a text: a tree of rules."""

from functools import lru_cache
from typing import NamedTuple

LETTERS = b"abcdefghijklmnop"
MOST_DIGITS = 9
MOST_OPEN = 32
MISPLACED, TOO_DEEP = 18, 19


def shapes_of_a_number():
    """1 to 9 digits in all, with an optional point between digits."""
    for whole in range(1, MOST_DIGITS + 1):
        yield ("digit",) * whole
        for behind in range(1, MOST_DIGITS - whole + 1):
            yield (*("digit",) * whole, ".", *("digit",) * behind)


START = "sum"
RULES = {
    "sum": (("product",), ("sum", "+", "product"), ("sum", "-", "product")),
    "product": (("factor",), ("product", "*", "factor")),
    "factor": (("letter",), ("number",), ("-", "factor"), ("(", "sum", ")")),
    "number": tuple(shapes_of_a_number()),
}
# Those whose first byte opens something, up to their end.
OPENING = frozenset({("-", "factor"), ("(", "sum", ")")})


class Misread(Exception):
    """A refusal of a text, with the offset of a byte or, where the text ends too early, its length."""

    def __init__(self, refusal, place):
        super().__init__(refusal, place)
        self.refusal, self.place = refusal, place


class Ambiguous(Exception):
    """A text, or the beginning of one, that has two readings."""


class Node(NamedTuple):
    """A part of a text and the rule that it follows; its own parts are those that follow rules themselves."""

    rule: tuple
    start: int
    end: int
    parts: tuple


@lru_cache(maxsize=None)
def terminals_of_bytes(inputs):
    known = {byte: "letter" for byte in LETTERS[:inputs]} | {byte: "digit" for byte in b"0123456789"}
    known |= {byte: chr(byte) for byte in b"+-*()."}
    return [known.get(byte) for byte in range(256)]


def terminals(text, inputs):
    """What each byte is to the grammar; none for a byte that no text has."""
    known = terminals_of_bytes(inputs)
    return [known[byte] for byte in text]
