"""A second packer of formulas as people write them, written from document 02's request h. A text's tree comes from the grammar as data
(text_table.py, and text_search.py beside it), its numbers are exact fractions, and its bytes come from the second packer of lists.

Of a text's instructions the one whose part of the text ends first comes first, and of two that end together the shorter one.
"""

import re
from fractions import Fraction
from functools import lru_cache
from math import floor

import packer
import text_table
from grammar import LETTERS, Misread
from packer import COEFFICIENT, CONSTANT, LARGEST
from reader import NAMES

MOST_SCALE, MOST_INPUTS, MOST_INSTRUCTIONS = 30, 16, 512
OPERATORS = {
    ("-", "factor"): NAMES.index("negate"),
    ("sum", "+", "product"): NAMES.index("add"),
    ("sum", "-", "product"): NAMES.index("subtract"),
    ("product", "*", "factor"): NAMES.index("multiply"),
}


class Reading:
    """What a text says: the nodes that make an instruction, in order, and the node whose value is the whole text's."""

    def __init__(self, text, tree):
        self.text, self.whole = text, tree
        nodes = [tree]
        for node in nodes:
            nodes += node.parts
        making = [node for node in nodes if node.rule in OPERATORS or is_number(node)]
        self.making = sorted(making, key=lambda node: (node.end, -node.start))

    def written(self, node):
        return self.text[node.start : node.end]

    def numbers(self):
        """The numbers as they are written, in the order of their instructions."""
        return [Fraction(self.written(node).decode()) for node in self.making if is_number(node)]

    def rows(self, scale, inputs):
        """The instructions as (code, first, second), and the value of the whole text."""
        values = {(node.start, node.end): inputs + k for k, node in enumerate(self.making)}

        def value(node):
            while node.rule not in OPERATORS and not is_number(node):
                if node.rule == ("letter",):
                    return LETTERS.index(self.written(node))
                node = node.parts[0]
            return values[node.start, node.end]

        rows = [
            units(scale, self.written(node)) if is_number(node) else (OPERATORS[node.rule], *map(value, node.parts), 0)[:3]
            for node in self.making
        ]
        return rows, value(self.whole)


def is_number(node):
    return node.rule[0] == "digit"


@lru_cache(maxsize=256)
def units(scale, written):
    """A number as it is written: rounded to units with ties up, exact or with a margin of 1."""
    exactly = Fraction(written.decode()) * (1 << scale)
    centre = floor(exactly + Fraction(1, 2))
    return (CONSTANT, centre, 0) if exactly == centre else (COEFFICIENT, centre, 1)


def out_of_range(row):
    code, first, second = row
    return code in (CONSTANT, COEFFICIENT) and abs(first) + second > LARGEST


@lru_cache(maxsize=16)
def reading(text, inputs):
    return Reading(text, text_table.read(text, inputs))


def rows_of(scale, inputs, text):
    return reading(text, inputs).rows(scale, inputs)


@lru_cache(maxsize=16)
def listed(scale, inputs, text):
    """(refusal, place, the formula as lists), without the room for its bytes."""
    if not 0 <= scale <= MOST_SCALE:
        return 3, 0, ()
    if not 0 <= inputs <= MOST_INPUTS:
        return 4, 0, ()
    try:
        rows, output = rows_of(scale, inputs, text)
    except Misread as misread:
        return misread.refusal, misread.place, ()
    for k, row in enumerate(rows):
        if k == MOST_INSTRUCTIONS:
            return 4, 0, ()
        if out_of_range(row):
            return 7, 0, ()
    codes, firsts, seconds = zip(*rows) if rows else ((), (), ())
    return 0, 0, (scale, inputs, codes, firsts, seconds, (output,))


def pack(scale, inputs, text, room):
    """(refusal, place, the bytes that are written)."""
    refusal, place, lists = listed(scale, inputs, text)
    if refusal:
        return refusal, place, b""
    refusal, data = packer.pack(lists, room)
    return refusal, 0, data


def exactly(text, fractions):
    """Exact arithmetic on the text, its numbers as they are written: by Python's own reading of it, which has the same grouping."""
    source = re.sub(r"[0-9]+(\.[0-9]+)?", lambda number: f"Fraction('{number[0]}')", text.decode())
    names = {chr(letter): fraction for letter, fraction in zip(LETTERS, fractions)}
    return Fraction(eval(source, {"__builtins__": {}, "Fraction": Fraction}, names))
