"""The cases that expressions.py runs: every short text over a few bytes, each byte behind each beginning, numbers at their limits, nesting
around 32, counts around 512, every length of the buffer, wrong scales and inputs, long texts, random ones whole and damaged."""

import random
from fractions import Fraction
from itertools import product

import text_table
import texts
from grammar import LETTERS, MOST_DIGITS, Misread, shapes_of_a_number
from packer import LARGEST
from text_figures import ACCEPTED, REFUSED
from text_frames import Text

ALPHABET = b"ab1.+-*()"
SHORT, LONGER = 5, 8
# More than a short text's formula has, and more than the longest formula has.
ENOUGH_FOR_SHORT, ENOUGH = 48, 4300
SCALES, INPUTS = range(31), range(17)
# A number in the middle between two units has scale + 1 digits behind its point, and there are at most 8.
MOST_SCALE_OF_A_TIE = 7
FAR = (-(1 << 63), -(1 << 32), -1, 1 << 32, (1 << 32) + 4, (1 << 63) - 1)
# A byte of each kind: letters of and beyond the inputs, those behind p, capitals, a digit, the marks, and bytes that no text has.
KINDS = (b"", *(bytes([byte]) for byte in b"abcpqzAP09.+-*() \0\xff/:`\n"))
# What a byte may stand behind; numbers come to it.
BEHIND = (b"", b"(", b"b", b"(b)", b"b*", b"b+", b"b-", b"-", b"--", b"b*-", b"((a)-b)")
# What each of the 256 bytes stands behind.
BEHIND_EACH = (b"", b"(", b"b", b"b*", b"-", b"1", b"1.", b"123456789")
# Bytes that no text has, those among them that seven bits would take for others.
STRANGE = (*b" AP\0\xffqz/^=,:;_!\n\r\t\x80\xad", *(byte ^ 128 for byte in b"a1+-*()."))
RANDOM_EACH = 2
DAMAGED_EACH = 2
LONG = 100000


def short_texts():
    """Every text of up to five bytes; then all of six bytes whose first five begin a text."""
    everything = (bytes(text) for size in range(SHORT + 1) for text in product(ALPHABET, repeat=size))
    for i, text in enumerate(everything):
        yield Text(i % 31, 2, text, ENOUGH_FOR_SHORT)
    for i, (begun, byte) in enumerate(product(beginnings(ALPHABET)[SHORT], ALPHABET)):
        yield Text(i % 31, 1, begun + bytes([byte]), ENOUGH_FOR_SHORT)


def misread_at(text):
    """Where a text with one input is refused; nowhere if it isn't."""
    try:
        text_table.read(text, 1)
    except Misread as misread:
        return misread.place
    return None


def beginnings(alphabet, most=SHORT):
    """By their size all that begin a text."""
    found = [[b""]]
    for size in range(1, most + 1):
        longer = (begun + bytes([byte]) for begun, byte in product(found[-1], alphabet))
        found.append([text for text in longer if misread_at(text) in (None, size)])
    return found


def grouped():
    """Every way to join and to nest letters in up to eight bytes, the letters in their order."""
    for size in beginnings(b"a+-*()", LONGER):
        for text in (text for text in size if misread_at(text) is None):
            letters = iter(LETTERS)
            yield Text(4, 8, bytes(next(letters) if byte == LETTERS[0] else byte for byte in text), ENOUGH_FOR_SHORT)


def begun_numbers():
    """A number of each shape, and each that ends in its point."""
    for shape in shapes_of_a_number():
        number = b"".join(b"." if symbol == "." else b"%d" % (i % 10) for i, symbol in enumerate(shape))
        yield number
        if b"." not in number and len(number) < MOST_DIGITS:
            yield number + b"."


def each_byte():
    """Every byte behind some beginnings; a byte of each kind behind each, within parentheses and without; every letter with every number of
    inputs."""
    for begun, byte in product(BEHIND_EACH, range(256)):
        yield Text(4, 3, begun + bytes([byte]) + (b"+a" if byte % 2 else b""), ENOUGH_FOR_SHORT)
    for begun, byte, before in product((*BEHIND, *begun_numbers()), KINDS, (b"", b"b-((")):
        yield Text(2, 2, before + begun + byte, ENOUGH_FOR_SHORT)
    for inputs, letter, begun in product(INPUTS, (*LETTERS, *b"q{`"), (b"", b"1*(")):
        yield Text(0, inputs, begun + bytes([letter]) + b")" * begun.count(b"("), ENOUGH_FOR_SHORT)


def decimal(number, behind):
    """A number of 10^-behind, with its point; none where it has more digits than a text allows."""
    digits = str(number).zfill(behind + 1)
    text = f"{digits[:-behind]}.{digits[-behind:]}" if behind else digits
    return text.encode() if number >= 0 and len(digits) <= MOST_DIGITS else None


def shaped_numbers(rng):
    """1 to 10 digits, a point at each place and nowhere, before, behind and between other things."""
    for size in range(1, MOST_DIGITS + 2):
        for point, scale in product((None, *range(size + 1)), (0, 1, 4, 30, rng.choice(SCALES))):
            digits = bytes(rng.choice(b"0123456789") for _ in range(size))
            number = digits if point is None else digits[:point] + b"." + digits[point:]
            before, behind = rng.choice(((b"", b""), (b"a*", b""), (b"-(", b")"), (b"", b"-a")))
            yield Text(scale, 1, before + number + behind, ENOUGH_FOR_SHORT)


def near(scale, units):
    """With each number of digits behind the point the numbers next to so many units, on both sides."""
    for behind in range(MOST_DIGITS):
        last = int(units * 10**behind / (1 << scale))
        for number in range(last - 1, last + 3):
            if text := decimal(number, behind):
                yield Text(scale, 0, text, ENOUGH_FOR_SHORT)


def limits():
    """At each scale the numbers next to the last in range, to ties and to whole units."""
    for scale in SCALES:
        yield from near(scale, Fraction(2 * LARGEST + 1, 2))
        for units in (0, 1, LARGEST // 3):
            yield from near(scale, Fraction(2 * units + 1, 2) if scale <= MOST_SCALE_OF_A_TIE else Fraction(units))
        for text in (b"0", b"1", b"0.1", b"0.9", b"0.000000001", b"0.00000001", b"999999999"):
            yield Text(scale, 0, text, ENOUGH_FOR_SHORT)


def opened(kinds):
    """These opened one after another, a letter, and all closed."""
    return kinds + b"a" + b")" * kinds.count(b"(")


def openings(rng, size):
    """So many parentheses and minuses: all of one kind, by turns, one of the other kind first or last, at random."""
    yield from (b"(" * size, b"-" * size, (b"(-" * size)[:size], (b"-(" * size)[:size], (b"--(" * size)[:size])
    yield from (b"(" * (size - 1) + b"-", b"-" * (size - 1) + b"(", b"-" + b"(" * (size - 1), b"(" + b"-" * (size - 1))
    yield from (bytes(rng.choice(b"(-") for _ in range(size)) for _ in range(3))


def nested(rng):
    """31 to 35 open at once, at several offsets; then with what is closed before, and what is wrong before or behind."""
    closed = (opened(b"(" * 32) + b"*", opened(b"-" * 32) + b"-", opened(b"-(" * 16) + b"+")
    for size in (31, 32, 33, 34, 35):
        for kinds, begun in product(openings(rng, size), (b"", b"a*", b"a-", b"1.25+", b"(a)-", b"--a*", b"(a*-a)+", *closed)):
            yield Text(4, 1, begun + opened(kinds), 200)
        for kinds in openings(rng, size):
            wrong = (kinds, kinds + b"b", kinds + b")", kinds[:-1] + b"*" + kinds[-1:] + b"a", opened(kinds) + b")")
            yield from (Text(4, 1, text, 200) for text in wrong)
    for offset in range(20):
        yield Text(4, 1, b"a+" * offset + opened(b"-" * 33), 200)
        yield Text(4, 1, b"10-" + b"a+" * offset + opened(b"(" * 33), 200)


def reopened(rng):
    """32 open, some closed, as many or one more opened again."""
    for _ in range(400):
        kinds = next(iter(openings(rng, 32))) if rng.random() < 0.2 else bytes(rng.choice(b"((-") for _ in range(32))
        parentheses = kinds.count(b"(")
        closed = rng.randrange(1, parentheses + 1)
        still = len(kinds.rsplit(b"(", closed)[0].rstrip(b"-"))
        again = bytes(rng.choice(b"(-") for _ in range(32 - still + rng.choice((-1, 0, 0, 1, 1, 2))))
        text = kinds + b"a" + b")" * closed + rng.choice((b"*", b"+", b"-")) + again + b"a"
        yield Text(4, 1, text + b")" * (parentheses - closed + again.count(b"(")), 200)


LAST = {"add": b"+a", "subtract": b"-a", "multiply": b"*a", "negate": b"*-a", "constant": b"+1", "coefficient": b"+0.1"}


def counted(rng):
    """Around 512 and 600 instructions, the last of each kind; a number out of range before, as and behind instruction 513."""
    for size, name in product((*range(506, 515), 600), LAST):
        body = b"a" + b"".join(rng.choice((b"+a", b"-a", b"*a")) for _ in range(size))
        yield Text(30, 1, body + LAST[name], ENOUGH)
        yield Text(30, 1, body + LAST[name] + LAST[name], 0)
        yield Text(30, 1, b"-(" + body + LAST[name] + b")", ENOUGH)
    for size in (1, 2, 5, 255, 256, 257, 509, 510, 511, 512, 513, 514, 600):
        for number, behind, room in product((b"2", b"2.1", b"9.99999999"), (0, 3, 300), (0, 5, ENOUGH)):
            text = b"a" + b"-a" * (size - 1) + b"*" + number + b"+a" * behind
            yield Text(30, 1, text, room)
            yield Text(30, 1, text + b"+", room)
        yield Text(30, 1, b"2+" + b"a+" * size + b"2.5", ENOUGH)
        yield from (Text(30, 1, b"a+" * size + b"2*" + some, ENOUGH) for some in (b"(" * 33, opened(b"-" * 33)))


def largest_of_texts():
    """A letter and 256 coefficients, each taken from what stands before it: no text's formula is longer."""
    return b"a" + b"".join(b"-0.%d1" % (i % 7) for i in range(256))


def longest_of_texts():
    """513 letters in 32 parentheses each: no accepted text is longer."""
    return b"*".join([opened(b"(" * 32)] * 513)


def rooms():
    """Every length of the buffer for several texts, with every number of bits in the last byte."""
    some = [b"a" + b"+b" * count for count in range(9)] + [b"-" * count + b"b" for count in range(9)]
    for text in (*some, b"a*(b-0.25)+b", b"0.1", b"1", b"1-2.75*-(3-a)"):
        yield from (Text(4, 2, text, room) for room in range(len(texts.pack(4, 2, text, ENOUGH)[2]) + 10))
    for text in (largest_of_texts(), longest_of_texts()):
        size = len(texts.pack(4, 1, text, ENOUGH)[2])
        yield from (Text(4, 1, text, room) for room in (*range(0, size, 97), *range(size - 5, size + 5), ENOUGH))


def wrong_headers():
    """Wrong scales and inputs beside right and wrong texts."""
    some = (b"a", b"a*(a-0.25)+1", b"", b"a)", b"(" * 33, b"3", b"a" + b"+a" * 513, b"a" + b"*a" * 512 + b"+3", b"q", b"a*p")
    pairs = [*product((*FAR, 31, 32), (1, 16, 17)), *product((0, 30), (*FAR, 17, 18, 32))]
    pairs += product((-1, 31, -(1 << 63)), (-1, 17, 1 << 62))
    for text, (scale, inputs), room in product(some, pairs, (0, ENOUGH_FOR_SHORT)):
        yield Text(scale, inputs, text, room)


def long_texts():
    """Texts of 100,000 bytes and more: right, and wrong only at the end."""
    right = b"a" + b"+(a*-a)" * (LONG // 7)
    yield from (Text(4, 1, right + end, ENOUGH) for end in (b"", b"+", b"A", b"*" + b"(" * 33))
    yield Text(30, 1, b"2" + b"-a" * (LONG // 2), 0)
    yield from (Text(4, 1, byte * LONG, ENOUGH) for byte in (b"a", b"(", b"-", b"1", b"\0"))
    yield Text(4, 1, longest_of_texts(), ENOUGH)


def any_number(rng, scale):
    """Mostly one in range."""
    behind = rng.choice((0, 0, 1, 2, 3, 5, 8))
    most = min(10**MOST_DIGITS, (10**behind << 31) >> scale)
    below = 10**MOST_DIGITS if rng.random() < 0.01 else rng.choice((most, min(most, 100)))
    return decimal(rng.randrange(max(1, below)), behind) or b"0"


def any_text(rng, leaf, leaves, room):
    """So many letters and numbers, joined and nested at random, at most `room` open at once."""
    pieces = []
    while leaves:
        size = rng.randrange(1, leaves + 1) if room and rng.random() < 0.3 else 1
        minuses = min(room, rng.choice((0, 0, 0, 0, 1, 2)))
        deeper = room > minuses and (size > 1 or rng.random() < 0.1)
        size = size if deeper else 1
        pieces.append(b"-" * minuses + (b"(" + any_text(rng, leaf, size, room - minuses - 1) + b")" if deeper else leaf()))
        leaves -= size
    return b"".join(piece if i == 0 else rng.choice((b"+", b"-", b"*")) + piece for i, piece in enumerate(pieces))


def random_text(rng, scale, inputs, leaves):
    def leaf():
        if inputs and rng.random() < 0.6:
            return LETTERS[(place := rng.randrange(inputs)) : place + 1]
        return any_number(rng, scale)

    return any_text(rng, leaf, leaves, rng.choice((0, 2, 5, 32)))


def damaged(rng, text, any_byte):
    """A byte put in, taken out or exchanged, two exchanged with each other, or the text cut."""
    place, what = rng.randrange(len(text) + 1), rng.randrange(5)
    byte = bytes([any_byte()])
    if what == 0:
        return text[:place] + byte + text[place:]
    if what == 1:
        return text[:place] + text[place + 1 :]
    if what == 2:
        return text[:place] + byte + text[place + 1 :]
    return text[:place] + text[place + 1 : place + 2] + text[place : place + 1] + text[place + 2 :] if what == 3 else text[:place]


def room_for(rng, given):
    """Room that is just enough, more, or too little; for a text that is refused any."""
    size = len(texts.pack(*given, ENOUGH)[2])
    return rng.choice((size, size, size + 1, size + 9, max(0, size - 1), rng.randrange(size + 1)))


def random_texts(rng):
    """At each scale with each number of inputs, whole and damaged."""

    def any_byte():
        return rng.choice((*b"+-*().a1", *STRANGE, ord("a") + inputs, rng.randrange(256)))

    for scale, inputs, i in product(SCALES, INPUTS, range(RANDOM_EACH)):
        text = random_text(rng, scale, inputs, rng.choice((1, 2, 3, 4, 6, 10, 20)) if i else rng.choice((1, 5, 40, 100, 200)))
        yield Text(scale, inputs, text, room_for(rng, (scale, inputs, text)))
        for _ in range(DAMAGED_EACH):
            spoilt = damaged(rng, text, any_byte)
            yield Text(scale, inputs, spoilt, room_for(rng, (scale, inputs, spoilt)))


def figures():
    for (scale, inputs, text), *_ in (*ACCEPTED, *REFUSED):
        yield Text(scale, inputs, text.encode(), ENOUGH)
        yield Text(scale, inputs, text.encode(), 0)


def all_cases(seed=1):
    rng = random.Random(seed)
    yield from figures()
    yield from short_texts()
    yield from grouped()
    yield from each_byte()
    yield from shaped_numbers(rng)
    yield from limits()
    yield from nested(rng)
    yield from reopened(rng)
    yield from counted(rng)
    yield from rooms()
    yield from wrong_headers()
    yield from random_texts(rng)
    yield from long_texts()
