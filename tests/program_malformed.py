"""Inputs for the program `margins` that have another form than document 01's, or nearly so."""

from figures import EXAMPLE
from program_model import LONGEST_INPUT

WORDS = (b"plain", b"ball", b"admit")
READING = {b"plain": b"24", b"ball": b"24 3", b"admit": b"24 3 1"}
NUMBERS = (
    *(b"", b" ", b"-", b"--1", b"+1", b"1-", b"- 1", b"1 ", b" 1", b"1\t", b"\t1", b"1\r", b"1\0", b"\0", b"1\x0b", b"1\x0c", b"1\x80"),
    *(b"12345678901", b"-12345678901", b"00000000000", b"1.0", b"1e3", b"0x1", b"a", b"\xef\xbc\x91", b"1,", b"1_0", b"/", b":"),
)
BALLS = (b"24", b"24 3 1", b"24  3", b"24 3 ", b" 24 3", b"24\t3", b"24,3", b"24 3 1 1")
JOB_LINES = (
    *(b"", b"check", b"Plain", b"BALL", b"admi", b"admit ", b" admit", b"admits", b"plainball", b"ball\r", b"plain\0", b"ball 1", b"p"),
    b"\xff",
)


def text(data, word, lines):
    """The program's input for these bytes, this word and these reading lines."""
    return b"".join(line + b"\n" for line in (data.hex().encode(), word, *lines))


def numbers():
    for bad in NUMBERS:
        yield "first reading of the plain job", text(EXAMPLE, b"plain", [bad, b"-10"])
        yield "last number of the admit job", text(EXAMPLE, b"admit", [b"24 3 1", b"-10 2 " + bad])
        yield "middle number of the admit job", text(EXAMPLE, b"admit", [b"24 " + bad + b" 1", b"-10 2 1"])
    for line in BALLS:
        yield "a line of the ball job", text(EXAMPLE, b"ball", [line, b"-10 2"])
        yield "a malformed reading beats the formula's refusal", text(EXAMPLE[:-1], b"ball", [line])
        yield "a malformed reading after too many", text(EXAMPLE, b"ball", [b"1 1"] * 40 + [line])


def lines():
    first, last = b"24 3 1", b"-10 2 1"
    good = text(EXAMPLE, b"admit", [first, last])
    formula = EXAMPLE.hex().encode()
    yield "empty input", b""
    yield "one line end", b"\n"
    yield "only line ends", b"\n" * LONGEST_INPUT
    yield "no line 2", formula + b"\n"
    yield "line 1 not ended", formula
    yield "line 2 not ended", formula + b"\nplain"
    yield "last line not ended", good[:-1]
    yield "last line ended by a space", good[:-1] + b" "
    yield "a space after the end", good + b" "
    yield "a NUL after the end", good + b"\0"
    yield "a NUL line after the end", good + b"\0\n"
    yield "a line end too many", good + b"\n"
    yield "a line end first", b"\n" + good
    yield "an empty line 2", text(EXAMPLE, b"", [first, last])
    yield "an empty line between readings", text(EXAMPLE, b"admit", [first, b"", last])
    yield "an empty line before the readings", text(EXAMPLE, b"admit", [b"", first, last])
    yield "carriage returns", good.replace(b"\n", b"\r\n")
    yield "the word first", b"\n".join((b"admit", formula, first, last, b""))


def formulas():
    after = b"\nadmit\n24 3 1\n-10 2 1\n"
    formula = EXAMPLE.hex().encode()
    for digit in (b"", b"A", b"F", b"g", b"/", b":", b"`", b"@", b"\0", b"\xb2", b" ", b"3 ", b"3\r", b"30"):
        yield "last hex digit", formula[:-1] + digit + after
    for start in (b"0x", b" ", b"-", b"0"):
        yield "before the formula", start + formula + after
    yield "one hex digit", b"0" + after


def job_lines():
    for bad in JOB_LINES:
        yield "word", text(EXAMPLE, bad, [b"24 3 1", b"-10 2 1"])
    yield "word with a formula of no bytes", text(b"", b"check", [])


def padded(data, reading, size):
    """Reading lines up to this size, the last with leading zeros that make it exact."""
    count, zeros = divmod(size - len(data), len(reading) + 1)
    return data + (reading + b"\n") * (count - 1) + b"0" * zeros + reading + b"\n"


def lengths():
    """Around 16 KiB, and far beyond."""
    for word in WORDS:
        for size in (LONGEST_INPUT - 1, LONGEST_INPUT, LONGEST_INPUT + 1, LONGEST_INPUT + 2, 4 * LONGEST_INPUT, 1 << 20):
            yield f"{size} bytes of readings", padded(text(EXAMPLE, word, []), READING[word], size)
    for size in (LONGEST_INPUT - 2, LONGEST_INPUT, LONGEST_INPUT + 2):
        yield f"{size} bytes, nearly all hex", b"0" * (size - len(b"\nball\n")) + b"\nball\n"
    yield "no line end in sight", b"0" * 100000


def malformed():
    for some in (numbers, lines, formulas, job_lines, lengths):
        yield from some()
