"""What the program `margins` must print, written from document 01, section "The program", and document 02's request c."""

import re

import evaluator

LONGEST_INPUT = 16384
PARTS = {b"plain": 1, b"ball": 2, b"admit": 3}
HEX = re.compile(rb"(?:[0-9a-f]{2})*")
NUMBER = rb"-?[0-9]{1,10}"
READINGS = {parts: re.compile(rb" ".join([NUMBER] * parts)) for parts in PARTS.values()}
ROOM = 528


def refused(number, place):
    return b"refused %d %d\n" % (number, place)


def answer(data):
    """The whole output for this input."""
    form = parsed(data)
    if form is None:
        return refused(12, 0)
    parts, formula, readings = form
    refusal, place, _, outputs = evaluator.run(parts, formula, readings, (ROOM,) * (2 * parts))
    if refusal:
        return refused(refusal, place)
    lines = [f"y{i} " + " ".join(map(str, output)) for i, output in enumerate(outputs)]
    return "".join(line + "\n" for line in [f"ok {len(outputs)}", *lines]).encode()


def parsed(data):
    """The number of a reading's parts, the formula and the lists of readings; none where the input has another form."""
    if len(data) > LONGEST_INPUT or not data.endswith(b"\n"):
        return None
    lines = data[:-1].split(b"\n")
    if len(lines) < 2 or not HEX.fullmatch(lines[0]) or lines[1] not in PARTS:
        return None
    parts = PARTS[lines[1]]
    if not all(map(READINGS[parts].fullmatch, lines[2:])):
        return None
    numbers = [list(map(int, line.split(b" "))) for line in lines[2:]]
    return parts, bytes.fromhex(lines[0].decode()), tuple([number[part] for number in numbers] for part in range(parts))
