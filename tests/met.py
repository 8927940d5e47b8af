"""What a case meets, in words, and what some case must meet: each refusal of each run, with each of its places and causes, and before
what is tested later; of reciprocals and of whole factors what their modules list."""

from itertools import combinations

import met_dividing
import met_wholes
from evaluator import M, formula, misread, run

PARTS = {"plain": ("reading",), "ball": ("centre", "margin"), "records": ("centre", "margin"), "admit": ("middle", "stray", "margin")}
LOWEST = -(1 << 63)
INPUTS, INSTRUCTIONS = range(16), range(512)
BYTES, READINGS, ROOM, STEPS = (*range(1, 9), 16), (13, 14, 15), 10, (11, 17)
ENOUGH = 528


def met(case, want):
    """Of a run whose answer the second evaluator gives."""
    job, number = case.job, want.refusal
    yield f"{job}: {number}"
    if number in BYTES:
        yield from (f"{job}: {number} before {later}" for later in behind_bytes(case))
    elif number in READINGS:
        yield from (f"{job}: {number} {words}" for words in of_readings(case, want))
    elif number == ROOM:
        yield f"{job}: {number} before {behind_room(case)}"
    elif number in STEPS:
        yield f"{job}: {number} at {want.place}"
    yield from (f"{job}: {words}" for words in of_dividing(case, want))
    if job == "admit" and number in (0, *STEPS):
        yield from (f"{job}: {words}" for words in met_wholes.of_run(case, want))


def of_dividing(case, want):
    if want.refusal in BYTES:
        return met_dividing.of_bytes(case.data, want.refusal)
    if want.refusal in STEPS:
        return met_dividing.of_step(PARTS[case.job], case, want)
    return () if want.refusal else met_dividing.of_accepted(PARTS[case.job], case, want)


def misread_ones(values):
    return set(map(misread, values)) - {0}


def behind_bytes(case):
    """What would be refused if the bytes were not, with as many inputs as stand in their field and any number of outputs."""
    inputs = int.from_bytes(case.data[:3], "big") >> 7 & 31
    if len(case.data) >= 3 and any(len(numbers) != inputs for numbers in case.readings):
        yield 13
    yield from misread_ones(zip(*case.readings))
    if not any(case.lengths):
        yield ROOM


def behind_room(case):
    """The refusal with room enough, 0 for none."""
    parts = len(PARTS[case.job])
    return run(parts, case.data, case.readings, (ENOUGH,) * (2 * parts))[0]


def of_readings(case, want):
    (_, m, l, n), _, _ = formula(case.data)
    names = PARTS[case.job]
    if want.refusal == 13:
        yield miscounted(names, m, case.readings)
        later = misread_ones(zip(*case.readings))
    else:
        values = list(zip(*case.readings))
        bad = values[want.place]
        yield f"at {want.place} by {cause(names, bad)}"
        yield from (f"with -2^63 as {name}" for name, number in zip(names, bad) if number == LOWEST)
        if want.refusal == 14 and sum(map(abs, bad)) > M:
            yield "and too large"
        later = misread_ones(values[want.place + 1 :])
    yield from (f"before {number}" for number in later)
    if min(case.lengths[: len(names)]) < m + l or min(case.lengths[len(names) :]) < n:
        yield f"before {ROOM}"


def miscounted(names, m, readings):
    wrong = [name for name, numbers in zip(names, readings) if len(numbers) != m]
    far = max((len(numbers) - m for numbers in readings), key=abs)
    return f"{'one' if abs(far) == 1 else 'many'} {'more' if far > 0 else 'fewer'} in {' and '.join(wrong)}"


def cause(names, value):
    """The only part that is negative; or the only one that is too large by itself, or all of them together."""
    negative = [name for name, number in zip(names[1:], value[1:]) if number < 0]
    bad = negative or [name for name, number in zip(names, value) if abs(number) > M] or ["the sum"]
    return bad[0] if len(bad) == 1 else "several"


def of_job(job, names):
    """What must be met in this run, without its name."""
    doubts = names[1:]
    bad = (14, 15) if doubts else (15,)
    yield from map(str, (0, *BYTES, ROOM, *STEPS, 13, *bad))
    yield from (f"{number} at {k}" for number in STEPS for k in INSTRUCTIONS)
    yield from (f"{ROOM} before {number}" for number in STEPS)
    yield from met_dividing.required(names)
    if job == "admit":
        yield from met_wholes.required()
    for i in INPUTS:
        yield from (f"14 at {i} by {name}" for name in doubts)
        yield from (f"15 at {i} by {name}" for name in (*names, *(["the sum"] if doubts else [])))
    yield f"15 with -2^63 as {names[0]}"
    yield from (f"14 with -2^63 as {name}" for name in (names if doubts else ()))
    if doubts:
        yield "14 and too large"
    yield from (f"{number} before {later}" for number in (*BYTES, 13, *bad) for later in (*bad, ROOM))
    yield from (f"{number} before 13" for number in BYTES)
    # Records are one list.
    for count in range(len(names) if job == "records" else 1, len(names) + 1):
        for wrong in map(" and ".join, combinations(names, count)):
            yield from (f"13 {far} in {wrong}" for far in ("one more", "one fewer", "many more", "many fewer"))


def required():
    return {f"{job}: {words}" for job, names in PARTS.items() for words in of_job(job, names)}
