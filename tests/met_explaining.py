"""What a case of explaining meets, in words, and what some case must meet: each refusal, with each place and cause, and before each that is
tested later; each t as the largest, then each number, with another instruction at t + 2 and another for the whole domain; each instruction;
each size of a small doubt; each reading's doubt by itself; and each instruction's name by which a domain is refused."""

import met
from evaluator import ALL_PARTS, ENOUGH, M, at_part, formula, is_whole, matryoshka_product, reach, run
from explaining_frames import ADMITTED_TO, NEVER, STEPS
from frames import Case as Admission
from met import BYTES, INPUTS, INSTRUCTIONS, PARTS, READINGS
from met_wholes import units_of_half

NAMES = PARTS["admit"]
DOUBTS = NAMES[1:]
SMALL = range(1, ALL_PARTS)
SCALES = range(31)
REFUSING = {11: ("add", "subtract", "multiply", "reciprocal"), 17: ("reciprocal",)}
LATE = (0, 255, 256, 511)


def met_by(case, want):
    admission = Admission("admit", case.data, case.readings, ENOUGH)
    if want.refusal in BYTES:
        yield from (f"{want.refusal} before {later}" for later in met.behind_bytes(admission))
    elif want.refusal in READINGS:
        yield from (f"{want.refusal} {words}" for words in met.of_readings(admission, want))
        yield from before_a_step(case, want)
    elif want.answer == ADMITTED_TO:
        yield from of_admitted(case, want)
        yield from of_doubts(case)
    elif want.answer == NEVER:
        yield from of_never(case, want)
    else:
        yield from of_nothing(case)
    yield from [f"{want.refusal}"] * (want.refusal > 0)


def before_a_step(case, want):
    """The refusal that the formula meets whatever the readings are."""
    m = formula(case.data)[0][1]
    refusal = run(3, case.data, ([0] * m,) * 3, ENOUGH)[0]
    if refusal:
        yield f"{want.refusal} before {refusal}"


def elsewhere(found, t, place):
    """The refusal of another instruction at t."""
    return [found[t][0]] if found[t][1] != place else []


def of_admitted(case, want):
    t, number = want.parts, want.met
    yield f"admitted to {t}, then {number}"
    yield from (f"admitted to {t}, then {number}, the whole {whole} elsewhere" for whole in elsewhere(want.admissions, -1, want.place))
    if t + 2 <= ALL_PARTS:
        yield from (f"admitted to {t}, elsewhere at t + 2" for _ in elsewhere(want.admissions, t + 2, want.place))
    (scale, m, l, _), program, _ = formula(case.data)
    name = program[want.place][0]
    yield from (f"{number} by {name}", f"{number} at {want.place}", f"admitted at scale {scale}", f"admitted with {m} inputs")
    yield from [f"{number} behind a coefficient"] * any(row[0] == "coefficient" for row in program[: want.place])
    yield from [f"{number} of 512 instructions"] * (l == 512)
    if name == "multiply":
        yield from of_wholes(case, want)


def of_wholes(case, want):
    """Whether the factors of the product that is met are whole, at t and at t + 1, and whether h alone refuses it."""
    (scale, *_), program, _ = formula(case.data)
    names, runs = program[want.place][1:], (run(3, case.data, at_part(want.parts + more, case.readings), ENOUGH) for more in (0, 1))
    now, then = ([values[name] for name in names] for _, _, values, _ in runs)
    wholes = [[is_whole(scale, factor) for factor in factors] for factors in (now, then)]
    yield from ["a factor is whole up to t"] * any(one and not other for one, other in zip(*wholes))
    if any(wholes[1]):
        yield "a whole factor in what is refused"
    elif units_of_half(scale, then) and reach(matryoshka_product(scale, *then)) == M + 1:
        yield "h alone refuses"


def of_doubts(case):
    """Doubts that stand alone, and large ones."""
    _, *doubts = case.readings
    some = [(part, i, number) for part, numbers in zip(DOUBTS, doubts) for i, number in enumerate(numbers) if number]
    if len(some) == 1:
        part, i, number = some[0]
        yield f"one doubt, the {part} of reading {i} of {len(doubts[0])}"
        if number in SMALL:
            yield f"one doubt, a {part} of {number}"
    yield from (f"a {part} of M" for part, _, number in some if number == M)
    yield from ["doubts in each of 16 readings"] * (len({i for _, i, _ in some}) == 16)


def of_never(case, want):
    found, number, inputs = want.admissions, want.met, formula(case.data)[0][1]
    yield f"never admitted, {number}"
    yield from (f"never admitted, {number}, the whole {whole} elsewhere" for whole in elsewhere(found, -1, want.place))
    yield from (f"never admitted, {number}, elsewhere at 1" for _ in elsewhere(found, 1, want.place))
    yield from [f"never admitted, {number} at {want.place}"] * (want.place in LATE)
    yield from [f"never admitted, {number}, without inputs"] * (inputs == 0)
    yield from [f"never admitted, {number}, without doubts"] * (inputs > 0 and not any(map(any, case.readings[1:])))


def of_nothing(case):
    (_, m, _, _), program, _ = formula(case.data)
    values = run(3, case.data, case.readings, ENOUGH)[2]
    yield "nothing to explain" + (", without inputs" if m == 0 else "" if any(map(any, case.readings[1:])) else ", without doubts")
    yield from ["nothing to explain, a reading's reach is M"] * any(reach(value) == M for value in values[:m])
    doubtful = [(row[0], value) for row, value in zip(program, values[m:]) if sum(value[1:])]
    yield from ["nothing to explain, a result's reach is M"] * any(reach(value) == M for _, value in doubtful)
    divisors = [values[row[1]] for row in program if row[0] == "reciprocal"]
    yield from ["nothing to explain, a divisor is just not 0"] * any(abs(value[0]) == sum(value[1:]) + 1 > 1 for value in divisors)


def refusals_required():
    yield from map(str, (*BYTES, *READINGS))
    yield from (f"{number} before {later}" for number in BYTES for later in READINGS)
    yield from (f"{number} before {later}" for number in READINGS for later in (14, 15, *STEPS))
    # The rest is what an admission must meet.
    wanted = tuple(f"admit: {number}" for number in READINGS)
    room = f"before {met.ROOM}"
    yield from (words.removeprefix("admit: ") for words in met.required() if words.startswith(wanted) and not words.endswith(room))


def answers_required():
    for t in range(ALL_PARTS):
        yield from (f"admitted to {t}, then {number}" for number in STEPS)
        if t + 1 < ALL_PARTS:
            yield from (f"admitted to {t}, then {number}, the whole {whole} elsewhere" for number in STEPS for whole in STEPS)
            yield f"admitted to {t}, elsewhere at t + 2"
    for number in STEPS:
        yield from (f"{number} at {k}" for k in INSTRUCTIONS)
        yield from (f"{number} by {name}" for name in REFUSING[number])
        yield from (f"{number} behind a coefficient", f"{number} of 512 instructions")
        yield from (f"never admitted, {number}{words}" for words in ("", ", elsewhere at 1", ", without inputs", ", without doubts"))
        yield from (f"never admitted, {number}, the whole {whole} elsewhere" for whole in STEPS)
        yield from (f"never admitted, {number} at {k}" for k in LATE)
    yield from (f"nothing to explain{words}" for words in ("", ", without inputs", ", without doubts"))
    yield from (f"nothing to explain, a {words}" for words in ("reading's reach is M", "result's reach is M", "divisor is just not 0"))


def domains_required():
    for part in DOUBTS:
        yield from (f"one doubt, a {part} of {number}" for number in SMALL)
        yield from (f"one doubt, the {part} of reading {i} of 16" for i in INPUTS)
        yield f"a {part} of M"
    yield "doubts in each of 16 readings"
    yield from (f"admitted at scale {scale}" for scale in SCALES)
    yield from (f"admitted with {m} inputs" for m in range(1, 17))
    yield from ("a factor is whole up to t", "a whole factor in what is refused", "h alone refuses")


def required():
    return {*refusals_required(), *answers_required(), *domains_required()}
