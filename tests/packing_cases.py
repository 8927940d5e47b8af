"""The cases that packing.py runs. Packing: each field at its limits and far beyond, every length of every list and buffer, two wrong things
at once, random lists. Reading back: files whole, cut and damaged, into lists of every length."""

import random
from itertools import islice, product

from checks import all_checks, longest, longest_divided, longest_exact
from cuts import INPUTS, PLACES_IN_A_BYTE, SCALES_DIVIDED, all_cuts
from damage import damaged, misfielded, roomy, short
from evaluator import formula
from formulas import large_run, small_run
from packer import COEFFICIENT, CONSTANT, LARGEST, NAMES, NEGATE, OF_ONE_FIELD, RECIPROCAL, lists_of, packed
from packing_frames import Pack, Unpack
from reader import MOST_SCALE_OF_A_RECIPROCAL, Refused

NUMBERS = (
    *(-(1 << 63), 1 - (1 << 63), -(1 << 32) - 1, -(1 << 32), 5 - (1 << 32), -(1 << 31) - 1, -(1 << 31), 1 - (1 << 31), -1024, -2, -1, 0, 1),
    *(2, 3, 4, 5, 6, 7, 8, 15, 16, 17, 30, 31, 32, 33, 255, 256, 512, 1023, 1024, 1025, 1033, 32768, 65536, 65541, (1 << 31) - 2),
    *((1 << 31) - 1, 1 << 31, (1 << 31) + 1, (1 << 32) - 1, 1 << 32, (1 << 32) + 5, 1 << 62, (1 << 63) - 1),
)
# Numbers of a coefficient whose reach is at its limit, or would be within it if sums were cut to 32 or 64 bits.
CENTRES = (
    *(-(1 << 63), 1 - (1 << 63), -(1 << 32) - 1, -(1 << 31) - 1, -(1 << 31), -LARGEST, 1 - LARGEST, -(1 << 30), -1, 0, 1, 2, 1 << 30),
    *(LARGEST - 1, LARGEST, 1 << 31, (1 << 32) - 1, 1 << 32, (1 << 32) + 1, (1 << 63) - 1),
)
MARGINS = (
    *(-(1 << 63), 1 - (1 << 63), -(1 << 32), -(1 << 31), -2, -1, 0, 1, 2, (1 << 30) - 1, 1 << 30, LARGEST - 1, LARGEST, 1 << 31),
    *((1 << 31) + 1, (1 << 32) - 1, 1 << 32, (1 << 32) + 1, (1 << 63) - 2, (1 << 63) - 1),
)
LENGTHS = (0, 1, 511, 512, 513, 1023, 1024, 1025, 1536)
# More than a count of 16 bits holds.
LONG = 65537
# Where the numbers stand in a formula as lists.
SCALE, HAS_INPUTS, CODES, FIRSTS, SECONDS, OUTPUTS = range(6)
WRONGS = (
    *("scale", "inputs", "lists", "outputs", "code", "first", "second", "constant", "coefficient", "reciprocal", "over 16", "output"),
    "room",
)
# More than the longest formula has.
ENOUGH = 4300
PAIRS_EACH = 100
RANDOM_LISTS = 10000
RANDOM_FILES = 3000
LARGE_EVERY = 60
CHECKED_EVERY = 8
ROUND_TRIPS = 3000


def lists(scale, inputs, program, outputs):
    """A formula as lists, its instructions given as rows of three."""
    codes, firsts, seconds = zip(*program) if program else ((), (), ())
    return scale, inputs, codes, firsts, seconds, tuple(outputs)


def put(given, part, number, index=None):
    """The lists with one part exchanged, or one number of it."""
    changed = list(given)
    changed[part] = number if index is None else (*given[part][:index], number, *given[part][index + 1 :])
    return tuple(changed)


def headers():
    """Scale and inputs, with instructions that any number of inputs permits."""
    for number in (*NUMBERS, *range(-2, 40)):
        yield lists(number, 1, [(0, 5, 0), (1, 0, 0)], [0])
        yield lists(4, number, [(0, 5, 0), (1, 0, 0)], [0])


def list_lengths():
    """Every wrong length of each list, alone and with the others."""
    for sizes in (*product(range(4), repeat=3), *((size,) * 3 for size in LENGTHS), (LONG,) * 3):
        yield 4, 1, *((number,) * size for number, size in zip((NEGATE, 0, 0), sizes)), (0,)
    for size, wrong, part in product((1, 512), LENGTHS, (CODES, FIRSTS, SECONDS)):
        yield put(lists(4, 1, [(NEGATE, 0, 0)] * size, [0]), part, (0,) * wrong)
    for size in (*range(40), 256, 257, LONG):
        yield lists(4, 1, [(NEGATE, 0, 0)], [0] * size)


def fields():
    """Each field of each instruction and output, at every place within a byte."""
    for before in range(PLACES_IN_A_BYTE):
        value = INPUTS + before
        for number in (*NUMBERS, value - 1, value, value + 1):
            for row in ((number, 9, 9), *(row for code in range(len(NAMES)) for row in ((code, number, 9), (code, 9, number)))):
                yield lists(4, INPUTS, [(4, 9, 0)] * before + [row, (1, 0, 0)], [0])
            for index in range(3):
                yield put(lists(4, INPUTS, [(4, 9, 0)] * before, [9, 8, 7]), OUTPUTS, number, index)


def coefficients():
    """Each centre with each margin, at every place within a byte; then as the last instruction, with every number of outputs."""
    for before, centre, margin in product(range(PLACES_IN_A_BYTE), CENTRES, MARGINS):
        yield lists(4, INPUTS, [(4, 9, 0)] * before + [(COEFFICIENT, centre, margin), (1, 0, 0)], [0])
    for before, centre, outputs in product(range(PLACES_IN_A_BYTE), (-LARGEST, -1, 0, 1, LARGEST), range(1, 17)):
        room = LARGEST - abs(centre)
        for margin in (0, room, room + 1):
            yield lists(4, INPUTS, [(4, 9, 0)] * before + [(COEFFICIENT, centre, margin)], [INPUTS + before] * outputs)


def reciprocals():
    """At each scale at every place within a byte; each operand at scales around the largest; as the last instruction, with every number of
    outputs. The second field is any number."""
    for before, scale in product(range(PLACES_IN_A_BYTE), (*range(-1, 33), *NUMBERS)):
        yield lists(scale, INPUTS, [(4, 9, 0)] * before + [(RECIPROCAL, 9, -1), (1, 0, 0)], [0])
    for before, scale in product(range(PLACES_IN_A_BYTE), SCALES_DIVIDED):
        value = INPUTS + before
        for number in (*NUMBERS, value - 1, value, value + 1):
            yield lists(scale, INPUTS, [(4, 9, 0)] * before + [(RECIPROCAL, number, number), (7, 0, 0)][: 1 + scale % 2], [0])
    for before, scale, outputs in product(range(PLACES_IN_A_BYTE), (16, 17), range(1, 17)):
        yield lists(scale, INPUTS, [(4, 9, 0)] * before + [(RECIPROCAL, INPUTS + before - 1, 1 << 40)], [INPUTS + before] * outputs)


def in_order():
    """Two rows of which one or both are refused, at scales that reciprocals are for and are not for: the first one's refusal."""
    rows = (RECIPROCAL, 0, 0), (RECIPROCAL, -1, 0), (7, 0, 0), (-1, 0, 0), (4, 0, 10), (CONSTANT, 1 << 31, 0), (COEFFICIENT, 5, -1)
    for scale, pair in product((16, 17, 30), product(rows, repeat=2)):
        yield lists(scale, INPUTS, pair, [0])
        yield lists(scale, INPUTS, [(1, 0, 0), *pair], [1000])


def rooms():
    """Every length of the buffer, with every number of bits in the last byte."""
    rows = (1, 0, 0), (COEFFICIENT, -LARGEST, 0), (RECIPROCAL, 1, 7)
    small = [lists(4, 2, [row] * count, [1] * outputs) for row, count, outputs in product(rows, range(5), (1, 2))]
    large = lists(30, 16, [(0, LARGEST, 7), (4, 15, 16), (5, -1, LARGEST - 1)], range(16))
    for given in (*small, large, *map(lists_of, (longest(), longest_exact(), longest_divided()))):
        yield from (Pack(given, room) for room in range(len(packed(*given)) + 10))


def any_number(rng):
    return rng.choice(NUMBERS) if rng.random() < 0.7 else rng.randrange(-(1 << 63), 1 << 63)


def random_fields(rng, code, value):
    """Both fields of an instruction that makes this value."""
    if code not in (CONSTANT, COEFFICIENT):
        return rng.randrange(value), any_number(rng) if code in OF_ONE_FIELD else rng.randrange(value)
    number = rng.choice((LARGEST, -LARGEST, 0, -1, rng.randrange(-LARGEST, LARGEST + 1)))
    room = LARGEST - abs(number)
    return number, any_number(rng) if code == CONSTANT else rng.choice((0, room, rng.randrange(room + 1)))


def random_lists(rng, instructions):
    """Lists that are accepted; a field that the code does not have is any number."""
    inputs, scale = rng.choice((0, 1, 2, 5, 15, 16)), rng.randrange(31)
    codes = range(len(NAMES) if scale <= MOST_SCALE_OF_A_RECIPROCAL else RECIPROCAL)
    program = []
    for value in range(inputs, inputs + instructions):
        code = rng.choice(codes) if value else rng.choice((CONSTANT, COEFFICIENT))
        program.append((code, *random_fields(rng, code, value)))
    outputs = [rng.randrange(inputs + instructions) for _ in range(rng.choice((1, 1, 2, 3, 15, 16)))]
    return lists(scale, inputs, program, outputs)


def some_lists(rng, i):
    return random_lists(rng, rng.choice((1, 2, 3, 7, 20)) if i % LARGE_EVERY else rng.choice((100, 511, 512)))


def resized(rng, given):
    """One list of the instructions, or each of them, with another length."""
    length = len(given[CODES])
    size = rng.choice((0, abs(length - 1), length + 1, 513))
    for part in rng.choice(((CODES,), (FIRSTS,), (SECONDS,), (CODES, FIRSTS, SECONDS))):
        given = put(given, part, ((given[part] or (0,)) * (size + 1))[:size])
    return given


def misfilled(rng, given, what):
    """One number of a list that is not permitted, or only just is; lists with no place for it stay."""
    places = len(given[OUTPUTS]) if what == "output" else min(map(len, given[CODES:OUTPUTS]))
    if not places:
        return given
    index = rng.randrange(places)
    if what == "code":
        return put(given, CODES, rng.choice((-1, 7, 7, 8, any_number(rng))), index)
    if what in ("reciprocal", "over 16"):
        given = put(given, SCALE, rng.choice((17, 30))) if what == "over 16" else given
        return put(given, CODES, RECIPROCAL, index)
    if what == "constant":
        return put(put(given, CODES, CONSTANT, index), FIRSTS, rng.choice((-LARGEST - 1, LARGEST + 1, any_number(rng))), index)
    if what == "coefficient":
        given = put(put(given, CODES, COEFFICIENT, index), FIRSTS, rng.choice((*CENTRES, any_number(rng))), index)
        return put(given, SECONDS, rng.choice((*MARGINS, any_number(rng))), index)
    value = given[HAS_INPUTS] + (len(given[CODES]) if what == "output" else index)
    number = rng.choice((-1, value - 1, value, value + 1, value + 1024, any_number(rng)))
    part = {"first": FIRSTS, "second": SECONDS, "output": OUTPUTS}[what]
    return put(given, part, max(-(1 << 63), min((1 << 63) - 1, number)), index)


def spoilt(rng, given, what):
    """The lists with one thing wrong."""
    if what in ("scale", "inputs"):
        return put(given, SCALE if what == "scale" else HAS_INPUTS, rng.choice((-1, 17, 31, any_number(rng))))
    if what == "lists":
        return resized(rng, given)
    if what == "outputs":
        return put(given, OUTPUTS, ((given[OUTPUTS] or (0,)) * 17)[: rng.choice((0, 17))])
    return misfilled(rng, given, what)


def room_for(rng, given, enough):
    size = len(packed(*given))
    return size + rng.choice((0, 0, 1, 9)) if enough else rng.randrange(size)


def wrong_pairs(rng):
    """Two wrong things at once: the refusal is that of the field that is written first, and 10 only after all of them."""
    for pair in product(WRONGS, repeat=2):
        for _ in range(PAIRS_EACH):
            given = random_lists(rng, rng.choice((1, 2, 3, 8)))
            room = room_for(rng, given, "room" not in pair)
            for what in pair:
                given = given if what == "room" else spoilt(rng, given, what)
            yield Pack(given, room)


def random_packs(rng):
    for i in range(RANDOM_LISTS):
        given = some_lists(rng, i)
        yield Pack(given, room_for(rng, given, i % 5))


def whole_files(rng, count):
    """Formulas that are accepted."""
    yield from (longest(), longest_exact(), longest_divided())
    for i in range(count):
        yield (small_run if i % LARGE_EVERY else large_run)(rng, 1)[0]


def needed(data):
    """The lengths of the lent lists that just have room; for bytes that are no formula, any."""
    try:
        _, _, l, n = formula(data)[0]
    except Refused:
        return 7, 8, 9, 10
    return l, l, l, n


def lengths_near():
    """Every length of each lent list around what a formula needs, alone and together."""
    small = packed(*lists(4, 2, [(4, 0, 1), (0, -5, 0), (1, 2, 0), (2, 3, 4), (3, 5, 0), (5, -7, 3)], [7, 0, 2]))
    divided = packed(*lists(16, 1, [(6, 0, 0), (4, 0, 1), (6, 2, 0)], [3, 1]))
    for data in (small, divided, longest(), longest_exact(), longest_divided()):
        for number, length in product(range(4), (*range(20), 511, 512, 513, 1024)):
            yield Unpack(data, tuple(length if i == number else enough for i, enough in enumerate(needed(data))))
        for more in product((-1, 0, 1), repeat=4):
            yield Unpack(data, tuple(map(sum, zip(needed(data), more))))


def read_files(rng):
    """Each random file whole and damaged, into lists that have room and into lists that are too short."""
    for data in whole_files(rng, RANDOM_FILES):
        for some in (data, rng.choice((damaged, misfielded))(rng, data)):
            enough = needed(some)
            yield Unpack(some, roomy(rng, enough))
            yield Unpack(some, short(rng, tuple(max(1, length) for length in enough)))


def all_packs(rng):
    for given in (*headers(), *list_lengths(), *fields(), *coefficients(), *reciprocals(), *in_order()):
        yield Pack(given, rng.choice((0, 40, ENOUGH)))
        yield Pack(given, ENOUGH)
    yield from rooms()
    yield from wrong_pairs(rng)
    yield from random_packs(rng)


def all_unpacks(rng):
    yield from lengths_near()
    for data in (*all_cuts(), *islice(all_checks(), 0, None, CHECKED_EVERY)):
        yield Unpack(data, roomy(rng, needed(data)))
    yield from read_files(rng)


def all_cases(seed=1):
    rng = random.Random(seed)
    yield from all_packs(rng)
    yield from all_unpacks(rng)


def round_trips(seed=2):
    """Lists to be packed and read back; files to be read back and packed again."""
    rng = random.Random(seed)
    return [some_lists(rng, i) for i in range(ROUND_TRIPS)], list(whole_files(rng, ROUND_TRIPS))
