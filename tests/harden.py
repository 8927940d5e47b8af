"""harden.py DRIVER: the C doors under valgrind on a share of the cases and on random bytes, numbers, lists, texts; nothing may be found."""

import random
import subprocess
import sys
from itertools import islice

import cases
import decimal_cases
import decimal_frames
import doubles_cases
import doubles_frames
import explaining_cases
import explaining_frames
import frames
import packing_cases
import packing_frames
import text_cases
import text_frames
from driver import parted

EVERY = 4
RANDOM = 10000
RANDOM_PACKING = 4000
RANDOM_DOUBLES = 4000
RANDOM_TEXTS = 4000
RANDOM_DECIMALS = 4000
RANDOM_EXPLAINING = 4000
CHECKER = ["valgrind", "--quiet", "--error-exitcode=9", "--leak-check=full"]


def random_bytes(rng):
    data = bytes(rng.randrange(256) for _ in range(rng.choice((0, 1, 3, 4, 5, 11, 40, 300))))
    if rng.randrange(2):
        data = bytes((rng.choice((2, 3)), rng.randrange(256), rng.randrange(4), rng.randrange(256))) + data
    return data


def random_case(rng, jobs=frames.JOBS):
    """Any bytes, any readings, lists of any length."""
    job = rng.choice(jobs)
    parts = frames.PARTS[job]
    data = random_bytes(rng)
    sizes = [rng.randrange(20)] * parts if job == "records" else [rng.randrange(20) for _ in range(parts)]
    readings = tuple(tuple(rng.randrange(-(1 << 63), 1 << 63) for _ in range(size)) for size in sizes)
    lengths = tuple(rng.choice((0, 1, 2, 17, 530)) for _ in range(2 * parts))
    return frames.Case(job, data, readings, lengths)


def random_number(rng):
    return rng.randrange(7) if rng.random() < 0.9 else packing_cases.any_number(rng)


def random_packing(rng):
    """Any bytes into lists of any length; any numbers, many of them small, in lists of any length, often of the same."""
    if rng.randrange(2):
        return packing_frames.Unpack(random_bytes(rng), tuple(rng.choice((0, 1, 2, 17, 513)) for _ in range(4)))
    size = rng.choice((0, 1, 2, 9, 513))
    sizes = [size if rng.random() < 0.9 else rng.randrange(20) for _ in range(3)]
    lists = [tuple(random_number(rng) for _ in range(length)) for length in (*sizes, rng.choice((0, 1, 2, 16, 17)))]
    return packing_frames.Pack((random_number(rng), random_number(rng), *lists), rng.choice((0, 5, 6, 40, 4248)))


def random_text(rng):
    """Any bytes, most of them such as texts have, into a buffer of any length."""
    size = rng.choice((0, 1, 2, 5, 9, 40, 300))
    text = bytes(rng.choice(b"aaab11.+-*(()") if rng.random() < 0.95 else rng.randrange(256) for _ in range(size))
    scale = rng.choice((0, 4, 30)) if rng.random() < 0.9 else packing_cases.any_number(rng)
    inputs = rng.choice((0, 1, 2, 16)) if rng.random() < 0.9 else packing_cases.any_number(rng)
    return text_frames.Text(scale, inputs, text, rng.choice((0, 5, 6, 40, 4248)))


def random_decimal(rng):
    """Any ball, printed into lists of any length; any bytes, most of them such as numbers have, read as a number and as a margin."""
    scale = rng.choice((0, 4, 20, 30)) if rng.random() < 0.9 else packing_cases.any_number(rng)
    places = tuple(rng.choice((0, 1, 1, 1, 2, 9)) for _ in range(2))
    if rng.randrange(2):
        texts = (bytes(rng.choice(b"01234567890123456789.-") for _ in range(rng.choice((0, 1, 2, 3, 5, 9, 11, 300)))) for _ in range(2))
        return decimal_frames.In(scale, *(text if rng.random() < 0.9 else text + random_bytes(rng) for text in texts), places)
    decimals = rng.randrange(10) if rng.random() < 0.9 else packing_cases.any_number(rng)
    centre = rng.randrange(-(1 << 31), 1 << 31) >> rng.randrange(32) if rng.random() < 0.9 else rng.randrange(-(1 << 63), 1 << 63)
    margin = rng.randrange(1 << 31) >> rng.randrange(32) if rng.random() < 0.9 else rng.getrandbits(64)
    return decimal_frames.Out(scale, decimals, centre, margin, places, rng.randrange(60))


def random_domain(rng):
    """Any bytes, any numbers in lists of any length."""
    some = random_case(rng, ("admit",))
    return explaining_frames.Case(some.data, some.readings)


def survived(driver, form, some):
    """Whether the driver gives the replies that it should to these cases, and the checker finds nothing."""
    asked = b"".join(map(form.asked, some))
    ended = subprocess.run([*CHECKER, driver], input=asked, stdout=subprocess.PIPE, stderr=subprocess.PIPE, check=False)
    replies = parted(ended.stdout, some, form)
    right = replies is not None and all(map(form.right, some, replies))
    sys.stdout.write(ended.stderr.decode(errors="replace"))
    words = "as they should be" if right else "not as they should be"
    print(f"{len(some)} cases under valgrind: status {ended.returncode}, replies {words}")
    return ended.returncode == 0 and not ended.stderr and right


def main(driver):
    rng = random.Random(3)
    runs = list(islice(cases.all_cases(), 0, None, EVERY)) + [random_case(rng) for _ in range(RANDOM)]
    packing = list(islice(packing_cases.all_cases(), 0, None, EVERY)) + [random_packing(rng) for _ in range(RANDOM_PACKING)]
    doubles = list(islice(doubles_cases.all_cases(), 0, None, EVERY)) + [random_case(rng, ("ball",)) for _ in range(RANDOM_DOUBLES)]
    read = list(islice(text_cases.all_cases(), 0, None, EVERY)) + [random_text(rng) for _ in range(RANDOM_TEXTS)]
    decimals = list(islice(decimal_cases.all_cases(), 0, None, EVERY)) + [random_decimal(rng) for _ in range(RANDOM_DECIMALS)]
    explained = list(islice(explaining_cases.all_cases(), 0, None, EVERY)) + [random_domain(rng) for _ in range(RANDOM_EXPLAINING)]
    parts = (
        *((frames, runs), (packing_frames, packing), (doubles_frames, doubles), (text_frames, read), (decimal_frames, decimals)),
        (explaining_frames, explained),
    )
    good = [survived(driver, *some) for some in parts]
    print(f"{good.count(True)} passed, {good.count(False)} failed")
    return 0 if all(good) else 1


if __name__ == "__main__":
    sys.exit(main(sys.argv[1]))
