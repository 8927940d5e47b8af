"""doubles.py DRIVER-COMMAND...: runs all cases through the driver and reads the bits of every double as sign, exponent and fraction: they must
mean the very fraction that the second evaluator gives. Every other place of every lent list is compared bit for bit."""

import random
import struct
import sys
from collections import Counter
from fractions import Fraction

import doubles_cases
import doubles_frames as frames
import driver
import met_doubles
import reader
from comparison import Comparison
from evaluator import M
from frames import Case

LEAST_OUTPUTS = 20000
LEAST_OF_A_SCALE = 500
RANDOM_BITS = 2000
# By hand: a scale, a ball, and the bits of its two doubles. 9/16 is 1.125 times 2^-1: 1023 - 1 is 3fe, and 0.125 is the fraction 2.
FIGURES = (
    (4, (9, 9), (0x3FE2000000000000, 0x3FE2000000000000)),
    (4, (-9, 0), (0xBFE2000000000000, 0)),
    (0, (1, 0), (0x3FF0000000000000, 0)),
    (0, (-1, 2), (0xBFF0000000000000, 0x4000000000000000)),
    (0, (0, 3), (0, 0x4008000000000000)),
    # 31 ones: the first is not written, 30 stand at the top of the fraction.
    (0, (M, 0), (0x41DFFFFFFFC00000, 0)),
    (0, (0, M), (0, 0x41DFFFFFFFC00000)),
    (0, (-M, 0), (0xC1DFFFFFFFC00000, 0)),
    (30, (M, 0), (0x3FFFFFFFFFC00000, 0)),
    (30, (-1, 1), (0xBE10000000000000, 0x3E10000000000000)),
    (30, (1 << 30, 3), (0x3FF0000000000000, 0x3E28000000000000)),
    (30, (0, 0), (0, 0)),
    # 9810 is 1.197509765625 times 2^13, and 200 is 1.5625 times 2^7.
    (16, (9810, 200), (0x3FC3290000000000, 0x3F69000000000000)),
)
# Bits that no output may have, and ends of what bits mean: the least number, the largest, an infinity, a NaN, minus zero.
MEANINGS = (
    (0x0000000000000001, Fraction(1, 1 << 1074)),
    (0x8010000000000000, Fraction(-1, 1 << 1022)),
    (0x7FEFFFFFFFFFFFFF, Fraction((1 << 53) - 1) * (1 << 971)),
    (0x7FF0000000000000, None),
    (0xFFF8000000000001, None),
    (0x8000000000000000, Fraction(0)),
)


class Doubles(Comparison):
    form = frames

    def __init__(self, command):
        super().__init__(command)
        self.outputs = Counter()

    @staticmethod
    def shown(case):
        return f"doubles: {case.data.hex()}\n  readings {case.readings}\n  lengths of the lent lists {case.lengths}"

    def reading_itself(self):
        """The reading of bits by hand-made figures, and beside Python's own of doubles."""
        for scale, ball, both in FIGURES:
            same = all(frames.is_exactly(bits, Fraction(number, 1 << scale)) for number, bits in zip(ball, both))
            self.judge(same, f"scale {scale}, {ball}: the bits mean another number")
        for bits, want in MEANINGS:
            self.judge(frames.meaning(bits) == want, f"{bits:016x} means {frames.meaning(bits)}")
        rng = random.Random(6)
        for bits in (rng.getrandbits(64) for _ in range(RANDOM_BITS)):
            number = struct.unpack("<d", struct.pack("<Q", bits))[0]
            want = Fraction(number) if abs(number) < float("inf") else None
            self.judge(frames.meaning(bits) == want, f"{bits:016x} means {frames.meaning(bits)}")
        self.judge(not frames.is_exactly(frames.MINUS_ZERO, Fraction(0)), "minus zero is taken for plus zero")

    def figures(self):
        """The driver gives these very bits."""
        some = [Case("ball", reader.pack(scale, 1, [], [0]), ([c], [r]), (1, 1, 1, 1)) for scale, (c, r), _ in FIGURES]
        replies = driver.replies(self.command, some, frames) or [b""] * len(some)
        for case, (_, _, both), reply in zip(some, FIGURES, replies):
            found = [bits for places in frames.doubles_in(case, reply) for bits in places]
            self.judge(found == list(both), case, "  the bits are " + " and ".join(f"{bits:016x}" for bits in found))

    def compared(self, case, reply):
        want = frames.wanted(case)
        same = reply[: len(want.head)] == want.head and not any(frames.wrong_places(case, want, reply))
        self.judge(same, case, *(() if same else (frames.told(case, want, reply),)))
        self.refusals[want.refusal] += 1
        if want.pairs:
            self.outputs[reader.formula(case.data)[0][0]] += len(want.pairs)
        self.met.update(met_doubles.met_by(case, want))

    def sanity(self):
        """Whether the cases are what they are meant to be."""
        print("doubles: " + ", ".join(f"{number}: {self.refusals[number]}" for number in sorted(self.refusals)))
        total, least = sum(self.outputs.values()), min(self.outputs[scale] for scale in doubles_cases.SCALES)
        print(f"cases {sum(self.refusals.values())}, outputs {total}, at each scale {least} or more")
        self.expect(total >= LEAST_OUTPUTS and least >= LEAST_OF_A_SCALE, "too few outputs")
        self.meets(met_doubles.required())


def main(command):
    comparison = Doubles(command)
    comparison.reading_itself()
    comparison.figures()
    comparison.stream(doubles_cases.all_cases())
    comparison.sanity()
    return comparison.ended()


if __name__ == "__main__":
    sys.exit(main(sys.argv[1:]))
