"""decimals.py DRIVER-COMMAND...: prints and reads all cases through the driver and compares every reply and every place of every lent list
with the second printer and reader; holds that one to figures by hand, to a second way to the place of a misread byte and to what the request
promises; then reads what was printed, whose reading must hold the ball again."""

import random
import re
import sys
from collections import Counter
from fractions import Fraction

import decimal_cases
import decimal_frames as frames
import decimal_model
import met_decimals
from comparison import Comparison
from decimal_figures import NOT_PRINTED, NOT_READ, PRINTED, READ
from decimal_frames import In, Out
from decimal_model import BETWEEN, SCALES
from grammar import MOST_DIGITS

LEAST_CASES, LEAST_TRIPS = 50000, 10000
NUMBER = r"(?:0|[1-9][0-9]*)"


class Decimals(Comparison):
    form = frames
    second = "second printer and reader"
    chunk_size = 20000

    def __init__(self, command):
        super().__init__(command)
        self.refusals = {kind: Counter() for kind in (Out, In)}
        self.printed, self.trips = [], 0
        self.rng = random.Random(8)

    @staticmethod
    def shown(case):
        if isinstance(case, Out):
            ball = f"to decimal: {case.centre} give or take {case.margin}, scale {case.scale}, {case.decimals} decimals"
            return f"{ball}\n  lists of {case.places}, a buffer of {case.room}"
        return f"from decimal: {case.number!r} give or take {case.margin!r}, scale {case.scale}\n  lists of {case.places}"

    def figures(self):
        """The second printer and reader on what was worked out by hand."""
        wanted = [(Out(*ball), (0, 0, tuple(counts), text.encode())) for ball, (*counts, text) in PRINTED]
        wanted += [(Out(*ball), (refusal, 0, (), b"")) for ball, refusal in NOT_PRINTED]
        wanted += [(In(scale, *map(str.encode, texts)), (0, 0, reading, b"")) for (scale, *texts), reading in READ]
        wanted += [(In(scale, *map(str.encode, texts)), (*refused, (), b"")) for (scale, *texts), refused in NOT_READ]
        for case, want in wanted:
            found = frames.wanted(case)[:4]
            self.judge(found == want, case, f"  by hand {want}; the second printer and reader says {found}")

    def compared(self, case, reply):
        want = frames.wanted(case)
        same = self.agrees(case, want, reply)
        self.refusals[type(case)][want.refusal] += 1
        self.met.update(met_decimals.met(case, want))
        if isinstance(case, In):
            self.place_by_completing(case)
        if same and want.refusal == 0:
            (self.holds_printed if isinstance(case, Out) else self.holds_read)(case, want)

    def place_by_completing(self, case):
        for text, with_minus in ((case.number, True), (case.margin, False)):
            one, other = (way(text, with_minus) for way in (decimal_model.misread_at, decimal_model.misread_by_completing))
            self.judge(one == other, case, f"  {text[:20]!r}: misread at {one} by its shape, at {other} by completing it")

    def holds_printed(self, case, want):
        """Both ends of the ball, and so all that is between them, are within the margin, and not within one less; the centre is the nearest
        count; the text means these counts."""
        (centre, margin), tens = want.numbers, 10**case.decimals
        exactly = Fraction(case.centre * tens, 1 << case.scale)
        far = max(abs(end - centre) for end in ends(case.scale, case.centre, case.margin, tens))
        held = margin - 1 < far <= margin and centre - Fraction(1, 2) <= exactly < centre + Fraction(1, 2)
        self.judge(held, case, f"  {centre} and {margin}: the ends are up to {far} counts away, the centre is {exactly} counts")
        texts = want.text.decode().split(BETWEEN)
        point = rf"\.[0-9]{{{case.decimals}}}" if case.decimals else ""
        formed = re.fullmatch(f"-?{NUMBER}{point}", texts[0]) and re.fullmatch(f"{NUMBER}{point}", texts[1])
        meant = formed and [Fraction(text) * tens for text in texts] == [centre, margin] and texts[0].startswith("-") == (centre < 0)
        self.judge(meant, case, f"  {want.text!r} does not mean {centre} and {margin}")
        if formed and all(sum(map(str.isdigit, text)) <= MOST_DIGITS for text in texts):
            self.printed.append((case, [text.encode() for text in texts]))

    def holds_read(self, case, want):
        """Both ends of what was written are inside the reading."""
        number, margin = Fraction(case.number.decode()), Fraction(case.margin.decode())
        inside = all(within(case.scale, want.numbers, end) for end in (number - margin, number + margin))
        self.judge(inside, case, f"  what was written is not inside {want.numbers}")

    def round_trips(self):
        """What was printed is read, at its own scale or at another: the reading holds the ball, and the counts give or take theirs."""
        trips = [(out, In(self.rng.choice((out.scale, self.rng.choice(SCALES))), *texts)) for out, texts in self.printed]
        for start in range(0, len(trips), self.chunk_size):
            some = trips[start : start + self.chunk_size]
            replies = self.replies([case for _, case in some])
            for (out, case), reply in zip(some, replies or ()):
                self.trip(out, case, reply)

    def trip(self, out, case, reply):
        want = frames.wanted(case)
        same = self.agrees(case, want, reply)
        if same and want.refusal == 0:
            self.holds_read(case, want)
            inside = all(within(case.scale, want.numbers, end) for end in ends(out.scale, out.centre, out.margin))
            self.judge(inside, out, f"  printed as {case.number!r} and {case.margin!r}, read as {want.numbers} at scale {case.scale}")
            self.trips += 1

    def sanity(self):
        """Whether the cases are what they are meant to be."""
        for kind, counts in self.refusals.items():
            print(f"{kind.__name__.lower()}: " + ", ".join(f"{number}: {counts[number]}" for number in sorted(counts)))
        cases = sum(sum(counts.values()) for counts in self.refusals.values())
        print(f"cases {cases}, printed and read back {self.trips}")
        self.expect(cases >= LEAST_CASES and self.trips >= LEAST_TRIPS, "too few cases")
        self.meets(met_decimals.required())


def ends(scale, centre, margin, tens=1):
    """The ends of a ball in units, in counts of which there are `tens` in one."""
    return [Fraction((centre + side) * tens, 1 << scale) for side in (-margin, margin)]


def within(scale, ball, fraction):
    low, high = ends(scale, *ball)
    return low <= fraction <= high


def main(command):
    comparison = Decimals(command)
    comparison.figures()
    comparison.stream(decimal_cases.all_cases())
    comparison.round_trips()
    comparison.sanity()
    return comparison.ended()


if __name__ == "__main__":
    sys.exit(main(sys.argv[1:]))
