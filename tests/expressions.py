"""expressions.py DRIVER-COMMAND...: packs all texts through the driver and compares every reply and every byte of every buffer with the
second packer of texts; holds that one's two ways of reading a text, figures by hand and Python's own reading against each other; then runs
some of the formulas: exact arithmetic on the text lies inside what the ball run gives."""

import random
import sys
from fractions import Fraction

import driver
import evaluator
import frames
import met_texts
import packer
import reader
import text_cases
import text_frames
import text_search
import text_table
import texts
from comparison import Comparison
from demands import fraction_inside, small_enough
from grammar import Misread
from text_figures import ACCEPTED, README_BYTES, REFUSED

# Up to this size all texts are also read by the search, up to the other one some.
SEARCHED, SEARCHED_AT_TIMES, SEARCHED_EVERY = 8, 200, 10
# Accepted texts, none longer than this, whose value is also worked out by Python, and every so many run.
MOST_WORKED_OUT, RUN_EVERY = 300, 5
LEAST_RUNS, LEAST_WITH_COEFFICIENTS = 500, 150
# The sizes of readings at which a run is tried: in reach of most formulas, and not.
READING_SIZES = (3, 40, 3000, 1 << 20)


class Texts(Comparison):
    form = text_frames
    second = "second packer"
    chunk_size = 20000

    def __init__(self, command):
        super().__init__(command)
        self.searched = self.runs = self.with_coefficients = 0
        self.accepted = []
        self.rng = random.Random(4)

    @staticmethod
    def shown(case):
        return f"text: {case.text!r}\n  scale {case.scale}, inputs {case.inputs}, a buffer of {case.room}"

    def figures(self):
        """The second packer of texts on what was worked out by hand."""
        for (scale, inputs, text), rows, output in ACCEPTED:
            found = texts.rows_of(scale, inputs, text.encode())
            self.judge(found == (rows, output), f"{text}: by hand {rows}, {output}; the second packer says {found}")
        for (scale, inputs, text), want in REFUSED:
            found = texts.pack(scale, inputs, text.encode(), text_cases.ENOUGH)
            self.judge(found == (*want, b""), f"{text}: by hand {want}; the second packer says {found}")
        self.judge(texts.pack(4, 3, b"a*(b-0.25)+c", len(README_BYTES)) == (0, 0, README_BYTES), "the README's formula has other bytes")

    def compared(self, case, reply):
        want = text_frames.wanted(case)
        same = self.agrees(case, want, reply)
        self.refusals[want.refusal] += 1
        self.met.update(met_texts.met(case, want))
        often = len(case.text) <= SEARCHED_AT_TIMES and sum(self.refusals.values()) % SEARCHED_EVERY == 0
        if case.inputs in text_search.SEARCHES and (len(case.text) <= SEARCHED or often):
            self.searched += 1
            by_search, by_table = (read_by(read, case) for read in (text_search.read, text_table.read))
            self.judge(by_search == by_table, case, f"  the search says {by_search}", f"  the table says {by_table}")
        if same and want.refusal == 0 and len(case.text) <= MOST_WORKED_OUT:
            self.worked_out(case, want.data)

    def worked_out(self, case, data):
        """Exact arithmetic on the text by Python is the formula's, each coefficient being the number as written, inside its margin."""
        (scale, inputs, _, _), program, outputs = reader.formula(data)
        written = iter(texts.reading(case.text, inputs).numbers())
        constants = [(fields, next(written)) for name, *fields in program if name in ("constant", "coefficient")]
        inside = all(evaluator.contains(scale, *(*fields, 0)[:2], number) for fields, number in constants)
        numbers = iter([number for fields, number in constants if len(fields) == 2])
        readings = [Fraction(self.rng.randrange(-99, 100), self.rng.randrange(1, 20)) for _ in range(inputs)]
        exact = evaluator.exact(scale, program, readings, lambda *_: next(numbers))[outputs[0]]
        same = inside and exact == texts.exactly(case.text, readings)
        self.judge(same, case, f"  the formula's exact value is {exact}, numbers inside their margins: {inside}")
        if small_enough(inputs, program) and (program or len(self.accepted) < RUN_EVERY):
            self.accepted.append((case, data))

    def run_some(self):
        """The driver's ball run of some formulas that it packed: for numbers inside the readings, what the text says is inside."""
        chosen = [(case, data, self.ball_case(case, data)) for case, data in self.accepted[::RUN_EVERY]]
        replies = driver.replies(self.command, [run for _, _, run in chosen])
        if replies is None:
            self.judge(False, "the driver ended early in a ball run")
            return
        for (case, data, run), reply in zip(chosen, replies):
            want = frames.wanted(run)
            self.judge(want.reply == reply, case, f"  its ball run on {run.readings} is not as it should be")
            if want.refusal == 0:
                self.enclosed(case, data, run, want.outputs[0])

    def ball_case(self, case, data):
        size = self.rng.choice(READING_SIZES)
        _, inputs, instructions, _ = reader.formula(data)[0]
        centres = tuple(self.rng.randrange(-size, size + 1) for _ in range(inputs))
        margins = tuple(self.rng.choice((0, 1, self.rng.randrange(size + 1))) for _ in range(inputs))
        return frames.Case("ball", data, (centres, margins), (inputs + instructions, inputs + instructions, 1, 1))

    def enclosed(self, case, data, run, ball):
        fractions = [fraction_inside(self.rng, case.scale, *one) for one in zip(*run.readings)]
        value = texts.exactly(case.text, fractions)
        self.judge(evaluator.contains(case.scale, *ball, value), case, f"  on {fractions} it is {value}, outside the ball {ball}")
        self.runs += 1
        self.with_coefficients += packer.COEFFICIENT in packer.lists_of(data)[2]

    def sanity(self):
        """Whether the cases are what they are meant to be."""
        print("texts: " + ", ".join(f"{number}: {self.refusals[number]}" for number in sorted(self.refusals)))
        cases = sum(self.refusals.values())
        print(f"cases {cases}, read both ways {self.searched}, runs {self.runs}, with coefficients {self.with_coefficients}")
        self.expect(self.runs >= LEAST_RUNS and self.with_coefficients >= LEAST_WITH_COEFFICIENTS, "too few formulas were run")
        self.meets(met_texts.required())


def read_by(read, case):
    """The tree that one way of reading gives, or its refusal and place."""
    try:
        return read(case.text, case.inputs)
    except Misread as misread:
        return misread.refusal, misread.place


def main(command):
    comparison = Texts(command)
    comparison.figures()
    comparison.stream(text_cases.all_cases())
    comparison.run_some()
    comparison.sanity()
    return comparison.ended()


if __name__ == "__main__":
    sys.exit(main(sys.argv[1:]))
