"""explaining.py DRIVER-COMMAND...: explains all cases through the driver and compares every reply with the second evaluator, which tries every
t; holds that one to figures by hand; and of every refused domain that t is admitted up to the largest and none above it, and that no stray or
margin of the outputs grows as t falls."""

import sys

import explaining_cases
import explaining_frames as frames
import met_explaining
from comparison import Comparison
from evaluator import ALL_PARTS
from explaining_figures import FIGURES

LEAST_CASES, LEAST_TRIED = 20000, 6000


class Explaining(Comparison):
    form = frames

    def __init__(self, command):
        super().__init__(command)
        self.tried = 0

    @staticmethod
    def shown(case):
        return "explain: {}\n  middles {}\n  strays {}\n  margins {}".format(case.data.hex(), *case.readings)

    def figures(self):
        """The second evaluator on what was worked out by hand."""
        for case, said in FIGURES:
            found = frames.wanted(case)[:5]
            self.judge(found == said, case, f"  by hand {said}; the second evaluator says {found}")

    def compared(self, case, reply):
        want = frames.wanted(case)
        self.agrees(case, want, reply)
        self.refusals[f"refused {want.refusal}" if want.refusal else frames.ANSWERS[want.answer]] += 1
        self.met.update(met_explaining.met_by(case, want))
        if want.admissions:
            self.tried += 1
            self.falls(case, want)

    def falls(self, case, want):
        """The domain is admitted up to the largest t and refused at each greater one; what is smaller has no larger answer."""
        least_refused = want.parts + 1 if want.answer == frames.ADMITTED_TO else 0
        wrong = [t for t in range(ALL_PARTS + 1) if (want.admissions[t][0] == 0) != (t < least_refused)]
        self.judge(not wrong, case, f"  admitted to {least_refused - 1}, and not so at {wrong}")
        admitted = [outputs for _, _, outputs in want.admissions[:least_refused]]
        grown = [t for t, both in enumerate(zip(admitted, admitted[1:])) if not no_larger(*both)]
        self.judge(not grown, case, f"  a stray or margin of the outputs grows from t + 1 to t: {grown}")

    def sanity(self):
        """Whether the cases are what they are meant to be."""
        print(", ".join(f"{words}: {self.refusals[words]}" for words in sorted(self.refusals)))
        cases = sum(self.refusals.values())
        print(f"cases {cases}, tried at every t {self.tried}")
        self.expect(cases >= LEAST_CASES and self.tried >= LEAST_TRIED, "too few cases")
        self.meets(met_explaining.required())


def no_larger(some, others):
    """Of each output the same middle, and a stray and a margin that are at most the other's. What is the same object is the same domain."""
    return some is others or all(a[0] == b[0] and a[1] <= b[1] and a[2] <= b[2] for a, b in zip(some, others))


def main(command):
    comparison = Explaining(command)
    comparison.figures()
    comparison.stream(explaining_cases.all_cases())
    comparison.sanity()
    return comparison.ended()


if __name__ == "__main__":
    sys.exit(main(sys.argv[1:]))
