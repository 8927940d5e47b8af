"""compare.py DRIVER-COMMAND...: runs all cases through the driver and compares every reply and every place of every lent list with the
second evaluator; then tries demands 2 and 3 on what was accepted."""

import random
import struct
import sys
from collections import Counter

import cases
import checks
import demands
import frames
import met
import met_wholes
import reader
from comparison import Comparison
from evaluator import formula
from figures import figures

SHARE_OF_ADMISSIONS = 0.5
LEAST_SHARE_MULTIPLIED = 0.4
LEAST_SHARE_DOUBTFUL = 0.2
LEAST_SHARE_DIVIDED = 0.1
LEAST_TRIED = {"demand 2 towards 0": 2000, "demand 3 with a reciprocal": 2000, "demand 3 with a whole factor": 2000}
LONGEST = 4248
LONGEST_EXACT = 2264
LONGEST_DIVIDED = 856


class Runs(Comparison):
    form = frames

    def __init__(self, command):
        super().__init__(command)
        self.rng = random.Random(2)
        self.multiplied = self.doubtful = self.divided = 0
        self.refusals = {job: Counter() for job in frames.JOBS}
        self.tried = Counter()

    @staticmethod
    def shown(case):
        return f"{case.job}: {case.data.hex()}\n  readings {case.readings}\n  lengths of the lent lists {case.lengths}"

    def figures(self):
        """The second evaluator itself on the documents' figures."""
        for case, *said in figures():
            want = frames.wanted(case)
            self.judge([want.refusal, want.place, want.outputs] == said, case, f"  the documents have {said}")

    def reader_itself(self):
        """The second reader itself on what the documents say of a header, and the length of the longest formulas."""
        for data, want in checks.figures():
            self.judge(header(data) == want, frames.Case("check", data), f"  the documents have {want}")
        lengths = len(checks.longest()), len(checks.longest_exact()), len(checks.longest_divided())
        self.expect(lengths == (LONGEST, LONGEST_EXACT, LONGEST_DIVIDED), "the longest formula has another length")

    def chunk(self, some):
        """Compares some cases, and a plain and a ball case inside the domain of each admission that is picked."""
        wanted = [frames.wanted(case) for case in some]
        admissions = [i for i, want in enumerate(wanted) if some[i].job == "admit" and not want.refusal and self.picked()]
        inside = [case for i in admissions for case in demands.covered(self.rng, some[i])]
        whole = some + inside
        replies = self.replies(whole)
        if replies is None:
            return
        for case, want, reply in zip(whole, wanted + [frames.wanted(case) for case in inside], replies):
            self.compare(case, want, reply)
        for number, i in enumerate(admissions):
            plain = len(some) + 2 * number
            self.demand_3(*((whole[j], replies[j]) for j in (i, plain, plain + 1)))

    def picked(self):
        return self.rng.random() < SHARE_OF_ADMISSIONS

    def compare(self, case, want, reply):
        same = self.agrees(case, want, reply)
        self.refusals[case.job][want.refusal] += 1
        if case.job != "check":
            self.met.update(met.met(case, want))
        if want.refusal == 0:
            names = {name for name, *_ in formula(case.data)[1]}
            self.multiplied += "multiply" in names
            self.doubtful += "coefficient" in names
            self.divided += "reciprocal" in names
            if same and case.job in ("ball", "records"):
                self.demand_2(case, want.values)

    def demand_2(self, case, values):
        for turn, enclosed in enumerate(demands.encloses(self.rng, case.data, list(zip(*case.readings)), values)):
            self.judge(enclosed, case, "  demand 2 fails")
            self.tried["demand 2 towards 0" if turn else "demand 2"] += 1

    def demand_3(self, admission, plain, ball):
        balls = list(zip(*ball[0].readings))
        answers = answer(*plain), answer(*ball)
        data, admitted = admission[0].data, answer(*admission)[1]
        kept = demands.keeps(self.rng, data, balls, admitted, *answers)
        self.judge(kept, admission[0], "  demand 3 fails on the balls", f"    {balls}")
        self.tried["demand 3"] += 1
        self.tried["demand 3 with a reciprocal"] += demands.divides(formula(data)[1])
        self.tried["demand 3 with a whole factor"] += met_wholes.multiplies_whole(data, admitted)

    def sanity(self):
        """Whether the cases are what they are meant to be: each refusal in each job, at each of its places, and enough that is accepted."""
        for job, counts in self.refusals.items():
            print(f"{job}: " + ", ".join(f"{number}: {counts[number]}" for number in sorted(counts)))
        self.expect(all(self.refusals["check"][number] for number in (*range(9), 16)), "check: a refusal that no case meets")
        self.meets(met.required())
        total = sum(sum(counts.values()) for counts in self.refusals.values())
        runs = total - sum(self.refusals["check"].values())
        tried = ", ".join(f"{name} {count}" for name, count in sorted(self.tried.items()))
        accepted = f"with a multiplication {self.multiplied}, with a coefficient {self.doubtful}, with a reciprocal {self.divided}"
        print(f"cases {total}, accepted {accepted}; {tried}")
        self.expect(self.multiplied > LEAST_SHARE_MULTIPLIED * runs, "too few cases are accepted and multiply")
        self.expect(self.doubtful > LEAST_SHARE_DOUBTFUL * runs, "too few cases are accepted and have a coefficient")
        self.expect(self.divided > LEAST_SHARE_DIVIDED * runs, "too few cases are accepted and divide")
        for name, least in LEAST_TRIED.items():
            self.expect(self.tried[name] > least, f"too seldom tried: {name}")


def header(data):
    """0 and F, m, l and n, or the refusal."""
    try:
        return 0, *formula(data)[0]
    except reader.Refused as refusal:
        return (refusal.number,)


def answer(case, reply):
    """The refusal and the values that a run's reply holds."""
    refusal = struct.unpack_from("<I", reply)[0]
    if refusal:
        return refusal, []
    parts, start = [], frames.HEAD
    _, m, l, _ = formula(case.data)[0]
    for part, length in enumerate(case.lengths[: frames.PARTS[case.job]]):
        parts.append(struct.unpack_from(f"<{m + l}{'Q' if part else 'q'}", reply, start))
        start += 8 * length
    return refusal, list(zip(*parts))


def main(command):
    comparison = Runs(command)
    comparison.figures()
    comparison.reader_itself()
    comparison.stream(cases.all_cases())
    comparison.sanity()
    return comparison.ended()


if __name__ == "__main__":
    sys.exit(main(sys.argv[1:]))
