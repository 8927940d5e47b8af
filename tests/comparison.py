"""The frame of a comparison: cases go through the driver in chunks, what differs is printed with its whole input, and the last line counts."""

from collections import Counter
from itertools import islice

import driver

DIFFERENCES_SHOWN = 5
MISSING_SHOWN = 20


class Comparison:
    """Each comparison has of its own `form`, the module that tells the frames of its cases, `compared`, which judges one reply, and `shown`,
    which tells the whole input."""

    form = None
    second = "second evaluator"
    chunk_size = 4000

    def __init__(self, command):
        self.command = command
        self.passed = self.failed = 0
        self.refusals, self.met = Counter(), set()

    def count(self, good):
        self.passed += bool(good)
        self.failed += not good

    def judge(self, good, *found):
        """Of what was found, words stand as they are, and a case is shown as its whole input, only where it is printed."""
        self.count(good)
        if not good and self.failed <= DIFFERENCES_SHOWN:
            print(*(words if isinstance(words, str) else self.shown(words) for words in found), sep="\n", flush=True)

    def expect(self, good, words):
        """What the cases as a whole must be; its words are printed whatever else failed."""
        self.count(good)
        if not good:
            print(words)

    def meets(self, required):
        missing = sorted(required - self.met)
        self.expect(not missing, f"{len(missing)} things that no case meets: " + "; ".join(missing[:MISSING_SHOWN]))

    def stream(self, cases):
        while some := list(islice(cases, self.chunk_size)):
            self.chunk(some)

    def chunk(self, some):
        """What comparing each of them gives; none where the driver ended early."""
        replies = self.replies(some)
        return [self.compared(case, reply) for case, reply in zip(some, replies)] if replies else [None] * len(some)

    def replies(self, some):
        replies = driver.replies(self.command, some, self.form)
        if replies is None:
            self.judge(False, driver.first_unanswered(self.command, some, self.form), "  the driver ended early")
        return replies

    def agrees(self, case, want, reply):
        """Whether the reply is the wanted one."""
        same = want.reply == reply
        words = () if same else (f"  {self.second}:", self.form.told(case, want.reply), "  driver:", self.form.told(case, reply))
        self.judge(same, case, *words)
        return same

    def ended(self):
        print(f"{self.passed} passed, {self.failed} failed")
        return 1 if self.failed else 0
