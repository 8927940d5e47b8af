"""packing.py DRIVER-COMMAND...: packs and reads back all cases through the driver and compares every reply, every byte of every buffer and
every place of every lent list with the second packer; then both round trips."""

import sys
from collections import Counter

import packer
import packing_cases
import packing_frames as frames
import reader
from checks import longest, longest_divided, longest_exact
from comparison import Comparison
from figures import EXAMPLE, QUOTIENT, WEIGHT
from met_dividing import at_scale_zero, of_bytes

REFUSALS = {frames.Pack: (0, 3, 4, 5, 6, 7, 10, 16), frames.Unpack: (0, 1, 2, 3, 4, 5, 6, 7, 8, 10, 16)}
# At a scale that reciprocals are not for: what comes behind a 16 (0 for nothing), and what before it.
REQUIRED = {
    *(f"pack: 16 before {number}" for number in (0, 5, 6, 7, 10)),
    *(f"pack: {number} before 16" for number in (3, 4, 5, 6, 7)),
    *(f"unpack: 16 before {number}" for number in (0, 1, 5, 6, 7, 8, 10)),
    *(f"unpack: {number} before 16" for number in range(1, 8)),
    *(f"unpack: 16 before its operand's {words}" for words in ("1", "1, right behind the code", "6")),
}
# What documents say of lists: document 01's example, the README's formula, a coefficient, a reciprocal, the longest ones, an output that
# can name nothing, coefficients out of reach or with a margin below 0, and reciprocals at scales that they are for and that they are not.
FIGURES = (
    ((4, 2, (4, 2), (0, 2), (1, 0), (3,)), (0, EXAMPLE)),
    ((4, 3, (0, 3, 4, 2), (4, 1, 0, 5), (0, 3, 4, 2), (6,)), (0, bytes.fromhex("02418081000000008c0100e000022014020180"))),
    ((4, 1, (5, 4), (2, 0), (1, 1), (2, 1)), (0, WEIGHT)),
    ((16, 2, (6, 4), (1, 0), (-5, 2), (3, 2)), (0, QUOTIENT)),
    (packer.lists_of(longest()), (0, longest())),
    (packer.lists_of(longest_exact()), (0, longest_exact())),
    (packer.lists_of(longest_divided()), (0, longest_divided())),
    ((0, 0, (), (), (), (0,)), (6, b"")),
    ((0, 0, (5,), (packer.LARGEST,), (1,), (0,)), (7, b"")),
    ((0, 0, (5,), (5,), (-1,), (0,)), (7, b"")),
    ((0, 0, (5,), (-(1 << 31),), (0,), (0,)), (7, b"")),
    # Version 1 in 7 bits, scale 16, one input, one instruction, one output: 03008021; then 110, operand 0, output 1, one bit of padding.
    ((16, 1, (6,), (0,), (0,), (1,)), (0, bytes.fromhex("03008021c00002"))),
    ((16, 1, (6,), (1,), (0,), (1,)), (6, b"")),
    ((17, 1, (6,), (0,), (0,), (1,)), (16, b"")),
    ((17, 1, (6,), (1,), (0,), (1,)), (16, b"")),
    ((17, 1, (7,), (0,), (0,), (1,)), (5, b"")),
    ((31, 1, (6,), (0,), (0,), (1,)), (3, b"")),
)


class Packing(Comparison):
    form = frames
    second = "second packer"

    def __init__(self, command):
        super().__init__(command)
        self.trips = 0
        self.refusals = {kind: Counter() for kind in REFUSALS}

    @staticmethod
    def shown(case):
        if isinstance(case, frames.Unpack):
            return f"unpack: {case.data.hex()}\n  lengths of the lent lists {case.lengths}"
        scale, inputs, *lists = case.lists
        named = "".join(f"\n  {name} {list(numbers)}" for name, numbers in zip(frames.LISTS, lists))
        return f"pack: scale {scale}, inputs {inputs}, a buffer of {case.room}{named}"

    def packer_itself(self):
        """The second packer on the documents' figures, and beside the packer of the other tests, which tests nothing."""
        for lists, want in FIGURES:
            room = len(want[1])
            self.judge(packer.pack(lists, room) == want, frames.Pack(lists, room), "  the second packer differs from the documents")
        for lists in packing_cases.round_trips()[0]:
            scale, inputs, *rows, outputs = lists
            program = [(code, *fields[: 1 if code in packer.OF_ONE_FIELD else 2]) for code, *fields in zip(*rows)]
            same = packer.packed(*lists) == reader.pack(scale, inputs, program, outputs)
            self.judge(same, frames.Pack(lists, 0), "  the second packer and the other tests' one differ")

    def compared(self, case, reply):
        """The reply, none where it is not as it should be."""
        want = frames.wanted(case)
        same = self.agrees(case, want, reply)
        self.refusals[type(case)][want.refusal] += 1
        self.met |= met(case, want.refusal)
        return reply if same else None

    def round_trips(self):
        """What the driver packed it reads back to the same lists; what it read back it packs to the same bytes."""
        lists, files = packing_cases.round_trips()
        there = self.chunk([frames.Pack(given, len(packer.packed(*given))) for given in lists])
        trips = [(given, frames.bytes_in(reply)) for given, reply in zip(lists, there) if reply]
        back = [frames.Unpack(data, packing_cases.needed(data)) for _, data in trips]
        for (given, _), case, reply in zip(trips, back, self.chunk(back)):
            self.trip(reply and frames.lists_in(case, reply) == without_missing_fields(given), case)

        there = [frames.Unpack(data, packing_cases.needed(data)) for data in files]
        trips = [(case.data, frames.lists_in(case, reply)) for case, reply in zip(there, self.chunk(there)) if reply]
        back = [frames.Pack(given, len(data)) for data, given in trips]
        for (data, _), case, reply in zip(trips, back, self.chunk(back)):
            self.trip(reply and frames.bytes_in(reply) == data, case)

    def trip(self, good, case):
        self.judge(good, case, "  a round trip ends elsewhere")
        self.trips += 1

    def sanity(self):
        """Whether the cases meet each refusal."""
        for kind, counts in self.refusals.items():
            print(f"{kind.__name__.lower()}: " + ", ".join(f"{number}: {counts[number]}" for number in REFUSALS[kind]))
            missing = [number for number in REFUSALS[kind] if not counts[number]]
            self.expect(not missing, f"{kind.__name__.lower()}: refusals that no case meets: {missing}")
        self.meets(REQUIRED)
        print(f"cases {sum(sum(counts.values()) for counts in self.refusals.values())}, round trips {self.trips}")


def met(case, refusal):
    """What a 16 comes before: what the same has at a scale that reciprocals are for; and what comes before a 16."""
    if isinstance(case, frames.Unpack):
        words = of_bytes(case.data, refusal) if refusal in REFUSALS[frames.Unpack][1:] else ()
        later = [packer.unpack(at_scale_zero(case.data), case.lengths)[0]] if refusal == 16 else []
        return {f"unpack: {some}" for some in (*words, *(f"16 before {number}" for number in later))}
    scale, _, codes, *_ = case.lists
    if refusal == 16:
        return {f"pack: 16 before {packer.pack((0, *case.lists[1:]), case.room)[0]}"}
    return {f"pack: {refusal} before 16"} if scale > reader.MOST_SCALE_OF_A_RECIPROCAL and packer.RECIPROCAL in codes else set()


def without_missing_fields(lists):
    """A second field that the code does not have is read back as 0."""
    scale, inputs, codes, firsts, seconds, outputs = lists
    seconds = tuple(0 if code in packer.OF_ONE_FIELD else second for code, second in zip(codes, seconds))
    return scale, inputs, codes, firsts, seconds, outputs


def main(command):
    comparison = Packing(command)
    comparison.packer_itself()
    comparison.stream(packing_cases.all_cases())
    comparison.round_trips()
    comparison.sanity()
    return comparison.ended()


if __name__ == "__main__":
    sys.exit(main(sys.argv[1:]))
