"""The Linux kernel's own tests (kernel_tests.py) in `replay`, part of exec-test/replay.

Each program gets a tail in place of its EXITs that compares the low half of r0 with the table's result; the packet is the memory that the test
asks for. It has to be dropped, and with another result kept. Where there is room, all of r0 is compared with that of the reference too.
"""

import collections

from kernel_tests import LONGEST, kind, reason, tests
from reference import DROPPED, KEPT, check, fast, first_not_run
from replayed import Case, File
from slots import compared, compared_low
from traffic import capture, whole

PAGE = 131072
SHORT = 512 * 8  # bytes of a program on which both references are compared
NO_ROOM = "no room for one slot more"


def pieces_of(test):
    """The test's programs, each with room for three slots more, or for one."""
    return test.pieces(LONGEST - 24) or test.pieces(LONGEST - 8)


def why_not(test):
    """Why a test is left out; None for one that is run."""
    if reason(test):
        return reason(test)
    if first_not_run(test.program) is not None:
        return "calls and loads from classic BPF"
    return None if pieces_of(test) else NO_ROOM


def variants(piece, file):
    """(program, how it has to end)."""
    yield compared_low(piece.program, piece.result), DROPPED
    yield compared_low(piece.program, piece.result ^ 1), KEPT
    packets = file.read.packets
    result = fast().run(piece.program, packets, file.read.originals).results[0]
    if len(compared(piece.program, result)) <= LONGEST:
        yield compared(piece.program, result), DROPPED


class Runs:
    """The programs of the tests, and what the table says of each."""

    def __init__(self, chosen):
        self.chosen, self.files, self.meant, self.slots = chosen, {}, {}, 0

    def file(self, memory):
        if memory not in self.files:
            self.files[memory] = File(capture(whole([bytes(memory)])))
        return self.files[memory]

    def cases(self):
        for test in self.chosen:
            for piece in pieces_of(test):
                file = self.file(piece.memory)
                for program, end in variants(piece, file):
                    if len(program) <= SHORT:
                        check(program, file.read.packets)
                    self.slots += len(program) // 8
                    case = Case(test.name, program, file, PAGE)
                    self.meant[case] = end
                    yield case


def run(tally, source, every):
    """One in so many of the tests."""
    given = list(tests(source))[::every]
    reasons = {test: why_not(test) for test in given}
    chosen = [test for test in given if not reasons[test]]
    for why, count in collections.Counter(filter(None, reasons.values())).items():
        print("left out: %4d, %s" % (count, why))
    for what, count in collections.Counter(map(kind, chosen)).items():
        print("run:      %4d, %s" % (count, what))
    runs, count, others = Runs(chosen), 0, set()
    for case, answer, *_ in tally.held(runs.cases()):
        count += 1
        if answer.report.ends != [runs.meant.pop(case)]:
            others.add(case.name)
            tally.add(case.name, ["the model ends otherwise than the kernel's table says"])
    said = "%d tests run, in %d programs of %d slots; %d have another result than the kernel's"
    print(said % (len(chosen), count, runs.slots, len(others)), flush=True)
