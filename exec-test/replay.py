"""Holds the program `replay` to a reference that is written from the request's words (reference.py), and its verdicts to those of pages, of
tcpdump and of the kernel's own tests. `exec-test/replay` starts it, and has its arguments.

The parts: `filters` (replay_filters.py), `captures` (replay_captures.py), `programs` (replay_programs.py), `kernel` (replay_kernel.py),
`refusals` (replay_refusals.py). Ahead of them every wrong reference has to be told from the right one by the programs and captures of these
parts. The last line is 'N passed, M failed', a run of the program or a comparison of its verdicts being one, and the status is 1 where one
failed.
"""

import os
import sys

HERE = os.path.dirname(os.path.abspath(__file__))
sys.path[:0] = [HERE, os.path.join(HERE, "..", "examples", "filters")]

import replay_captures
import replay_filters
import replay_kernel
import replay_programs
import replay_refusals
from machine import fail
from reference import WRONG
from replayed import Tally, rows_of

PACKETS, DAMAGED, BY_LOT, MEGABYTES = 100000, 10000, 3000, 4500
PARTS = ("filters", "captures", "programs", "kernel", "refusals")
USAGE = "exec-test/replay [--small] [--break WRONG] [--kernel FILE] [PART ..], of %s" % ", ".join(PARTS)


def differs(case, wrong):
    """Whether a wrong reference says something else of a case."""
    right, other = case.answer(), case.answer(wrong)
    if right.refusal != other.refusal or right.report is None:
        return right.refusal != other.refusal
    return right.report.totals() != other.report.totals() or rows_of(case.program, right.report) != rows_of(case.program, other.report)


def see_every_wrong():
    """Each wrong reference is seen by some case."""
    cases = [*replay_programs.made(), *replay_programs.at_limit()]
    chosen = list(replay_captures.programs().values())
    cases += [replay_captures.Case(name, chosen[n % len(chosen)], data) for n, (name, data) in enumerate(replay_captures.made_damages())]
    for wrong in WRONG[1:]:
        count = sum(differs(case, wrong) for case in cases)
        print("wrong reference %-18s seen by %3d of %d cases" % (wrong, count, len(cases)), flush=True)
        if not count:
            fail("the wrong reference '%s' is not seen: these cases tell nothing" % wrong)


class Arguments:
    def __init__(self, words):
        self.small, self.wrong, self.kernel, self.parts = False, "nothing", None, []
        words = list(words)
        while words:
            word = words.pop(0)
            if word == "--small":
                self.small = True
            elif word == "--break" and words and words[0] in WRONG:
                self.wrong = words.pop(0)
            elif word == "--kernel" and words:
                self.kernel = words.pop(0)
            elif word in PARTS:
                self.parts.append(word)
            else:
                fail("usage: %s; wrong references are %s" % (USAGE, ", ".join(WRONG[1:])))

    def every(self):
        """Where small is asked for, a hundredth is done of what there is much of."""
        return 100 if self.small else 1


def main():
    arguments = Arguments(sys.argv[1:])
    tally, every = Tally(arguments.wrong), arguments.every()
    see_every_wrong()
    parts = {"filters": lambda: replay_filters.run(tally, PACKETS // every),
             "captures": lambda: replay_captures.run(tally, DAMAGED // every, MEGABYTES // every),
             "programs": lambda: replay_programs.run(tally, BY_LOT // every, every),
             "kernel": lambda: replay_kernel.run(tally, arguments.kernel, every), "refusals": lambda: replay_refusals.run(tally)}
    for name in arguments.parts or PARTS:
        print("\n%s:" % name, flush=True)
        parts[name]()
    print("%d passed, %d failed" % (tally.passed, tally.failed))
    sys.exit(1 if tally.failed else 0)


if __name__ == "__main__":
    main()
