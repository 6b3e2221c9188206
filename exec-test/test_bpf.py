"""Runs the Linux kernel's own tests of its translators, the table in its lib/test_bpf.c, in the pages of every mode. `exec-test/test-bpf`
starts it, and names the file. Which tests are run, and in which programs, kernel_tests.py says.

r1 points to the memory that the test asks for. In standard mode the page and the interpreter of RFC 9669 have to give the result that the
table has for the test. As rbpf the page has to give what the interpreter gives with the differences that standard mode mends; some of these
results have to be others than the table's, or the tests would not see the mode. A page with compact constants is besides held to the one
without them, in all of r0 (compact.py).

Prints how many tests are left out, and why, and how many are run; the last line is 'N passed, M failed', a test in a mode being one, and the
status is 1 where one failed.
"""

import collections
import itertools
import os
import sys

HERE = os.path.dirname(os.path.abspath(__file__))
sys.path.insert(0, HERE)

import compact
from interpreter import M32
from kernel_tests import interpreted, kind, reason, tests
from loader import pages
from machine import fail
from modes import MODES, RBPF, STANDARD

BATCH = 256  # programs that the loader gets at once


def in_pages(mode, pieces):
    """The page of each piece."""
    for memory, same in itertools.groupby(pieces, lambda piece: piece.memory):
        while batch := list(itertools.islice(same, BATCH)):
            yield from pages(mode, batch, [bytes(memory)])


def low_half(verdict):
    return verdict if isinstance(verdict, str) else verdict & M32


def judged(mode, pieces, ours, theirs):
    """The tests that fail, and those whose result is not the table's, each with what was seen."""
    failed, others = {}, {}
    for piece, page, plain, meant in zip(pieces, ours[mode], ours[mode.plain], theirs[mode.plain]):
        seen = low_half(page.verdict())
        said = "%s in the page, %s in the interpreter, %s in the table" % (seen, meant, piece.result)
        if seen != piece.result:
            others[piece.test] = said
        if seen != meant or seen != piece.result and mode.plain is STANDARD:
            failed[piece.test] = said
        for problem in compact.problems(piece, page, plain) if mode.is_compact() else ():
            failed[piece.test] = problem
    return failed, others


def say(chosen, mode, failed, others):
    for test, said in failed.items():
        print("FAILED %s, %s: %s" % (mode.name, test.name, said))
    for test, said in others.items() if mode is RBPF else ():
        print("%s, %s: %s" % (mode.name, test.name, said))
    print("%s: %d tests have the kernel's result, %d have another" % (mode.name, len(chosen) - len(others), len(others)), flush=True)


def main():
    given = list(tests(sys.argv[1]))
    reasons = {test: reason(test) for test in given}
    chosen = [test for test in given if not reasons[test]]
    for why, count in collections.Counter(filter(None, reasons.values())).items():
        print("left out: %4d, %s" % (count, why))
    for what, count in collections.Counter(map(kind, chosen)).items():
        print("run:      %4d, %s" % (count, what))
    pieces = [piece for test in chosen for piece in test.pieces()]
    slots = sum(len(piece.program) // 8 for piece in pieces)
    print("%d tests, %d run, in %d programs of %d slots" % (len(given), len(chosen), len(pieces), slots), flush=True)
    ours, theirs, failures = {}, {}, 0
    for mode in MODES:
        ours[mode] = list(in_pages(mode, pieces))
        if not mode.is_compact():
            theirs[mode] = [interpreted(piece, mode.differences(STANDARD.mended)) for piece in pieces]
        failed, others = judged(mode, pieces, ours, theirs)
        say(chosen, mode, failed, others)
        if mode.is_compact():
            print("%s: %s" % (mode.name, compact.said(zip(ours[mode], ours[mode.plain]))), flush=True)
        if mode is RBPF and not others:
            fail("as rbpf every test has the kernel's result: these tests do not see the mode")
        failures += len(failed)
    print("%d passed, %d failed" % (len(MODES) * len(chosen) - failures, failures))
    sys.exit(1 if failures else 0)


main()
