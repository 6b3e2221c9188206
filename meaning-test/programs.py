"""The Linux kernel's own tests, run by antt with the step of the definition.

Of the tests that exec-test/test-bpf runs these are taken that the definition is about: arithmetic, moves, swaps and jumps, beside which a
program has wide loads of constants and EXIT only. Those that are run in pieces there are so here, in some of their pieces, which are drawn by
lot, always the same: all would take antt an hour. In the interpreter of exec-test/ each program has to give the kernel's result too.

The programs are written into a copy of crate ebpf_meaning that has its definitions and no other proof (target/meaning-test/), each in a
theorem of its own, and `rt` checks the copy: antt reads each slot from its bytes, takes the step, and compares the low half of r0 at EXIT
with the kernel's result. None of the programs runs a slot twice, so that each has as many steps as slots. Registers that nothing has set
hold what they hold in exec-test/test-bpf. Nothing of that is kept in the repository, since the kernel's programs have a licence of their own.
"""

import collections
import os
import random
import re
import shutil
import struct
import subprocess
import sys

from kernel_tests import BY_REGISTERS, IN_PIECES, RUBBISH, STACK_TOP, interpreted, kind, reason, tests
from machine import ROOT

HERE = os.path.dirname(os.path.abspath(__file__))
PROJECT = os.path.join(ROOT, "target", "meaning-test")
CRATE = "ebpf_meaning"
RUN = (BY_REGISTERS, BY_REGISTERS + IN_PIECES)
PIECES, LONGEST = 8, 512  # of a test, and bytes of a piece
ROW = 32  # slots
THEOREM = "test-"  # and its number

rng = random.Random(9669)


def fail(text):
    sys.exit("meaning-test: " + text)


def progress(text):
    print("meaning-test: " + text, file=sys.stderr, flush=True)


# ---- which programs ---------------------------------------------------------------------------------------------------------------------


def programs_of(test):
    """All of a test, or some pieces of it."""
    if kind(test) == BY_REGISTERS:
        return test.pieces()
    pieces = test.pieces(LONGEST)
    return rng.sample(pieces, min(PIECES, len(pieces)))


def chosen(source):
    """The programs; prints a line for each kind of test that is run, and for each reason to leave one out."""
    about = {test: reason(test) or kind(test) for test in tests(source)}
    for what, count in collections.Counter(about.values()).items():
        print("%-9s %4d, %s" % ("run:" if what in RUN else "left out:", count, what))
    return [piece for test, what in about.items() if what in RUN for piece in programs_of(test)]


# ---- the copy of the crate --------------------------------------------------------------------------------------------------------------


def listed(values):
    return "(%s)" % " ∷ ".join([*values, "[]"])


def hexadecimal(numbers):
    return ["%#x" % number for number in numbers]


def filled(name, **words):
    """A file of this folder, with these words in their places."""
    with open(os.path.join(HERE, name)) as file:
        text = file.read()
    for word, value in words.items():
        text = text.replace("@%s@" % word.upper(), str(value))
    return text


def theorem(number, piece, result):
    slots = hexadecimal(slot for slot, in struct.iter_unpack("<Q", piece.program))
    rows = (listed(slots[at:at + ROW]) for at in range(0, len(slots), ROW))
    words = {"steps": len(slots), "memory": "%#x" % piece.data(), "program": listed(rows), "result": result}
    return filled("KernelTests.one", theorem=THEOREM + str(number), **words)


def theorems(pieces, results):
    start = listed([*hexadecimal(RUBBISH[:1]), "memory", *hexadecimal([*RUBBISH[2:], STACK_TOP])])
    head = filled("KernelTests.head", count=len(pieces), row=ROW, start=start)
    return head + "".join(theorem(number, *each) for number, each in enumerate(zip(pieces, results)))


def uses():
    """The lines of crates.txt that are about the crate and those that it uses, by name."""
    with open(os.path.join(ROOT, "crates.txt")) as file:
        lines = dict(line.rstrip("\n").split(":") for line in file if not line.startswith("#"))
    return {name: lines[name] for name in [*lines[CRATE].split(), CRATE]}


def copy():
    """The crate without its proofs, and those that it uses, as a project of their own."""
    crates = uses()
    for name in crates:
        to = os.path.join(PROJECT, "crates", name)
        shutil.rmtree(to, ignore_errors=True)
        shutil.copytree(os.path.join(ROOT, "crates", name), to, ignore=shutil.ignore_patterns("must-fail", "out", *["proofs"] * (name == CRATE)))
    with open(os.path.join(PROJECT, "crates.txt"), "w") as file:
        file.writelines("%s:%s\n" % line for line in crates.items())


def refused(pieces, results):
    """The numbers of the theorems that `rt` refuses, in the copy."""
    proofs = os.path.join(PROJECT, "crates", CRATE, "proofs")
    os.makedirs(proofs, exist_ok=True)
    for name, text in (("Lib", "pub mod KernelTests\n"), ("KernelTests", theorems(pieces, results))):
        with open(os.path.join(proofs, name + ".antt"), "w") as file:
            file.write(text)
    done = subprocess.run(["rt", "check"], cwd=os.path.join(PROJECT, "crates", CRATE), stdout=subprocess.PIPE, stderr=subprocess.STDOUT, text=True)
    errors = re.findall(r"^\S*: error: `(.*?)`", done.stdout, re.M)
    is_refused = done.returncode == 1 and re.search("^logic=not-proved$", done.stdout, re.M)
    if done.returncode and not (is_refused and errors and all(name.startswith(THEOREM) for name in errors)):
        fail("rt has no verdict on the tests in %s:\n%s" % (PROJECT, done.stdout))
    return [int(name[len(THEOREM):]) for name in errors]


# ---- the comparison ---------------------------------------------------------------------------------------------------------------------


def compared(source):
    """How many programs were run, and how many have not the kernel's result. A wrong result has to be refused."""
    pieces = chosen(source)
    results = [piece.result for piece in pieces]
    slots = sum(len(piece.program) // 8 for piece in pieces)
    print("%d programs of %d slots" % (len(pieces), slots), flush=True)
    copy()
    progress("a wrong result, which antt has to refuse; the crates below are proved first")
    if refused(pieces[:1], [results[0] ^ 1]) != [0]:
        fail("antt takes a wrong result")
    progress("antt runs the programs, which takes a minute or two")
    by_antt, different = set(refused(pieces, results)), 0
    for number, piece in enumerate(pieces):
        wrong = [engine for engine, differs in (("antt", number in by_antt), ("the interpreter", interpreted(piece) != piece.result)) if differs]
        if wrong:
            print("DIFFERENT: %s, program %d: another result in %s" % (piece.test.name, number, " and ".join(wrong)))
        different += bool(wrong)
    return len(pieces), different
