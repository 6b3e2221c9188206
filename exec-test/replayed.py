"""Asks the program `replay`, reads its report, and holds both to the reference (reference.py).

A Case is a filter and a capture; held() runs cases on the machine's processors and gives what is wrong with each. The program has a time for
each, and is killed behind it: a run that does not end is a failure like any other. What fails is kept in target/exec-test/failed/.
"""

import concurrent.futures
import functools
import itertools
import os
import re
import shutil
import subprocess
import tempfile

from machine import BUILT, EMULATOR
from reference import WORDS, Capture, answered
from slots import starts

SECONDS = 600 if EMULATOR else 60
SHOWN = 20  # failures
BATCH = 64  # cases that are held in memory at once
LINES = ("packets", *WORDS)
REFUSED = re.compile(r"refused (\d+) (\d+)")
ROW = re.compile(r"\s*(\d+)\s+(\d+)(?:\s+(.*))?")
FAILED = os.path.join(BUILT, "failed")


class File:
    """The bytes of a capture, and where they are in a file of their own."""

    def __init__(self, data, path=None):
        self.data, self.path = data, path

    @functools.cached_property
    def read(self):
        return Capture(self.data)


class Case:
    """A filter over a capture. `refusal` is the translator's, where it refuses the filter; `page` and `helpers` are what the program is told of.
    The capture comes through a pipe or as a file; `write` asks for what is kept."""

    def __init__(self, name, program, capture, page=None, helpers=(), refusal=None, pipe=False, write=False):
        self.name, self.program, self.page, self.helpers, self.refusal = name, program, page, helpers, refusal
        self.capture = capture if isinstance(capture, File) else File(capture)
        self.pipe, self.write = pipe, write

    def options(self):
        words = ["--page", str(self.page)] if self.page is not None else []
        for helper in self.helpers:
            words += ["--helper", str(helper)]
        return words

    def answer(self, wrong="nothing"):
        """What the reference says, or one that is wrong."""
        return answered(self.program, self.capture.data if wrong == "little-lengths" else self.capture.read, self.refusal, wrong)


# ---- what the program says ---------------------------------------------------------------------------------------------------------------


class Said:
    """The program's words, read. `problem` is what does not have the form that was asked for, or None."""

    def __init__(self, status, out, err, written):
        self.out, self.written, self.problem = out, written, None
        self.totals, self.rows, self.texts, self.refusal = None, [], {}, None
        if status not in (0, 1):
            self.problem = "it ends with status %d" % status
        self.read_refusal(err)
        if out:
            self.read_report(out.split("\n"))

    def read_refusal(self, err):
        lines = [line for line in err.split("\n") if line.strip()]
        refusals = [found for line in lines if (found := REFUSED.fullmatch(line))]
        if refusals:
            self.refusal = int(refusals[0][1]), int(refusals[0][2])
        if lines and (len(refusals) != 1 or len(lines) < 2):
            self.problem = "standard error has %d lines, %d of them a refusal's: %s" % (len(lines), len(refusals), err.strip()[:200])

    def read_report(self, lines):
        heads = [line.rpartition(" ") for line in lines[:len(LINES)]]
        if tuple(head for head, _, _ in heads) != LINES or not all(number.isdigit() for _, _, number in heads):
            self.problem = "the first lines are not those of a report: %s" % lines[:len(LINES)]
            return
        self.totals = [int(number) for _, _, number in heads]
        if lines[len(LINES):len(LINES) + 1] != [""]:
            self.problem = "no empty line follows the sums"
        for row in filter(None, map(ROW.fullmatch, lines[len(LINES) + 1:])):
            self.rows.append((int(row[1]), int(row[2])))
            self.texts[int(row[1])] = row[3] or ""


def command():
    """The words ahead of a filter and a capture."""
    return os.environ["REPLAY"].split("\n")


def asked(case, folder):
    """What the program says to a case. The folder is the case's own."""
    def path(name, data):
        place = os.path.join(folder, name)
        with open(place, "wb") as file:
            file.write(data)
        return place

    capture = "-" if case.pipe else case.capture.path or path("capture", case.capture.data)
    to = os.path.join(folder, "kept") if case.write else None
    words = [*command(), *case.options(), *(["--write", to] if to else []), path("filter", case.program), capture]
    done = subprocess.run(words, input=case.capture.data if case.pipe else None, stdin=None if case.pipe else subprocess.DEVNULL,
                          stdout=subprocess.PIPE, stderr=subprocess.PIPE, timeout=SECONDS)
    written = None
    if to and os.path.exists(to):
        with open(to, "rb") as file:
            written = file.read()
    return Said(done.returncode, done.stdout.decode(errors="replace"), done.stderr.decode(errors="replace"), written)


# ---- the comparison ----------------------------------------------------------------------------------------------------------------------


def in_words(refusal):
    return "refused %d %d" % refusal if refusal else "a report"


def rows_of(program, report):
    """The rows that the table has to have: one for each slot that starts an instruction."""
    return [(slot, report.ran[slot]) for slot, is_start in enumerate(starts(program)) if is_start]


def problems(case, answer, said):
    """What is wrong with what the program said."""
    if said.problem:
        yield said.problem
    if said.refusal != answer.refusal:
        yield "it answers %s, and %s is expected" % (in_words(said.refusal), in_words(answer.refusal))
        return
    if answer.report is None:
        if said.out:
            yield "standard output is not empty"
        return
    if said.totals != answer.report.totals():
        yield "the sums are %s, and %s are expected" % (said.totals, answer.report.totals())
    yield from unlike(said.rows, rows_of(case.program, answer.report))
    if case.write and said.written != answer.kept():
        yield "the %s bytes that it writes are not the %d that are kept" % (said.written and len(said.written), len(answer.kept()))


def unlike(rows, wanted):
    if rows != wanted:
        at = next(n for n in range(max(len(rows), len(wanted))) if rows[n:n + 1] != wanted[n:n + 1])
        yield "row %d of %d says (slot, times) %s, and %s is expected, of %d" % (at, len(rows), rows[at:at + 1], wanted[at:at + 1], len(wanted))


def tried(case, folder):
    with tempfile.TemporaryDirectory(dir=folder) as own:
        try:
            return asked(case, own)
        except subprocess.TimeoutExpired:
            return "it does not end within %d seconds" % SECONDS


def keep(case, number):
    """A failing case, as files."""
    folder = os.path.join(FAILED, str(number))
    os.makedirs(folder, exist_ok=True)
    for name, data in (("filter", case.program), ("capture", case.capture.data)):
        with open(os.path.join(folder, name), "wb") as file:
            file.write(data)
    return os.path.relpath(folder, os.path.dirname(os.path.dirname(BUILT)))


class Tally:
    """How many passed and failed, in a part and in all; the first failures are shown."""

    def __init__(self, wrong="nothing"):
        self.passed, self.failed, self.wrong, self.kept = 0, 0, wrong, 0
        shutil.rmtree(FAILED, ignore_errors=True)

    def add(self, name, wrong, case=None):
        """One thing that was looked at, and what is wrong with it."""
        wrong = list(wrong)
        self.passed += not wrong
        self.failed += bool(wrong)
        if wrong and self.failed <= SHOWN:
            place = ""
            if case:
                self.kept += 1
                place = " (%s)" % keep(case, self.kept)
            print("FAILED %s: %s%s" % (name, "; ".join(wrong), place), flush=True)

    def held(self, cases):
        """Runs cases, each of which counts for one; gives (case, answer, what the program said, whether that is right) of each."""
        cases = iter(cases)
        with tempfile.TemporaryDirectory() as folder, concurrent.futures.ThreadPoolExecutor(os.cpu_count()) as pool:
            while batch := list(itertools.islice(cases, BATCH)):
                futures = [pool.submit(tried, case, folder) for case in batch]
                for case, future in zip(batch, futures):
                    answer, said = case.answer(self.wrong), future.result()
                    wrong = [said] if isinstance(said, str) else list(problems(case, answer, said))
                    self.add(case.name, wrong, case)
                    yield case, answer, said, not wrong
