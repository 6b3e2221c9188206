"""Holds maps to listings: a page's map has to have a line for each of its pieces in the listing that has bytes, the prologue, slots and the
epilogue, with the piece's place and size, and no other. `exec-test/maps` starts it, and has its arguments.

The map's text is read here, by nothing that wrote it: `START SIZE NAME` and a newline, one space between, lower case, no leading zeros. In the
listing a piece is a line with its place, and its size is that of the bytes of the instructions below it.

Asked for are the map and the listing of each filter of examples/filters in every mode (the programs `map` and `listing`), and those of the
stored cases (`maps` and `texts`), on bases low and high. The highest base on which a page has a map is one at which it ends at 2^64 - 1: one
more is refused with 15. What the listing says is refused has to be refused so. A base that is no number gets a sentence, and no map.

Ahead of all that, every damage is done to one map, and has to be seen. The last line is 'N passed, M failed', a map or a refusal being one,
and the status is 1 where one failed."""

import os
import re
import subprocess
import sys

HERE = os.path.dirname(os.path.abspath(__file__))
sys.path[:0] = [HERE, os.path.join(HERE, "..", "examples", "filters")]

from helpers import ADDRESSES
from machine import ROOT, fail
from manifest import filters
from modes import MODES

SHOWN = 20
END = 2**64 - 1  # the highest end of a page
MAPPED = 0x7F1234567000  # as mmap has it
BASES = ("0", "0x1", "401000", "0x%x" % MAPPED, "8000000000000000", "0xffffffffffff0000")  # with 0x and without it, in turn
CORPUS_BASES = (0, MAPPED, END - 300)  # on the last of them longer pages are refused
NO_BASES = ("", "0x", "slot", "-1", "1g", "10000000000000000")
STANDARD, COMPACT = 4, 8  # flags of a mode
TOO_HIGH = "refused 15 0"

LINE = re.compile(r"(0|[1-9a-f][0-9a-f]*) (0|[1-9a-f][0-9a-f]*) (prologue|epilogue|slot_(?:0|[1-9][0-9]*))")
PIECE = re.compile(r"(prologue|epilogue|slot (\d+)) +at 0x([0-9a-f]+)(?: |$)")
INSTRUCTION = re.compile(r" {4}0x[0-9a-f]+ +((?:[0-9a-f]{2} )+)")
TOTALS = re.compile(r"slots: \d+, bytes: (\d+) of \d+, jumps: ")
REFUSED = re.compile(r"refused \d+ \d+")
SENTENCE = re.compile(r"(?:slot (\d+): )?.* \(refusal (\d+)\)")


# ---- what is read ----------------------------------------------------------------------------------------------------------------------


class Listing:
    """Of an accepted page its `pieces`, (name, place, size) of those that have bytes, and its `length`; of another `refusal`, as in
    'refused 13 7'."""

    def __init__(self, lines):
        self.pieces, self.length, self.refusal = [], None, None
        for line in lines:
            self.read(line)
        self.pieces = [tuple(piece) for piece in self.pieces if piece[2]]

    def read(self, line):
        if instruction := INSTRUCTION.match(line):
            self.pieces[-1][2] += len(instruction[1].split())
        elif piece := PIECE.match(line):
            name = "slot_" + piece[2] if piece[2] else piece[1]
            self.pieces.append([name, int(piece[3], 16), 0])
        elif totals := TOTALS.match(line):
            self.length = int(totals[1])
        elif REFUSED.fullmatch(line):
            self.refusal = line

    def answer(self, base):
        """What a map on the base has to be: its lines, or the refusal."""
        if self.length is None:
            return self.refusal or "no listing"
        if base + self.length > END:
            return TOO_HIGH
        return [(base + place, size, name) for name, place, size in self.pieces]


def lines_of(text):
    """The lines of a map's text, or what it is in words."""
    if REFUSED.fullmatch(text.removesuffix("\n")):
        return text.removesuffix("\n")
    if not text.endswith("\n"):
        return "its last line is not ended"
    read = [LINE.fullmatch(line) for line in text[:-1].split("\n")]
    if None in read:
        return "'%s' is no line of a map" % text.split("\n")[read.index(None)]
    return [(int(start, 16), int(size, 16), name) for start, size, name in (line.groups() for line in read)]


def problem(text, listing, base):
    """What is wrong with a map, or None."""
    wanted, read = listing.answer(base), lines_of(text)
    if read == wanted:
        return None
    if isinstance(read, str) or isinstance(wanted, str):
        return "it should be %s, and is %s" % tuple(said if isinstance(said, str) else "a map of %d lines" % len(said) for said in (wanted, read))
    at = next(n for n in range(max(len(read), len(wanted))) if read[n:n + 1] != wanted[n:n + 1])
    return "line %d should be %s, and is %s" % (at, wanted[at:at + 1], read[at:at + 1])


# ---- damage ----------------------------------------------------------------------------------------------------------------------------


def on_line(number, change):
    """A damage to one line, by its three words."""
    def damaged(text):
        lines = text.splitlines()
        lines[number] = change(*lines[number].split(" "))
        return "\n".join(lines) + "\n"

    return damaged


def in_hex(name):
    return "slot_%x" % int(name[5:]) if name.startswith("slot_") else name


def swapped(text):
    first, second, *behind = text.splitlines(keepends=True)
    return "".join([second, first, *behind])


def with_empty_slot(text):
    """A slot behind the last that has no bytes, in front of the epilogue."""
    *ahead, last = text.splitlines(keepends=True)
    return "".join([*ahead, "%s 0 slot_%d\n" % (last.split(" ")[0], len(ahead)), last])


DAMAGES = {
    "short": on_line(0, lambda start, size, name: "%s %x %s" % (start, int(size, 16) - 1, name)),
    "moved": on_line(-1, lambda start, size, name: "%x %s %s" % (int(start, 16) + 1, size, name)),
    "zero": on_line(1, lambda start, size, name: "0%s %s %s" % (start, size, name)),
    "capital": on_line(0, lambda start, size, name: "%s %s %s" % (start.upper(), size, name)),
    "prefix": on_line(0, lambda start, size, name: "0x%s %s %s" % (start, size, name)),
    "hex": on_line(-2, lambda start, size, name: "%s %s %s" % (start, size, in_hex(name))),
    "spaces": on_line(0, lambda start, size, name: "%s  %s %s" % (start, size, name)),
    "empty": with_empty_slot,
    "swapped": swapped,
    "no-epilogue": lambda text: "".join(text.splitlines(keepends=True)[:-1]),
    "no-end": lambda text: text[:-1],
}


def see_every_damage(text, listing, base):
    for name, damage in DAMAGES.items():
        if damage(text) == text or not problem(damage(text), listing, base):
            fail("the damage '%s' is not seen: this script tells nothing" % name)
    print("%d damages, each seen" % len(DAMAGES))


# ---- what is asked ---------------------------------------------------------------------------------------------------------------------


def asked(*words, given=b""):
    done = subprocess.run([os.path.join(ROOT, "run"), *words], input=given, stdout=subprocess.PIPE, stderr=subprocess.PIPE)
    return done.returncode, done.stdout.decode(), done.stderr.decode()


def build():
    """What a program says later is then its own."""
    for program in (["listing"], ["map", "0"], ["texts"], ["maps", "0"]):
        subprocess.run([os.path.join(ROOT, "run"), *program], stdin=subprocess.DEVNULL, stdout=subprocess.DEVNULL)


def options(f, mode):
    """What `listing` and `map` are asked for a filter with."""
    chosen = ["--page", str(f.page)] + ["--mbuff"] * (f.form == "mbuff")
    chosen += ["--standard"] * bool(mode.flags & STANDARD) + ["--compact"] * bool(mode.flags & COMPACT)
    for helper in f.helpers:
        chosen += ["--helper", "%d=0x%x" % (helper, ADDRESSES[helper])]
    return chosen


def listed(f, mode):
    _, shown, said = asked("listing", *options(f, mode), given=f.bytecode())
    reason = SENTENCE.search(said)
    return Listing([*shown.splitlines(), *(["refused %s %s" % (reason[2], reason[1] or 0)] if reason else [])])


def mapped(f, mode, base):
    """The map, or the refusal as it stands on standard error."""
    status, text, said = asked("map", base, *options(f, mode), given=f.bytecode())
    if bool(status) != bool(said) or bool(text) == bool(said):
        fail("./run map gives the status %d, a map of %d bytes and '%s'" % (status, len(text), said.strip()))
    return text or said


def by_case(program, *words):
    """The lines of each case that the program prints for the stored cases, by its number."""
    with open(os.path.join(ROOT, "crates", "program_answers", "stdin"), "rb") as cases:
        output = subprocess.Popen([os.path.join(ROOT, "run"), program, *words], stdin=cases, stdout=subprocess.PIPE, text=True)
    number, lines = None, []
    for line in output.stdout:
        if line.startswith("case "):
            if number is not None:
                yield number, lines
            number, lines = int(line[5:]), []
        else:
            lines.append(line.rstrip("\n"))
    if output.wait() or number is None:
        fail("the program %s failed, as it said above" % program)
    yield number, lines


# ---- what is held to what --------------------------------------------------------------------------------------------------------------


class Held:
    def __init__(self, damage):
        self.damage, self.passed, self.failed, self.lines = damage, 0, 0, 0

    def add(self, what, text, listing, base):
        is_damaged = self.damage and not REFUSED.match(text)
        wrong = problem(self.damage(text) if is_damaged else text, listing, base)
        self.lines += text.count("\n")
        self.passed += not wrong
        self.failed += bool(wrong)
        if wrong and self.failed <= SHOWN:
            print("FAILED %s on base %x: %s" % (what, base, wrong))


def hold_filters(held):
    for number, f in enumerate(filters()):
        failed = held.failed
        for mode in MODES:
            listing, base = listed(f, mode), BASES[number % len(BASES)]
            name = "%s, %s" % (f.name, mode.name)
            held.add(name, mapped(f, mode, base), listing, int(base, 16))
            if listing.length is not None and mode is MODES[0]:
                for base in (END - listing.length, END - listing.length + 1):
                    held.add(name, mapped(f, mode, "%x" % base), listing, base)
        print("%s: %s" % (f.name, "held" if held.failed == failed else "FAILED"), file=sys.stderr, flush=True)


def hold_corpus(held):
    listings = {number: Listing(lines) for number, lines in by_case("texts")}
    for base in CORPUS_BASES:
        numbers = set()
        for number, lines in by_case("maps", "%x" % base):
            numbers.add(number)
            held.add("case %d" % number, "".join(line + "\n" for line in lines), listings[number], base)
        if numbers != set(listings):
            fail("%d cases have a listing, and %d a map" % (len(listings), len(numbers)))
    print("%d stored cases, %d accepted" % (len(listings), sum(listing.length is not None for listing in listings.values())))


def refuse_what_is_no_base():
    for word in NO_BASES:
        status, text, said = asked("map", word, given=filters()[0].bytecode())
        if not status or text or not said or REFUSED.match(said):
            fail("./run map '%s' gives the status %d, a map of %d bytes and '%s'" % (word, status, len(text), said.strip()))
    print("%d words that are no base, each with a sentence" % len(NO_BASES))


def damage_asked_for():
    if len(sys.argv) == 1:
        return None
    if len(sys.argv) != 3 or sys.argv[1] != "--break" or sys.argv[2] not in DAMAGES:
        fail("usage: exec-test/maps [--break DAMAGE], of %s" % ", ".join(DAMAGES))
    return DAMAGES[sys.argv[2]]


def main():
    held, first = Held(damage_asked_for()), filters()[0]
    build()
    see_every_damage(mapped(first, MODES[0], "%x" % MAPPED), listed(first, MODES[0]), MAPPED)
    refuse_what_is_no_base()
    hold_filters(held)
    hold_corpus(held)
    print("%d lines of maps and refusals" % held.lines)
    print("%d passed, %d failed" % (held.passed, held.failed))
    sys.exit(1 if held.failed else 0)


main()
