"""Holds the instruction reader to objdump, an independent disassembler: both read every accepted page of the corpus and of
examples/filters, in every mode. `exec-test/disassembly` starts it.

For each page both listings have to have the same instructions: the same starts, lengths, names and operands. objdump's have to follow each
other from the page's first byte to its last, and what it printed of each, written out again by model-test/encode.py (which is
crates/x86/specs/Encode.antt in Python), has to give the page's bytes back. Every location has to be the start of one of its instructions, and
every jump has to land on one; every listed jump has to be one that goes to its target's location; where the answer shows a kind and a maker
of it, it has to be of that kind and stand in that slot's code.

A page with compact constants has to have the instructions of the page without them, jumps to the same places among them, but for the loads
of 0 to 2^32 - 1 into 64 bits, each of which has to have its shorter form; and a refusal has to be the same. Only code that did not fit may
fit now, or be refused later.

The stored answers are read too; pages that are the same are read once. Prints what each mode accepts and the count of each form; the last
line is 'N passed, M failed', a page being one, and the status is 1 where one failed.
"""

import bisect
import collections
import os
import subprocess
import sys

HERE = os.path.dirname(os.path.abspath(__file__))
ROOT = os.path.dirname(HERE)
sys.path[:0] = [HERE, os.path.join(ROOT, "model-test")]

from compact import NO_ROOM
from encode import encode
from listing import accepted, as_stream, by_objdump, by_reader, records
from machine import fail
from modes import ALL_FLAGS, MODES

SHOWN = 20
FIELD, EPILOGUE, EXIT = 4, 16, 1000001  # bytes of a jump's field and of the epilogue; the target that is the exit
CONDITIONAL, PLAIN, LOCAL_CALL = 1, 2, 3  # the kinds of jumps
ACCEPTED, TORN_SLOT, BAD_TARGET = 0, 6, 14  # numbers of answers: 6 to 13 are found slot by slot, 14 behind them


def stored(name):
    with open(os.path.join(ROOT, "crates", "program_answers", name), "rb") as file:
        return records(file.read())


def all_cases():
    """The stored cases and the filters', each once, without its mode."""
    filters = subprocess.run([os.path.join(HERE, "cases")], stdout=subprocess.PIPE, check=True).stdout
    return list(dict.fromkeys(in_mode(case, 0) for case in [*stored("stdin"), *records(filters)]))


def in_mode(case, flags):
    return bytes([case[0] & ~ALL_FLAGS | flags]) + case[1:]


def answers_to(cases):
    done = subprocess.run([os.path.join(ROOT, "run"), "answers"], input=as_stream(cases), stdout=subprocess.PIPE)
    if done.returncode:
        fail("the program answers failed, as it said above")
    return list(records(done.stdout))


def gaps(code, listing):
    """What is wrong with objdump's listing by itself."""
    at = 0
    for start, length, read in listing:
        if start != at:
            yield "objdump's instruction at %d should start at %d" % (start, at)
        if isinstance(read, str):
            yield "objdump sees '%s' at %d" % (read, start)
        elif bytes(encode(read)) != code[start:start + length]:
            yield "objdump's %s at %d is not %s" % (read, start, code[start:start + length].hex())
        at = start + length
    if at != len(code):
        yield "objdump's last instruction ends at %d, the page at %d" % (at, len(code))


def unlike(theirs, ours):
    """Where the two listings part."""
    for n in range(max(len(theirs), len(ours))):
        if theirs[n:n + 1] != ours[n:n + 1]:
            yield "instruction %d: objdump has %s, the reader has %s" % (n, theirs[n:n + 1], ours[n:n + 1])
            return


def kind_of(name):
    return {"jmp": PLAIN, "call": LOCAL_CALL}.get(name, CONDITIONAL)


def makers_of(answer):
    """For each field the slot whose code it stands in: the last that begins ahead of it. The prologue's has the program's number of slots."""
    slots = len(answer.locations) - 1
    # The prologue is at 0, so that a slot whose location this is has no code: a wide load's second.
    coded = [slot for slot in range(slots) if answer.locations[slot] > 0]
    places, makers = [answer.locations[slot] for slot in coded], [slots, *coded]
    return [makers[bisect.bisect_left(places, field)] for field in answer.fields]


def origins(answer, read_before):
    """What is wrong with an answer's kinds and makers."""
    for field, kind, maker, made in zip(answer.fields, answer.kinds, answer.makers, makers_of(answer)):
        read = read_before.get(field + FIELD, ("none",))
        if read[0] != "jump" or kind_of(read[1]) != kind:
            yield "the jump with the field at %d is %s, and not of the kind %d" % (field, read, kind)
        if maker != made:
            yield "the jump with the field at %d is in the code of slot %d, and not of %d" % (field, made, maker)


def landings(answer, listing):
    """What is wrong with an answer's tables, by its listing."""
    starts, read_before = {start for start, _, _ in listing}, {start + length: read for start, length, read in listing}
    for slot, location in enumerate(answer.locations):
        if location not in starts:
            yield "slot %d is said to be at %d, where no instruction starts" % (slot, location)
    for end, read in read_before.items():
        if read[0] == "jump" and (end + read[2]) % 2**32 not in starts:
            yield "the jump that ends at %d goes where no instruction starts" % end
    for field, target in zip(answer.fields, answer.targets):
        read = read_before.get(field + FIELD, ("none",))
        wanted = len(answer.code) - EPILOGUE if target == EXIT else answer.locations[target]
        if read[0] != "jump" or (field + FIELD + read[2]) % 2**32 != wanted:
            yield "the jump with the field at %d does not go to %d" % (field, wanted)
    yield from origins(answer, read_before)


def shorter(read):
    """An instruction of a plain page as the compact one has it."""
    if read[:3] == ("aluImm", "MOV", 64) and read[4] < 2**31:
        return ("movImm", 32, *read[3:])
    if read[:2] == ("movImm", 64) and read[3] < 2**32:
        return ("movImm", 32, *read[2:])
    return read


def meant(listing):
    """The instructions of a page, each jump with the number of the one that it goes to in place of the distance."""
    numbers = {start: number for number, (start, _, _) in enumerate(listing)}
    return [(*read[:2], numbers.get((start + length + read[2]) % 2**32)) if read[0] == "jump" else read for start, length, read in listing]


def unlike_plain(plain, compact):
    """Where a compact page's listing is not what it has to be beside the plain one's."""
    wanted, seen = [shorter(read) for read in meant(plain)], meant(compact)
    for n in range(max(len(wanted), len(seen))):
        if wanted[n:n + 1] != seen[n:n + 1]:
            yield "instruction %d: from the plain page it should be %s, it is %s" % (n, wanted[n:n + 1], seen[n:n + 1])
            return


def is_later(plain, compact):
    """Whether a compact answer may stand where the plain one is that the code does not fit."""
    if plain[0] != NO_ROOM:
        return False
    plain_slot, slot = (int.from_bytes(rest[1:], "little") for rest in (plain, compact))
    return compact[0] in (ACCEPTED, BAD_TARGET) or TORN_SLOT <= compact[0] <= NO_ROOM and slot >= plain_slot


class Pages:
    """The different answers of all modes, and how often each form of instruction stands in their pages."""

    def __init__(self, by_mode):
        everything = [*stored("stdout"), *(rest for answers in by_mode.values() for rest in answers)]
        self.answers = list(dict.fromkeys(everything))
        self.accepted = accepted(self.answers)
        self.numbers = {rest: number for number, rest in enumerate(self.answers)}
        self.wrong, self.forms = {}, collections.Counter()

    def read(self):
        """Both listings of every page, and what is wrong with them."""
        codes = [answer.code for answer in self.accepted]
        print("exec-test: %d different pages, %d bytes" % (len(codes), sum(map(len, codes))), file=sys.stderr, flush=True)
        by_theirs, by_ours = by_objdump(codes), by_reader(as_stream(self.answers))
        if [number for number, _ in by_ours] != [answer.number for answer in self.accepted]:
            fail("the reader listed other pages than the %d accepted ones" % len(codes))
        for answer, theirs, (_, ours) in zip(self.accepted, by_theirs, by_ours):
            self.add(answer.number, [*gaps(answer.code, theirs), *unlike(theirs, ours), *landings(answer, theirs)])
            self.forms.update(form(read) for _, _, read in ours)
        self.listings = {answer.number: theirs for answer, theirs in zip(self.accepted, by_theirs)}

    def compare(self, plain, compact):
        """Holds compact answers to the plain ones, case by case; gives how many pages of both there were."""
        both = [(self.numbers[one], self.numbers[other]) for one, other in dict.fromkeys(zip(plain, compact))]
        pairs = [(one, other) for one, other in both if one in self.listings and other in self.listings]
        for one, other in pairs:
            self.add(other, unlike_plain(self.listings[one], self.listings[other]))
        for one, other in set(both) - set(pairs):
            if one != other and not is_later(self.answers[one], self.answers[other]):
                self.add(other, ["without compact constants it is answer %d" % one])
        return len(pairs)

    def add(self, number, wrong):
        for problem in wrong:
            self.wrong.setdefault(number, problem)


def form(read):
    return "movImm %d" % read[1] if read[0] == "movImm" else read[0]


def say(pages):
    for number, problem in sorted(pages.wrong.items())[:SHOWN]:
        print("FAILED answer %d: %s" % (number, problem))
    for name, count in sorted(pages.forms.items()):
        print("%-10s %7d" % (name, count))
    locations, jumps, kinds = (sum(len(getattr(answer, table)) for answer in pages.accepted) for table in ("locations", "fields", "kinds"))
    print("%d locations, %d listed jumps, %d of them with kind and maker" % (locations, jumps, kinds))
    print("%d instructions, %d bytes" % (sum(pages.forms.values()), sum(len(answer.code) for answer in pages.accepted)))
    print("%d passed, %d failed" % (sum(answer.number not in pages.wrong for answer in pages.accepted), len(pages.wrong)))


def main():
    cases = all_cases()
    by_mode = {mode: answers_to([in_mode(case, mode.flags) for case in cases]) for mode in MODES}
    pages = Pages(by_mode)
    pages.read()
    for mode, answers in by_mode.items():
        taken = accepted(answers)
        print("%s: %d of %d cases accepted, %d bytes" % (mode.name, len(taken), len(cases), sum(len(answer.code) for answer in taken)))
        if mode.is_compact():
            print("%s: %d different pages beside their plain ones" % (mode.name, pages.compare(by_mode[mode.plain], answers)))
    say(pages)
    if not pages.forms["movImm 32"]:
        fail("no page has a constant in its shorter form: these pages do not see the mode")
    sys.exit(1 if pages.wrong else 0)


main()
