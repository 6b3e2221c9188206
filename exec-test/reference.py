"""What the program `replay` has to answer for a filter and a capture: the reference, written from the request's words, RFC 9669 and
pcap-savefile(5), and not from the product. Only which programs the translator refuses is taken from elsewhere.

A run is one of the interpreter's (interpreter.py) with the model's memory, registers and limit; `Fast` has the same in C (reference.c) for many
packets, and check() holds the two to each other. Captures are read here.

WRONG are references that are wrong in one thing. Whoever compares a program with one of them has to see a difference, or the cases tell
nothing.
"""

import collections
import functools
import struct
import subprocess

from interpreter import Memory, Outside, Run
from machine import compiled, fail
from slots import CALL, starts

PACKET, STACK, STACK_SIZE = 268435456, 536870912, 512
STEP_LIMIT, LONGEST_PACKET = 65536, 65535
FILE_HEADER, RECORD_HEADER = 24, 16
MAGICS = (0xA1B2C3D4, 0xA1B23C4D)  # microseconds, nanoseconds
NOT_PCAP, BAD_RECORD, NOT_MODELLED = 17, 18, 19
NOT_RUN = {0x20, 0x28, 0x30, 0x38, 0x40, 0x48, 0x50, 0x58, CALL}  # LD_ABS, LD_IND and CALL
# Where a page in standard mode parts from RFC 9669 in what the model runs: off of arithmetic, and src of a wide load.
AS_PAGE = ("A4", "A5", "A6", "A24")

# How a run ends, by the numbers of reference.c; the words are those of the report's lines.
ENDS = KEPT, DROPPED, BY_LIMIT, BY_ACCESS, AT_NO_SLOT = range(5)
WORDS = ("kept", "dropped", "stopped by the step limit", "stopped by an access", "stopped at no slot")

# By the numbers of reference.c; the last two read the capture wrongly.
WRONG = ("nothing", "limit-last", "limit-short", "limit-behind-slot", "stack-start", "across-end", "original-length", "stopped-dropped",
         "stack-left", "second-half-runs", "access-uncounted", "wide-counted-twice", "low-half-keeps", "little-lengths", "forgets-counts")
IN_C = WRONG.index("little-lengths")


# ---- captures --------------------------------------------------------------------------------------------------------------------------


class Capture:
    """What a capture holds: `header`, its first bytes; `records`, each whole one, headers and all; `packets`, their captured bytes; `originals`,
    the lengths that they had; and `refusal`, 17, 18 or None."""

    def __init__(self, data, wrong="nothing"):
        self.header, self.records, self.packets, self.originals, self.refusal = data[:FILE_HEADER], [], [], [], None
        self.order = next((o for o in "<>" if data[:4] in [struct.pack(o + "I", magic) for magic in MAGICS]), None)
        if len(data) < FILE_HEADER or self.order is None:
            self.refusal = NOT_PCAP
            return
        order, at = "<" if wrong == "little-lengths" else self.order, FILE_HEADER
        while at < len(data) and self.refusal is None:
            at = self.read_record(data, at, order)

    def read_record(self, data, at, order):
        """The end of the record at a place, or that it is none."""
        if len(data) - at < RECORD_HEADER:
            self.refusal = BAD_RECORD
            return at
        captured, original = struct.unpack_from(order + "II", data, at + 8)
        end = at + RECORD_HEADER + captured
        if captured > LONGEST_PACKET or end > len(data):
            self.refusal = BAD_RECORD
            return at
        self.records.append(data[at:end])
        self.packets.append(data[at + RECORD_HEADER:end])
        self.originals.append(original)
        return end


# ---- runs ------------------------------------------------------------------------------------------------------------------------------


class Report:
    """How the run of each packet ended, with which r0, and how often each slot ran."""

    def __init__(self, ends, results, ran):
        self.ends, self.results, self.ran = list(ends), list(results), list(ran)

    def totals(self):
        """The numbers of the report's first lines."""
        counts = collections.Counter(self.ends)
        return [len(self.ends), *[counts[end] for end in ENDS]]

    def same_as(self, other):
        return (self.ends, self.results, self.ran) == (other.ends, other.results, other.ran)


class Model(Run):
    """The run of one packet."""

    def __init__(self, program, packet):
        memory = Memory([(PACKET, bytearray(packet)), (STACK, bytearray(STACK_SIZE))])
        super().__init__(program, memory, STACK + STACK_SIZE, {}, (PACKET, len(packet)), AS_PAGE)
        self.regs = [0, PACKET, len(packet), 0, 0, 0, 0, 0, 0, 0, STACK + STACK_SIZE]
        self.starts = starts(program)

    def end(self, ran):
        for _ in range(STEP_LIMIT):
            if self.pc == len(self.slots) or not self.starts[self.pc]:
                return AT_NO_SLOT
            ran[self.pc] += 1
            try:
                if self.step():
                    return KEPT if self.regs[0] else DROPPED
            except Outside:
                return BY_ACCESS
        return BY_LIMIT


def by_interpreter(program, packets):
    """The Report of packets."""
    ran, ends, results = [0] * (len(program) // 8), [], []
    for packet in packets:
        model = Model(program, packet)
        ends.append(model.end(ran))
        results.append(model.regs[0])
    return Report(ends, results, ran)


class Fast:
    """The same, by reference.c. It keeps the packets that it was given last."""

    def __init__(self):
        command = compiled("reference", [], ["-O2"])
        self.process = subprocess.Popen(command, stdin=subprocess.PIPE, stdout=subprocess.PIPE)
        self.packets = None

    def give(self, packets, originals):
        if self.packets is packets:
            return
        parts = [b"P", struct.pack("<I", len(packets))]
        for packet, original in zip(packets, originals):
            parts += [struct.pack("<II", len(packet), original), packet]
        self.process.stdin.write(b"".join(parts))
        self.packets = packets

    def read(self, length):
        data = self.process.stdout.read(length)
        if len(data) != length:
            fail("the reference in C ended too soon")
        return data

    def run(self, program, packets, originals, wrong="nothing"):
        self.give(packets, originals)
        number = WRONG.index(wrong) if wrong in WRONG[:IN_C] else 0
        self.process.stdin.write(struct.pack("<cII", b"R", number, len(program) // 8) + program)
        self.process.stdin.flush()
        runs = self.read(9 * len(packets))
        ran = struct.unpack("<%dQ" % (len(program) // 8), self.read(len(program)))
        return Report(runs[::9], (result for _, result in struct.iter_unpack("<BQ", runs)), ran)


@functools.cache
def fast():
    return Fast()


def check(program, packets):
    """Both references on the packets: they have to agree."""
    if not by_interpreter(program, packets).same_as(fast().run(program, packets, [len(packet) for packet in packets])):
        fail("the references in Python and in C differ on the program " + program.hex())


# ---- the answer ------------------------------------------------------------------------------------------------------------------------


class Answer:
    """A `refusal`, (number, slot), or None; and a `report` where there is one: with no refusal, or with 18. `capture` is what was read."""

    def __init__(self, refusal=None, report=None, capture=None):
        self.refusal, self.report, self.capture = refusal, report, capture

    def kept(self):
        """The capture of what is kept."""
        records = (record for record, end in zip(self.capture.records, self.report.ends) if end == KEPT)
        return self.capture.header + b"".join(records)


def first_not_run(program):
    """The first slot that the model does not run, or None."""
    return next((at for at, is_start in enumerate(starts(program)) if is_start and program[8 * at] in NOT_RUN), None)


def answered(program, capture, refusal=None, wrong="nothing"):
    """The Answer; `refusal` is the translator's own for this program, its page and its helpers."""
    not_run = None if refusal else first_not_run(program)
    if refusal or not_run is not None:
        return Answer(refusal or (NOT_MODELLED, not_run))
    read = capture if isinstance(capture, Capture) else Capture(capture, wrong)
    if read.refusal == NOT_PCAP:
        return Answer((NOT_PCAP, 0))
    if read.refusal and wrong == "forgets-counts":
        return Answer((BAD_RECORD, 0), Report([], [], [0] * (len(program) // 8)), Capture(read.header))
    report = fast().run(program, read.packets, read.originals, wrong)
    return Answer((BAD_RECORD, 0) if read.refusal else None, report, read)
