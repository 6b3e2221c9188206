"""Runs the translated filters of examples/filters on the packets of examples/packets, and compares every verdict with that of engines
which nobody here wrote, and of an interpreter written from RFC 9669. `exec-test/run` starts it, and has its arguments.

The library translates in each mode (runner.c plays the loader), the page is mapped executable and called. Compared with it are, packet by
packet: all 64 bits of r0 of the interpreter (interpreter.py); tcpdump, for the filters that can be said in its language; and the Linux
kernel, where it lets us (kernel.py). Where rbpf's page parts from RFC 9669 in a way that docs/DIFFERENCES.md lists, expected.txt names the
entry. Unless the mode follows the RFC there (modes.py), the interpreter has to agree in full with that entry, and to disagree without it;
the other engines are held to the RFC's verdict. A page with compact constants is besides held to the one without them (compact.py). Prints a
table and the sums for each mode; the last line is 'N passed, M failed', a filter in a mode being one, and the status is 1 where one failed.
"""

import functools
import os
import re
import struct
import subprocess
import sys

HERE = os.path.dirname(os.path.abspath(__file__))
FILTERS = os.path.join(HERE, "..", "examples", "filters")
CAPTURE = os.path.join(HERE, "..", "examples", "packets", "packets.pcap")
sys.path[:0] = [HERE, FILTERS]

import compact
import kernel
import tcpdump
from helpers import CSUM_DIFF, FUNCTIONS
from interpreter import Fault, M32, Memory, Run
from loader import NO_CHANGE, pages
from machine import fail
from manifest import filters
from modes import MODES, RBPF

# As in runner.c.
PACKET_END, MBUFF_END = 0x30010000, 0x20001000
STACK_TOP = 0x70000000


def expectations():
    """name: (differences, tcpdump expression or None, the answer with compact constants or None)"""
    out = {}
    with open(os.path.join(HERE, "expected.txt")) as file:
        for line in file:
            if line.strip() and not line.startswith("#"):
                name, differences, expression, *answer = (None if part.strip() == "-" else part.strip() for part in line.split(" | "))
                out[name] = (differences.split(",") if differences else [], expression, answer[0] if answer else None)
    return out


def expected_of(f, mode, table):
    """(differences, expression, answer) of the filter in a mode, from its own line or that of its source."""
    name = f.name.split("@")[0]
    line = table.get(f.name) or table.get(name) or table.get(name.split(".")[0]) or fail("expected.txt has no line for %s" % f.name)
    differences, expression, answer = line
    if expression and "HOSTS" in expression:
        with open(os.path.join(FILTERS, f.source)) as file:
            listed = re.findall(r" S\((\d+), (\d+), (\d+), (\d+)\)", file.read())
        expression = expression.replace("HOSTS", " or ".join("host " + ".".join(address) for address in listed))
    return mode.differences(differences), expression, answer if answer and mode.is_compact() else f.answer


# What the other engines say of a filter, once for all modes.


@functools.cache
def interpreted(f, packets, differences):
    """r0 for each packet, or the Fault's text."""
    out, program = [], f.bytecode()
    for packet in packets:
        room = packet if f.form == "mbuff" else packet.ljust(64, b"\0")
        data = PACKET_END - len(room)
        mbuff = struct.pack("<QQ", data, data + len(packet))
        memory = Memory([(data, bytearray(room)), (MBUFF_END - len(mbuff), bytearray(mbuff))])
        run = Run(program, memory, STACK_TOP, {h: FUNCTIONS[h] for h in f.helpers}, (data, len(packet)), differences)
        try:
            out.append(run.result(MBUFF_END - len(mbuff) if f.form == "mbuff" else data))
        except Fault as why:
            out.append(str(why))
    return out


@functools.cache
def dumped(expression, times):
    """Whether tcpdump keeps each packet, None where it is not asked. No two packets have the same time."""
    if expression is None:
        return [None] * len(times)
    kept = tcpdump.kept(expression, CAPTURE)
    return [time in kept for time in times]


@functools.cache
def in_kernel(f, packets):
    """The kernel's verdicts, None for each that it does not give. It has helpers of its own, of which one is also one of ours."""
    if set(f.helpers) - {CSUM_DIFF} or not kernel.is_allowed():
        return [None] * len(packets)
    try:
        return kernel.verdicts(f.bytecode(), f.form == "raw", packets)
    except kernel.Refused as why:
        print("exec-test: the kernel does not take %s: %s" % (f.name, why))
        return [None] * len(packets)


def unlike(left, right):
    """The numbers of the packets on which two lists part; None in the second is no verdict."""
    return [n for n, (a, b) in enumerate(zip(left, right)) if b is not None and a != b]


def is_kept(verdict):
    return verdict != 0


class Judged:
    """A filter's row of the table, and what is wrong with it. `plain` is its page without compact constants, where this one has them."""

    def __init__(self, f, page, plain, times, packets, expected):
        self.page, self.plain, self.compared = page, plain, {}
        self.problems = list(compact.problems(f, page, plain)) if plain else []
        differences, expression, answer = expected
        self.cells = [f.name, f.cpu, str(len(f.bytecode()) // 8), page.answer() if page.number else "%d / %d" % (page.length, page.jumps)]
        if page.answer() != answer:
            self.problems.append("the answer is %s, and %s is expected" % (page.answer(), answer))
        if page.number:
            self.cells += ["-"] * 6
            return
        self.cells += [str(len(packets)), str(sum(is_kept(v) for v in page.verdicts))]
        by_rfc = interpreted(f, packets, ())
        self.hold(page.verdicts, interpreted(f, packets, differences), "the interpreter")
        parts = unlike(page.verdicts, by_rfc)
        self.cells.append("%s on %d" % (",".join(differences), len(parts)) if differences else "-")
        if differences and not parts:
            self.problems.append("%s does not show on any packet" % ",".join(differences))
        meant = by_rfc if differences else page.verdicts
        self.hold([is_kept(v) for v in meant], dumped(expression, times), "tcpdump")
        self.hold([v & M32 if isinstance(v, int) else v for v in meant], in_kernel(f, packets), "the kernel")

    def hold(self, ours, theirs, whose):
        """One cell: whether an engine agrees."""
        wrong = unlike(ours, theirs)
        self.compared[whose] = len(theirs) - theirs.count(None)
        if wrong:
            shown = ", ".join("%d (%s here, %s there)" % (n, ours[n], theirs[n]) for n in wrong[:4])
            self.problems.append("%s differs on %d packets: %s" % (whose, len(wrong), shown))
        self.cells.append("NO" if wrong else "yes" if self.compared[whose] else "-")


def arguments():
    """What is to be done: the filters, the change to their pages, and whether each change is to be tried."""
    names, change, each = sys.argv[1:], NO_CHANGE, False
    if names[:1] == ["--break"]:
        if len(names) < 2 or not names[1].isdigit():
            fail("--break wants the position of a code byte")
        change, names = int(names[1]), names[2:]
    elif names[:1] == ["--break-each"]:
        each, names = True, names[1:]
    known = filters()
    unknown = set(names) - {f.name for f in known}
    if unknown:
        fail("there is no filter " + ", ".join(sorted(unknown)))
    return [f for f in known if not names or f.name in names], change, each


def is_seen(f, packets, good, position):
    """Whether a change of the code byte at a position shows, be it by the end of the loader."""
    try:
        return pages(RBPF, [f], packets, [position], 20)[0].verdicts != good.verdicts
    except (subprocess.CalledProcessError, subprocess.TimeoutExpired):
        return True


def break_each(chosen, packets):
    seen, tried = 0, 0
    for f, good in zip(chosen, pages(RBPF, chosen, packets)):
        unseen = [n for n in range(good.length) if not is_seen(f, packets, good, n)]
        seen, tried = seen + good.length - len(unseen), tried + good.length
        print("%s: of %d changed bytes %d show; unseen: %s" % (f.name, good.length, good.length - len(unseen), unseen), flush=True)
    print("of %d changed bytes %d show" % (tried, seen))


HEAD = ["filter", "for", "slots", "L / J", "packets", "kept", "interpreter", "differs", "tcpdump", "kernel"]


def say(judged):
    """Prints the table, what failed, and the sums; gives how many failed."""
    rows = [HEAD] + [j.cells for j in judged]
    widths = [max(len(row[k]) for row in rows) for k in range(len(HEAD))]
    for row in rows:
        print("  ".join(cell.ljust(width) for cell, width in zip(row, widths)).rstrip())
    for j in judged:
        for problem in j.problems:
            print("FAILED %s: %s" % (j.cells[0], problem))
    for whose in ("the interpreter", "tcpdump", "the kernel"):
        counts = [j.compared[whose] for j in judged if j.compared.get(whose)]
        print("compared with %s: %d verdicts of %d pages" % (whose, sum(counts), len(counts)))
    if judged[0].plain:
        print(compact.said((j.page, j.plain) for j in judged))
    return sum(bool(j.problems) for j in judged)


def main():
    chosen, change, each = arguments()
    with open(CAPTURE, "rb") as file:
        times, packets = zip(*tcpdump.records(file.read()))
    if each:
        break_each(chosen, packets)
        return
    if not kernel.is_allowed():
        print("exec-test: the kernel takes no programs from here, so it is not asked")
    table, ours, failed = expectations(), {}, 0
    for mode in MODES:
        print(mode.name + ":")
        ours[mode] = pages(mode, chosen, packets, [change] * len(chosen))
        plain = ours[mode.plain] if mode.is_compact() else [None] * len(chosen)
        failed += say([Judged(f, *both, times, packets, expected_of(f, mode, table)) for f, *both in zip(chosen, ours[mode], plain)])
    print("%d passed, %d failed" % (len(MODES) * len(chosen) - failed, failed))
    sys.exit(1 if failed else 0)


if __name__ == "__main__":
    main()
