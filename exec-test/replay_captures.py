"""Captures in `replay`, part of exec-test/replay: those that tcpdump, tshark and editcap write, in all four formats; long ones, whose records lie
across every place where a reader may have divided them; those that come through a pipe (replay_streams.py); and damaged ones. Each report is
held to the reference, and what is kept has to be a capture that tcpdump opens.

These tools write the machine's byte order, so the captures of the other are theirs turned round; tcpdump has to read them as it reads the others.
"""

import collections
import os
import subprocess
import tempfile

import replay_streams
import tcpdump
from machine import fail
from manifest import filters
from reference import KEPT, LONGEST_PACKET, MAGICS, NOT_PCAP, Capture
from replay_filters import AHEAD, SEED, stored
from replay_streams import BY_LAST_BYTE, PAGE
from replayed import Case, File
from slots import EXIT, JA, MOV_X, slot
from traffic import Damage, Traffic, capture, file_header, turned, whole

MODIFIED = 0xA1B2CD34  # a format of its own, with longer headers of records
BY_LENGTH = slot(MOV_X, 0, 2) + slot(0x57, 0, imm=1) + slot(EXIT)  # keeps packets of odd length
FOREVER = slot(JA, off=-1)


def programs():
    """Filters for captures: of any kind, and quick."""
    found = {f.name: f for f in filters()}
    return {"raw-udp": found["raw-udp"].bytecode(), "tcp-port": AHEAD + found["tcp-port"].bytecode(), "length": BY_LENGTH,
            "last byte": BY_LAST_BYTE}


# ---- captures that others write ----------------------------------------------------------------------------------------------------------


def written(words, path):
    """What a tool writes to the path."""
    done = subprocess.run(words, stdin=subprocess.DEVNULL, stdout=subprocess.DEVNULL, stderr=subprocess.PIPE)
    if done.returncode:
        fail("%s fails: %s" % (" ".join(words), done.stderr.decode().strip()))
    with open(path, "rb") as file:
        return file.read()


def by_tools(folder, base, base_nano):
    """(whose, bytes): in microseconds and in nanoseconds."""
    to = os.path.join(folder, "by-tool")
    yield "tcpdump", written(["tcpdump", "-r", base, "-w", to], to)
    yield "tcpdump, nanoseconds", written(["tcpdump", "--time-stamp-precision=nano", "-r", base_nano, "-w", to], to)
    for form, name in (("pcap", ""), ("nsecpcap", ", nanoseconds")):
        yield "editcap" + name, written(["editcap", "-F", form, base_nano, to], to)
        yield "tshark" + name, written(["tshark", "-r", base_nano, "-w", to, "-F", form], to)


def in_all_formats(folder):
    """(name, File) of the same packets, which are asked of tcpdump besides."""
    records = whole(stored().read.packets) + list(Traffic(SEED).records(100))
    files = {}
    for name, nanoseconds in (("base", False), ("base-nano", True)):
        files[name] = os.path.join(folder, name)
        with open(files[name], "wb") as file:
            file.write(capture(records, "<", nanoseconds))
    made = [("made here%s%s" % (", big-endian" * (order == ">"), ", nanoseconds" * nano), capture(records, order, nano))
            for order in "<>" for nano in (False, True)]
    for name, data in by_tools(folder, files["base"], files["base-nano"]):
        made += [(name, data), (name + ", turned to big-endian", turned(data))]
    for name, data in made:
        if Capture(data).packets != [packet for packet, _ in records]:
            fail("%s does not have the packets that were given" % name)
        yield name, File(data)


def say_formats(seen):
    kinds = {MAGICS[nano].to_bytes(4, order): "%s-endian, %s" % (order, "nanoseconds" if nano else "microseconds")
             for order in ("little", "big") for nano in (False, True)}
    for magic, name in kinds.items():
        print("%s: %s" % (name, "; ".join(seen[magic])))
        if not seen[magic]:
            fail("there is no capture of this format")


def formats(tally):
    seen = collections.defaultdict(list)
    with tempfile.TemporaryDirectory() as folder:
        made = list(in_all_formats(folder))
        for name, file in made:
            seen[file.data[:4]].append(name)
        say_formats(seen)
        cases = [Case("%s over the capture of %s" % (filter_name, name), program, file, PAGE, pipe=n % 2, write=True)
                 for n, (name, file) in enumerate(made) for filter_name, program in programs().items()]
        for case, answer, said, is_right in tally.held(cases):
            if is_right:
                tally.add(case.name + ", opened by tcpdump", unopened(folder, answer, said.written))
        tally_pcapng(tally, folder)


def unopened(folder, answer, written_bytes):
    """What is wrong with the capture of what is kept, as tcpdump reads it."""
    path = os.path.join(folder, "kept")
    with open(path, "wb") as file:
        file.write(written_bytes)
    kept = [packet for packet, end in zip(answer.capture.packets, answer.report.ends) if end == KEPT]
    if tcpdump.opened(path) != kept:
        yield "tcpdump does not read the packets that were kept"


def tally_pcapng(tally, folder):
    """Formats that are not read: each is 17."""
    to = os.path.join(folder, "by-tool")
    others = [(form, written(["editcap", "-F", form, os.path.join(folder, "base"), to], to)) for form in ("pcapng", "modpcap", "snoop")]
    cases = [Case("a capture of the format %s" % form, BY_LENGTH, data, PAGE, pipe=is_pipe) for form, data in others for is_pipe in (False, True)]
    for case, answer, *_ in tally.held(cases):
        if answer.refusal != (NOT_PCAP, 0):
            fail("%s is taken for one that is read" % case.name)


# ---- long ones -------------------------------------------------------------------------------------------------------------------------


def long_ones():
    """(name, records): those of any reader that works on a part of the file at a time are cut somewhere."""
    yield "packets of 65,535 bytes", [(bytes([n]) * LONGEST_PACKET, LONGEST_PACKET) for n in range(60)]
    yield "packets around 65,535 bytes", [(bytes([n % 256]) * (LONGEST_PACKET - n), LONGEST_PACKET) for n in range(80)]
    yield "packets of no bytes", [(b"", n) for n in range(100000)]
    yield "packets of 0 to 40 bytes", [(bytes([n % 256]) * (n % 41), n % 41) for n in range(60000)]
    yield "a long packet behind each short one", [(bytes([n % 256]) * (LONGEST_PACKET - n // 2 if n % 2 else n % 7), LONGEST_PACKET) for n in range(100)]


def long_cases():
    for number, (name, records) in enumerate(long_ones()):
        file = File(capture(records, "<>"[number % 2], number % 3 == 0))
        for filter_name, program in (("length", BY_LENGTH), ("last byte", BY_LAST_BYTE)):
            for is_pipe in (False, True):
                yield Case("%s over %s" % (filter_name, name), program, file, PAGE, pipe=is_pipe, write=True)
        cut = File(file.data[:-1])
        yield Case("last byte over %s, cut by a byte" % name, BY_LAST_BYTE, cut, PAGE, pipe=number % 2, write=True)
    yield Case("a filter that does not end over 1,000 packets", FOREVER, capture(whole([b"x"] * 1000)), PAGE)


# ---- damaged ones ----------------------------------------------------------------------------------------------------------------------


def made_damages():
    """(name, bytes): every way to end too soon, and the borders of lengths."""
    records = whole([b"\x01" * 5, b"", b"\x02" * 20])
    for order in "<>":
        for nano in (False, True):
            data = capture(records, order, nano)
            for length in range(len(data) + 1):
                yield "the first %d bytes" % length, data[:length]
    for order in "<>":
        for length in (LONGEST_PACKET - 1, LONGEST_PACKET, LONGEST_PACKET + 1, LONGEST_PACKET + 2):
            data = capture([(b"a", 1), (bytes(length), length), (b"b", 1)], order)
            yield "a packet of %d bytes" % length, data
            yield "a packet of %d bytes, cut" % length, data[:-18]
            yield "a packet of %d bytes, and the end" % length, data[:-17]
    header = file_header()
    yield "the magic number of the modified format", MODIFIED.to_bytes(4, "little") + header[4:]
    yield "magic numbers of two halves", header[:2] + file_header(">")[2:]
    yield "a header that says nothing else", header[:4] + bytes(20) + capture(records)[24:]
    yield "a header that says other things", header[:4] + b"\xff" * 20 + capture(records)[24:]


def bases(count):
    """(byte order, capture) of few packets, in every format."""
    traffic = Traffic(SEED + 1)
    for number in range(count):
        order = "<>"[number % 2]
        yield order, capture(traffic.records(1 + number % 23), order, number // 2 % 2)


def damaged_cases(count):
    chosen, damage = list(programs().items()), Damage(SEED)
    for number, (order, base) in enumerate(bases(count)):
        data, how = damage.damaged(base, order)
        name, program = chosen[number % len(chosen)]
        yield Case("%s over capture %d, damaged (%s)" % (name, number, how), program, data, PAGE, pipe=number // 3 % 2, write=number // 5 % 2)


def damaged(tally, count):
    chosen = list(programs().values())
    made = [Case(name, chosen[n % len(chosen)], data, PAGE, pipe=n % 2, write=n // 2 % 2) for n, (name, data) in enumerate(made_damages())]
    for what, cases in (("made", made), ("by lot", damaged_cases(count))):
        numbers = collections.Counter(answer.refusal[0] if answer.refusal else 0 for _, answer, *_ in tally.held(cases))
        print("damaged captures, %s: %d, of which %d are refused with 17, %d with 18 and %d are whole" % (
            what, sum(numbers.values()), numbers[17], numbers[18], numbers[0]), flush=True)


def run(tally, count, megabytes):
    """With a capture of so many megabytes, and so many that are damaged by lot."""
    formats(tally)
    passed = tally.passed + tally.failed
    for _ in tally.held(long_cases()):
        pass
    print("long captures: %d runs" % (tally.passed + tally.failed - passed), flush=True)
    replay_streams.run(tally, megabytes)
    damaged(tally, count)
