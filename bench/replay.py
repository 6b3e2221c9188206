"""Times `replay` beside tcpdump: each reads a long capture and runs the same rule over it. `bench/replay` starts it, with the captures' length in
megabytes.

The filter is the program that tcpdump itself makes of the rule, turned into eBPF (exec-test/classic.py), so that both decide alike: how many
packets each keeps is compared first. One capture has the traffic that exec-test/replay generates, short packets mostly, one has frames of
1,514 bytes. Both programs get the capture from the page cache, in turn, and the shortest of some rounds counts: the processor's time, the
kernel's for the program included, since others may be using the machine. tcpdump writes what it keeps to /dev/null; replay does so or writes
none.
"""

import os
import subprocess
import sys
import tempfile
import time

HERE = os.path.dirname(os.path.abspath(__file__))
sys.path.insert(0, os.path.join(HERE, "..", "exec-test"))

import classic
import tcpdump
from reference import FILE_HEADER
from traffic import LONGEST_FRAME, Traffic, capture

RULE = "udp port 53"
SEED = 9669
BLOCK = 20000  # packets that a capture repeats
ROUNDS = 5
MEGABYTE = 1000000


def full_frames():
    """The traffic, each packet filled up to a full frame."""
    return ((packet.ljust(LONGEST_FRAME, b"\0"), LONGEST_FRAME) for packet, _ in Traffic(SEED).records(BLOCK // 5))


def whole_packets():
    """The traffic, captured whole: tcpdump goes by the length that a packet had."""
    return ((packet, len(packet)) for packet, _ in Traffic(SEED).records(BLOCK))


def write_long(records, megabytes, path):
    """A capture that has its records again and again; gives its length."""
    data = capture(records)
    header, block = data[:FILE_HEADER], data[FILE_HEADER:]
    with open(path, "wb") as file:
        file.write(header)
        for _ in range(max(1, megabytes * MEGABYTE // len(block))):
            file.write(block)
    return os.path.getsize(path)


def timed(words):
    """(seconds of the processor, seconds on the clock, standard output)."""
    begun = time.monotonic()
    process = subprocess.Popen(words, stdin=subprocess.DEVNULL, stdout=subprocess.PIPE, stderr=subprocess.PIPE, text=True)
    out, err = process.stdout.read(), process.stderr.read()
    _, status, usage = os.wait4(process.pid, 0)
    process.returncode = status
    if status:
        sys.exit("bench: %s ends with status %d: %s" % (words[0], status, err.strip()))
    return usage.ru_utime + usage.ru_stime, time.monotonic() - begun, out


def commands(filter_path, path):
    replay = os.environ["REPLAY"].split("\n")
    return {"tcpdump -w /dev/null": ["tcpdump", "-r", path, "-w", "/dev/null", RULE],
            "replay": [*replay, filter_path, path],
            "replay --write /dev/null": [*replay, "--write", "/dev/null", filter_path, path]}


def numbers(report):
    """(packets, kept), of a report's first lines."""
    lines = report.split("\n")
    return int(lines[0].removeprefix("packets ")), int(lines[1].removeprefix("kept "))


def compare_kept(chosen, path):
    """Both keep as many; gives how many packets there are."""
    packets, kept = numbers(timed(chosen["replay"])[2])
    theirs = sum(1 for _ in tcpdump.records(tcpdump.asked("-r", path, "-w", "-", RULE)))
    if kept != theirs:
        sys.exit("bench: replay keeps %d packets, and tcpdump %d" % (kept, theirs))
    return packets, kept


def best(chosen):
    """name: the shortest (seconds of the processor, seconds on the clock)."""
    rounds = [{name: timed(words)[:2] for name, words in chosen.items()} for _ in range(ROUNDS)]
    return {name: tuple(min(each[name][k] for each in rounds) for k in range(2)) for name in chosen}


def show(title, length, packets, kept, seconds):
    print("%s: %d megabytes, %d packets, %d kept\n" % (title, length // MEGABYTE, packets, kept))
    print("| '%s' | processor s | clock s | MB a second | packets a second | beside tcpdump |" % RULE)
    print("| --- | ---: | ---: | ---: | ---: | ---: |")
    theirs = seconds["tcpdump -w /dev/null"][0]
    for name, (processor, clock) in seconds.items():
        rates = length / MEGABYTE / processor, packets / processor, theirs / processor
        print("| %s | %.3f | %.3f | %.0f | %.0f | %.2f |" % (name, processor, clock, *rates))
    print(flush=True)
    return min(theirs / processor for name, (processor, _) in seconds.items() if name.startswith("replay"))


def main():
    ratios = []
    with tempfile.TemporaryDirectory() as folder:
        path, filter_path = os.path.join(folder, "capture"), os.path.join(folder, "filter")
        for title, records in (("generated traffic", whole_packets()), ("full frames", full_frames())):
            length = write_long(records, int(sys.argv[1]), path)
            with open(filter_path, "wb") as file:
                file.write(classic.program(tcpdump.classic(RULE, path)))
            chosen = commands(filter_path, path)
            packets, kept = compare_kept(chosen, path)
            ratios.append(show(title, length, packets, kept, best(chosen)))
    print("ratio %.2f" % min(ratios))


main()
