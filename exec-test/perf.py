"""Runs a filter in the loader in C under perf, and looks what perf makes of the map that the loader writes. `exec-test/perf` starts it, and
has the statuses.

perf reads the map's file when it reports, and not while it records. The names that it gives are held to a reading of the map that is made
here: each sample whose address is in the page has to have the name of the line that covers it, and each sample with such a name has to be in
the page. What the loader prints has to be what it prints without perf, without a map and once over the packets. Prints the event, the
report's first lines, and in the last line how many samples and slots there are, and how many of them are named."""

import bisect
import os
import subprocess
import sys
import tempfile

HERE = os.path.dirname(os.path.abspath(__file__))
EXAMPLES = os.path.join(HERE, "..", "examples")
sys.path[:0] = [HERE, os.path.join(EXAMPLES, "filters")]

from machine import ROOT, fail
from manifest import filters

EVENTS = ("cycles:u", "cpu-clock:u")  # the second wants no counter of the processor; perf may take it for the first by itself
RATE = "4000"  # samples a second
TIMES = "500000"  # over the packets: a few seconds
SHOWN = 16  # lines of the report
NOBODY = 3  # the status where nobody can record
PACKETS = os.path.join(EXAMPLES, "packets", "packets.pcap")
LOADER = os.path.join(ROOT, "target", "examples", "loader-c")


def nobody(why):
    print("nothing is recorded: " + why)
    sys.exit(NOBODY)


def perf(*words):
    return subprocess.run(["perf", *words], stdout=subprocess.PIPE, stderr=subprocess.PIPE, text=True, stdin=subprocess.DEVNULL)


def record(event, data, *command):
    return perf("record", "-q", "-e", event, "-F", RATE, "-o", data, "--", *command)


def said(done):
    """What perf said that was wrong: its first two lines, on one."""
    return " ".join(done.stderr.split("\n")[:2]) or "perf's status is %d" % done.returncode


class Map:
    """The map's lines as (start, end, name)."""

    def __init__(self, path):
        with open(path) as file:
            read = [line.split(" ") for line in file.read().splitlines()]
        self.lines = [(int(start, 16), int(start, 16) + int(size, 16), name) for start, size, name in read]
        self.starts = [start for start, _, _ in self.lines]

    def name_of(self, address):
        """None outside the page."""
        at = bisect.bisect_right(self.starts, address) - 1
        return self.lines[at][2] if at >= 0 and address < self.lines[at][1] else None


def loaded(words):
    """Builds the loader where it is not, and gives what it prints without perf."""
    done = subprocess.run([os.path.join(EXAMPLES, "loader-c", "run"), *words], stdout=subprocess.PIPE, text=True)
    if done.returncode:
        fail("the loader failed, as it said above")
    return done.stdout


def samples(data, map_path):
    """(address, name, whether perf says that it is the map's) of each."""
    done = perf("script", "-i", data, "-F", "ip,sym,dso")
    if done.returncode:
        fail("perf script: " + said(done))
    for line in done.stdout.splitlines():
        address, rest = line.split(maxsplit=1)
        name, _, where = rest.rpartition(" (")
        yield int(address, 16), name, where == map_path + ")"


def recorded(data, process_file, words, printed):
    """The path of the map and the samples, by the first event that gives some."""
    reasons = []
    for event in EVENTS:
        tried = record(event, data, "true")
        if tried.returncode:
            reasons.append("%s: %s" % (event, said(tried)))
            continue
        done = record(event, data, "sh", "-c", 'echo $$ >"$0"; exec "$@"', process_file, LOADER, "--perf-map", "--times", TIMES, *words)
        if done.returncode or done.stdout != printed:
            fail("under perf the loader fails, or prints something else: %s\n%s" % (said(done), done.stdout))
        with open(process_file) as file:
            map_path = "/tmp/perf-%s.map" % file.read().strip()
        if not os.path.exists(map_path):
            fail("the loader left no " + map_path)
        taken = list(samples(data, map_path))
        if taken:
            print("%s: %d samples" % (perf("evlist", "-i", data).stdout.strip(), len(taken)), flush=True)
            return map_path, taken
        os.remove(map_path)
        reasons.append(event + ": there are no samples")
    nobody("; ".join(reasons))


def report(data):
    done = perf("report", "-i", data, "--stdio", "--fields", "overhead,symbol,dso")
    if done.returncode:
        fail("perf report: " + said(done))
    lines = [line.rstrip() for line in done.stdout.splitlines() if line.strip() and not line.startswith("#")]
    print("\n".join(lines[:SHOWN]))
    return {word for line in lines for word in line.split() if word.startswith("slot_")}


def main():
    f = next((f for f in filters() if f.name == sys.argv[1]), None) or fail("examples/filters/list.txt has no filter %s" % sys.argv[1])
    words = [*(["--raw"] if f.form == "raw" else []), f.path, PACKETS]
    printed = loaded(words)
    with tempfile.TemporaryDirectory() as folder:
        data = os.path.join(folder, "perf.data")
        map_path, taken = recorded(data, os.path.join(folder, "process"), words, printed)
        try:
            named, lines = report(data), Map(map_path)
        finally:
            os.remove(map_path)
    inside = [(address, name, is_mapped) for address, name, is_mapped in taken if is_mapped or lines.name_of(address)]
    wrong = [sample for sample in inside if not sample[2] or sample[1] != lines.name_of(sample[0])]
    for address, name, _ in wrong[:SHOWN]:
        print("FAILED %x: perf names %s, and the map %s" % (address, name, lines.name_of(address)))
    slots = sum(name.startswith("slot_") for _, _, name in lines.lines)
    print("%d samples in the page, %d misnamed; perf report names %d of %d slots" % (len(inside), len(wrong), len(named), slots))
    sys.exit(1 if wrong or not named else 0)


main()
