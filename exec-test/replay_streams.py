"""Captures that come to `replay` through a pipe, part of exec-test/replay: one that is longer than 4 gigabytes, and some of which each byte comes
alone."""

import os
import pty
import subprocess
import tempfile
import threading
import time

from reference import FILE_HEADER, LONGEST_PACKET, Report, answered
from replayed import SECONDS, Case, Said, command, problems, rows_of, unlike
from slots import ADD_X, EXIT, JEQ_K, LDX, MOV_K, SIZES, slot
from traffic import capture, whole

PAGE = 4096
GROWTH = 4096  # kilobytes
PAUSE = 0.001  # seconds
BY_LAST_BYTE = slot(JEQ_K, 2, off=3) + slot(ADD_X, 1, 2) + slot(LDX | SIZES[1], 0, 1, -1) + slot(EXIT) + slot(MOV_K, 0) + slot(EXIT)


# ---- one that is longer than memory ----------------------------------------------------------------------------------------------------


def seen_on(terminal):
    """Reads what comes to a terminal, which would else be full some time; gives where it is put."""
    seen = []

    def read():
        try:
            while data := os.read(terminal, 4096):
                seen.append(data)
        except OSError:  # its other end is closed
            pass

    threading.Thread(target=read, daemon=True).start()
    return seen


def memory_of(process):
    """The most kilobytes of memory that a running process had."""
    with open("/proc/%d/status" % process.pid) as file:
        return next(int(line.split()[1]) for line in file if line.startswith("VmHWM:"))


def streamed(program, header, block, repeats):
    """What the program says of a capture that comes through a pipe, with a terminal for standard error; the kilobytes that it took, looked at
    before the capture's end; and what came to the terminal."""
    terminal, end = pty.openpty()
    seen = seen_on(terminal)
    with tempfile.NamedTemporaryFile() as filter_file:
        filter_file.write(program)
        filter_file.flush()
        process = subprocess.Popen([*command(), filter_file.name, "-"], stdin=subprocess.PIPE, stdout=subprocess.PIPE, stderr=end)
        os.close(end)
        kilobytes = 0
        watch = threading.Timer(10 * SECONDS, process.kill)
        watch.start()
        try:
            process.stdin.write(header)
            for _ in range(repeats):
                process.stdin.write(block)
            process.stdin.flush()
            kilobytes = memory_of(process)
            process.stdin.close()
        except BrokenPipeError:  # what it says will be wrong
            pass
        out = process.stdout.read().decode(errors="replace")
        status = process.wait()
        watch.cancel()
    os.close(terminal)
    return Said(status, out, "", None), kilobytes, b"".join(seen)


def many_times(report, repeats):
    """The report of a capture that has its packets so many times."""
    return Report(report.ends * repeats, [], [count * repeats for count in report.ran])


def huge(tally, megabytes):
    """The memory that the program takes must not grow with the capture. Progress, on a terminal, changes nothing of the report."""
    data = capture([(bytes([n % 256]) * (LONGEST_PACKET - 31 * n), LONGEST_PACKET) for n in range(64)])
    header, block = data[:FILE_HEADER], data[FILE_HEADER:]
    repeats = megabytes * 1000000 // len(block)
    _, little, _ = streamed(BY_LAST_BYTE, header, block, 1)
    said, much, seen = streamed(BY_LAST_BYTE, header, block, repeats)
    report = many_times(answered(BY_LAST_BYTE, data).report, repeats)
    wrong = [said.problem] if said.problem else []
    if said.totals != report.totals():
        wrong.append("the sums are %s, and %s are expected" % (said.totals, report.totals()))
    wrong += unlike(said.rows, rows_of(BY_LAST_BYTE, report))
    if much > little + GROWTH:
        wrong.append("it takes %d kilobytes, and %d for a short capture" % (much, little))
    tally.add("a capture of %d megabytes" % megabytes, wrong)
    print("a capture of %d megabytes, through a pipe: %d packets, %d kilobytes of memory (%d for one of 4 megabytes), %d bytes of progress" % (
        megabytes, report.totals()[0], much, little, len(seen)), flush=True)


# ---- one that comes byte by byte ---------------------------------------------------------------------------------------------------------


def dripped(case):
    """What the program says of a capture of which it gets a byte at a time: a read that gives little is not the end."""
    with tempfile.NamedTemporaryFile() as filter_file:
        filter_file.write(case.program)
        filter_file.flush()
        words = [*command(), *case.options(), filter_file.name, "-"]
        process = subprocess.Popen(words, bufsize=0, stdin=subprocess.PIPE, stdout=subprocess.PIPE, stderr=subprocess.PIPE)
        watch = threading.Timer(SECONDS, process.kill)
        watch.start()
        try:
            for at in range(len(case.capture.data)):
                process.stdin.write(case.capture.data[at:at + 1])
                time.sleep(PAUSE)
        except BrokenPipeError:  # it may have refused
            pass
        out, err = process.communicate()
        watch.cancel()
    return Said(process.returncode, out.decode(errors="replace"), err.decode(errors="replace"), None)


def byte_by_byte(tally):
    data = capture(whole([b"\x01" * 5, b"", b"\x02" * 20, b"\x03"]), ">")
    parts = {"whole": data, "cut in a packet": data[:-20], "cut in a record": data[:-9], "a header": data[:24], "less": data[:23]}
    for name, given in parts.items():
        case = Case("byte by byte: " + name, BY_LAST_BYTE, given, PAGE)
        tally.add(case.name, problems(case, case.answer(tally.wrong), dripped(case)), case)


def run(tally, megabytes):
    huge(tally, megabytes)
    byte_by_byte(tally)
