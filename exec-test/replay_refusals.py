"""Refusals of `replay`, part of exec-test/replay: each that a program and options can bring, by docs/REFUSALS.md, and their order: the
translator's own, 19, 17, 18. Number 4, a table that is too short, is the library's alone: the program has room for every filter.

The last cases go through ./run from another folder: names count from there, the status is 1 where something is refused, and words that are
not understood get a sentence, which is no refusal.
"""

import os
import subprocess
import tempfile

from machine import ROOT
from replayed import REFUSED, Case
from slots import CALL, EXIT, JA, MOV_K, MOV_X, slot, wide
from traffic import capture, whole

RUN = os.path.join(ROOT, "run")
MISSING = os.path.join("no", "such", "file")
KEEP = slot(MOV_K, 0, imm=1) + slot(EXIT)
LD_ABS, LD_IND, LOCAL = slot(0x30, imm=0), slot(0x50, 0, 1), slot(CALL, src=1, imm=0)
GOOD = capture(whole([b"packet", b"another"]))
CUT, NOT_PCAP = GOOD[:-1], b"no capture, though it is as long as one\n"
UNKNOWN, ATOMIC, BAD_JUMP, BAD_SWAP = slot(0xFF), slot(0xDB), slot(JA, off=100), slot(0xDC, imm=8)
LONG_CODE = wide(2, 2**40) * 1000 + KEEP  # ten bytes of code a load, behind 34 of the prologue: in a page of 4,096 bytes 406 loads
TOO_LONG = 2 * 406


def translators():
    """(number, slot, program, page, helpers): the smallest that bring each of the translator's own refusals, and borders beside them."""
    yield 1, 0, KEEP, 4095, ()
    yield 1, 0, KEEP, 0, ()
    yield 2, 0, KEEP, 131073, ()
    yield 2, 0, KEEP, 2**40, ()
    yield 3, 0, KEEP * 1024 + slot(EXIT), None, ()
    yield 3, 0, bytes(16385), None, ()
    yield 5, 0, KEEP, None, (1, 2, 1)
    yield 6, 0, KEEP[:7], None, ()
    yield 6, 2, KEEP + b"\x95", None, ()
    yield 6, 1, slot(MOV_K) + wide(0, 1)[:8], None, ()
    yield 6, 1, slot(MOV_K) + wide(0, 1)[:15], None, ()
    yield 7, 0, slot(MOV_K, 11) + KEEP, None, ()
    yield 7, 1, slot(MOV_K) + slot(EXIT, src=11), None, ()
    yield 8, 1, slot(MOV_K) + UNKNOWN, None, ()
    yield 8, 0, slot(0x06) + KEEP, None, ()
    yield 8, 0, slot(0xD7, imm=16) + KEEP, None, ()
    yield 9, 2, KEEP + ATOMIC, None, ()
    yield 10, 0, BAD_SWAP + KEEP, None, ()
    yield 10, 0, slot(0xD4, imm=8) + KEEP, None, ()  # in standard mode alone
    yield 11, 0, slot(CALL, imm=7) + KEEP, None, ()
    yield 11, 0, slot(CALL, imm=7) + KEEP, None, (6, 8)
    yield 12, 1, slot(MOV_K) + slot(CALL, src=2, imm=7) + KEEP, None, (7,)
    yield 13, TOO_LONG, LONG_CODE, 4096, ()
    yield 13, TOO_LONG, LONG_CODE, None, ()
    yield 14, 0, BAD_JUMP + KEEP, None, ()
    yield 14, 1, slot(MOV_K) + slot(JA, off=-3) + KEEP, None, ()


def not_modelled():
    """(slot, program, helpers) of 19: the first such slot; a second half is none."""
    for size in (0x00, 0x08, 0x10, 0x18):
        for mode in (0x20, 0x40):
            yield 1, slot(MOV_K) + slot(mode | size) + KEEP, ()
    yield 0, slot(CALL, imm=7) + KEEP, (7,)
    yield 2, KEEP + LOCAL + LD_ABS + KEEP, ()
    yield 0, LOCAL + KEEP, ()
    yield 2, wide(0, 0) + LD_IND + KEEP, ()
    yield 3, wide(0, 0)[:8] + LD_ABS + slot(MOV_K) + LD_ABS + KEEP, ()
    yield 1, slot(JA, off=1) + LD_ABS + KEEP, ()  # that it is never run does not matter


def ordered():
    """(number, slot, program, capture, page, helpers): of two refusals the one that comes first."""
    yield 1, 0, BAD_JUMP + UNKNOWN, NOT_PCAP, 4095, (1, 1)
    yield 2, 0, bytes(16392), NOT_PCAP, 131073, ()
    yield 3, 0, bytes(16392), NOT_PCAP, None, (1, 1)
    yield 5, 0, UNKNOWN, NOT_PCAP, None, (1, 1)
    yield 8, 1, LD_ABS + UNKNOWN, NOT_PCAP, None, ()
    yield 11, 1, LD_ABS + slot(CALL, imm=7) + KEEP, CUT, None, ()
    yield 14, 1, LD_ABS + BAD_JUMP + KEEP, GOOD, None, ()
    yield 14, 0, BAD_JUMP + LD_ABS + KEEP, NOT_PCAP, None, ()
    yield 13, TOO_LONG, LONG_CODE + LD_ABS + KEEP, NOT_PCAP, 4096, ()
    yield 6, 3, LD_ABS + KEEP + b"\0", NOT_PCAP, None, ()
    for capture_given in (NOT_PCAP, CUT, GOOD, b""):
        yield 19, 0, LD_ABS + KEEP, capture_given, None, ()
    yield 17, 0, KEEP, NOT_PCAP, None, ()
    yield 17, 0, KEEP, b"", None, ()
    yield 17, 0, KEEP, b"x" + CUT, None, ()
    yield 18, 0, KEEP, CUT, None, ()
    yield 18, 0, slot(MOV_X, 0, 2) + slot(EXIT), CUT, None, ()
    yield 18, 0, b"", CUT, None, ()


def cases():
    """(Case, refusal). What the reference needs to be told is the translator's alone."""
    for number, slot_number, program, page, helpers in translators():
        refusal = (number, slot_number)
        for data in (GOOD, NOT_PCAP):
            yield Case("refusal %d" % number, program, data, page, helpers, refusal, pipe=data is GOOD, write=True), refusal
    for slot_number, program, helpers in not_modelled():
        yield Case("refusal 19", program, GOOD, None, helpers), (19, slot_number)
    for number, slot_number, program, data, page, helpers in ordered():
        refusal = (number, slot_number)
        yield Case("refusal %d first" % number, program, data, page, helpers, refusal if number < 17 else None), refusal


def held(tally):
    chosen = list(cases())
    for (case, answer, *_), (_, meant) in zip(tally.held(case for case, _ in chosen), chosen):
        if answer.refusal != meant:
            tally.add(case.name, ["the reference answers %s, and %s is meant" % (answer.refusal, meant)])
    numbers = sorted({meant[0] for _, meant in chosen})
    print("refusals: %d runs, of the numbers %s" % (len(chosen), ", ".join(map(str, numbers))), flush=True)


# ---- through ./run ---------------------------------------------------------------------------------------------------------------------


def through_run(folder, *words, given=b""):
    done = subprocess.run([RUN, "replay", *words], cwd=folder, input=given, stdout=subprocess.PIPE, stderr=subprocess.PIPE)
    return done.returncode, done.stdout.decode(), done.stderr.decode()


def contents(path):
    """None where there is no such file."""
    if not os.path.exists(path):
        return None
    with open(path, "rb") as file:
        return file.read()


def is_report(out):
    return out.startswith("packets ")


def not_understood(folder):
    """(words, what comes of them)."""
    for words in ((), ("filter",), ("filter", "capture", "capture"), ("--page", "many", "filter", "capture"),
                  ("--helper", "x", "filter", "capture"), ("--no-such-option", "filter", "capture"), ("--standard", "filter", "capture"),
                  ("filter", "capture", "--page"), ("filter", "capture", "--helper"), ("filter", "capture", "--write"),
                  (MISSING, "capture"), ("filter", MISSING), ("filter", "."), (".", "capture")):
        yield words, through_run(folder, *words)


def in_a_folder(tally, folder):
    for name, data in (("filter", KEEP), ("capture", GOOD), ("cut", CUT), ("absolute", LD_ABS + KEEP)):
        with open(os.path.join(folder, name), "wb") as file:
            file.write(data)
    status, out, err = through_run(folder, "filter", "capture")
    tally.add("./run replay, names from another folder", [] if (status, err) == (0, "") and is_report(out) else ["status %d: %s" % (status, err)])
    status, out, err = through_run(folder, "--page", "0x2000", "--helper", "7=0x1000", "--write", "kept", "filter", "-", given=GOOD)
    kept = contents(os.path.join(folder, "kept"))
    tally.add("./run replay --write, on standard input", [] if (status, err, kept) == (0, "", GOOD) else ["status %d: %s" % (status, err)])
    for words, number in ((("filter", "cut"), "18 0"), (("absolute", "capture"), "19 0"), (("filter", "filter"), "17 0")):
        status, out, err = through_run(folder, *words)
        is_right = status == 1 and "refused " + number in err.split("\n") and is_report(out) == (number == "18 0")
        tally.add("./run replay, refused with " + number, [] if is_right else ["status %d: %s" % (status, err)])
    status, out, err = through_run(folder, "--write", MISSING, "filter", "capture")
    tally.add("./run replay --write, where nothing can be written", [] if status == 1 and err.strip() else ["status %d: %s" % (status, err)])
    os.link(os.path.join(folder, "capture"), os.path.join(folder, "link"))
    for over in (("./capture", "filter", "capture"), ("link", "filter", "capture"), ("./filter", "filter", "capture")):
        status, out, err = through_run(folder, "--write", *over)
        spared = [contents(os.path.join(folder, name)) for name in ("filter", "capture")] == [KEEP, GOOD]
        is_right = status != 0 and err.strip() and not out and spared
        tally.add("./run replay --write %s, over what is read" % over[0], [] if is_right else ["status %d: %s" % (status, err)])
    status, out, err = through_run(folder, "--help")
    tally.add("./run replay --help", [] if (status, err) == (0, "") and "--write" in out else ["status %d: %s" % (status, err)])


def words(tally):
    """Words that are not understood get a sentence on standard error and status 1, and nothing on standard output."""
    with tempfile.TemporaryDirectory() as folder:
        in_a_folder(tally, folder)
        count = 0
        for given, (status, out, err) in not_understood(folder):
            is_right = status == 1 and err.strip() and not out and not any(map(REFUSED.fullmatch, err.split("\n")))
            wrong = "status %d, %d bytes of output: %s" % (status, len(out), err.strip())
            tally.add("./run replay %s" % " ".join(given), [] if is_right else [wrong])
            count += 1
    print("words that are not understood: %d" % count, flush=True)


def run(tally):
    held(tally)
    words(tally)
