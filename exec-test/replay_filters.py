"""The real filters in `replay`, part of exec-test/replay: each report is held to the reference, and each verdict to those of pages and of
tcpdump.

Every filter of examples/filters is asked for as it stands, on the stored packets: one of the form mbuff then takes the packet's first bytes
for addresses, which mostly ends in an access outside, and some are refused. To decide as its source says, a filter of that form gets slots
ahead of it that put struct packet on the stack and its address into r1; so it is asked for again, on the stored packets and on generated
ones. A filter with a call or a load from classic BPF is refused (19) and left out of that.

A page of the same bytecode, in standard mode and with the packet's length in r2, has to leave the same r0 for every packet on which the model
does not stop, and so has the page of the filter as it stands. tcpdump has to keep the same of the packets that were captured whole, where the
filter can be said in its language. Of each such rule tcpdump's own program, turned into eBPF (classic.py), is one more filter. The text
beside a slot has to be the listing's.
"""

import os
import re
import subprocess

import classic
import tcpdump
from loader import pages
from machine import BUILT, ROOT
from manifest import filters
from modes import STANDARD
from reference import DROPPED, ENDS, KEPT, check, first_not_run
from replayed import Case, File
from slots import ADD_K, ADD_X, MOV_X, SIZES, STX, slot
from traffic import Traffic, capture
from verdicts import CAPTURE, FILTERS, expectations, expected_of

SEED = 9669
BATCH = 4096  # packets that the loader gets at once
CHECKED = 2000  # generated packets on which both references are compared
LONGEST = 16384  # bytes of a program
# struct packet { data, data_end } at the far end of the stack, which no filter of the list uses.
DATA, DATA_END = -512, -504
AHEAD = b"".join([slot(MOV_X, 3, 1), slot(ADD_X, 3, 2), slot(STX | SIZES[8], 10, 1, DATA), slot(STX | SIZES[8], 10, 3, DATA_END),
                  slot(MOV_X, 1, 10), slot(ADD_K, 1, imm=DATA)])
# A rule of tcpdump's that says something else of some generated packets: it follows any number of headers, and asks for less of each.
STORED_ONLY = {"ipv6-extensions"}
LISTED = re.compile(r"slot (\d+) +at 0x[0-9a-f]+ +(.*?)(?: +-> .*)?")  # a slot's line in a listing: its text, and where it jumps


class Form:
    """A filter as the model runs it; it has list.txt's fields. `original` is the filter of the list where its page takes struct packet."""

    helpers = ()

    def __init__(self, name, program, page, original, rule):
        self.name, self.program, self.page, self.original, self.rule = name, program, page, original, rule

    def flags(self):
        """r2 is the packet's length (runner.c)."""
        return 16

    def bytecode(self):
        return self.program


def refusal_of(f):
    """The translator's, by the list."""
    return tuple(map(int, f.answer.split(":")[1:])) if f.answer != "accepted" else None


def forms():
    """The filters that the model can run, and the rules that tcpdump makes of them."""
    rules, table = {}, expectations()
    for f in filters():
        if refusal_of(f) or first_not_run(f.bytecode()) is not None:
            continue
        rule = expected_of(f, STANDARD, table)[1]
        yield Form(f.name, (AHEAD if f.form == "mbuff" else b"") + f.bytecode(), f.page, f if f.form == "mbuff" else None, rule)
        if rule and rule not in rules:
            rules[rule] = f.name
    for rule, name in rules.items():
        program = classic.program(tcpdump.classic(rule, CAPTURE))
        if len(program) <= LONGEST:
            yield Form("rule of " + name, program, 131072, None, rule)


def hosts():
    """The addresses that filters have lists of."""
    found = set()
    for source in sorted({f.source for f in filters()}):
        with open(os.path.join(FILTERS, source)) as file:
            found |= {bytes(map(int, address)) for address in re.findall(r" S\((\d+), (\d+), (\d+), (\d+)\)", file.read())}
    return sorted(found)


# ---- verdicts --------------------------------------------------------------------------------------------------------------------------


def in_pages(chosen, packets):
    """The verdicts of the page of each filter."""
    out = [[] for _ in chosen]
    for at in range(0, len(packets), BATCH):
        for verdicts, page in zip(out, pages(STANDARD, chosen, packets[at:at + BATCH])):
            verdicts += page.verdicts if not page.number else [page.answer()] * len(packets[at:at + BATCH])
    return out


def unlike_page(report, verdicts):
    """The packets on which a page parts from the model, which does not stop there."""
    return [n for n, (end, result) in enumerate(zip(report.ends, report.results)) if end in (KEPT, DROPPED) and verdicts[n] != result]


def captured_whole(read):
    """The numbers of the packets of which everything was captured: tcpdump goes by the length that a packet had."""
    return [n for n, (packet, original) in enumerate(zip(read.packets, read.originals)) if len(packet) == original]


def unlike_tcpdump(answer, kept, times):
    """The packets on which tcpdump parts from the model; one on which the model stops is not kept."""
    return [n for n in captured_whole(answer.capture) if (times[n] in kept) != (answer.report.ends[n] == KEPT)]


def parted(numbers, whose):
    return ["%s parts from the model on %d packets, the first are %s" % (whose, len(numbers), numbers[:4])] if numbers else []


class Verdicts:
    """What pages and tcpdump say of a capture."""

    def __init__(self, chosen, file, is_generated):
        self.file, self.is_generated = file, is_generated
        packets = file.read.packets
        self.times = [time for time, _ in tcpdump.records(file.data)]
        self.pages = dict(zip(chosen, in_pages(chosen, packets)))
        with_original = [form for form in chosen if form.original]
        self.originals = dict(zip(with_original, in_pages([form.original for form in with_original], packets)))

    def compare(self, tally, form, answer):
        """One row of the table: the sums, and with how many verdicts of each engine the model was compared."""
        ends = answer.report.ends
        went = sum(end in (KEPT, DROPPED) for end in ends)
        compared = [went, None, None]
        tally.add("%s, the page" % form.name, parted(unlike_page(answer.report, self.pages[form]), "the page"))
        if form.original:
            compared[1] = went
            tally.add("%s, the page of the filter as it stands" % form.name, parted(unlike_page(answer.report, self.originals[form]), "the page"))
        if form.rule and not (self.is_generated and form.name in STORED_ONLY):
            compared[2] = len(captured_whole(answer.capture))
            kept = tcpdump.kept(form.rule, self.file.path)
            tally.add("%s, tcpdump" % form.name, parted(unlike_tcpdump(answer, kept, self.times), "tcpdump"))
        counts = [len(ends), *[ends.count(end) for end in ENDS], *compared]
        return [form.name, *["-" if count is None else str(count) for count in counts]]


HEAD = ["filter", "packets", "kept", "dropped", "limit", "access", "no slot", "page", "mbuff page", "tcpdump"]


def show(rows):
    rows = [HEAD, *rows]
    widths = [max(len(row[k]) for row in rows) for k in range(len(HEAD))]
    for row in rows:
        print("  ".join(cell.ljust(width) if k == 0 else cell.rjust(width) for k, (cell, width) in enumerate(zip(row, widths))))
    sums = [sum(int(row[k]) for row in rows[1:] if row[k] != "-") for k in (7, 8, 9)]
    print("compared with the page: %d verdicts; with the page of the filter as it stands: %d; with tcpdump: %d" % tuple(sums), flush=True)


# ---- the part --------------------------------------------------------------------------------------------------------------------------


def stored():
    with open(CAPTURE, "rb") as file:
        return File(file.read(), CAPTURE)


def generated(count):
    path = os.path.join(BUILT, "generated.pcap")
    data = capture(Traffic(SEED, hosts(), stored().read.packets).records(count))
    with open(path, "wb") as file:
        file.write(data)
    return File(data, path)


def listed(f):
    """slot: its text, in the listing of the filter as it stands."""
    words = ["--standard", "--page", str(f.page), f.path]
    shown = subprocess.run([os.path.join(ROOT, "run"), "listing", *words], stdout=subprocess.PIPE, check=True).stdout.decode()
    return {int(found[1]): found[2] for line in shown.split("\n") if (found := LISTED.fullmatch(line))}


def unlike_listing(f, texts):
    lines = listed(f)
    wrong = [slot for slot in texts if lines.get(slot, "no such slot") not in texts[slot]]
    return ["the text beside %d slots is not the listing's, the first are %s" % (len(wrong), wrong[:4])] if wrong else []


def as_they_stand(tally, file):
    refused = {}
    cases = [Case(f.name + " as it stands", f.bytecode(), file, f.page, f.helpers, refusal_of(f), pipe=n % 2, write=True)
             for n, f in enumerate(filters())]
    for f, (case, answer, said, is_right) in zip(filters(), tally.held(cases)):
        if answer.refusal:
            refused.setdefault(answer.refusal[0], []).append(f.name)
            continue
        check(case.program, file.read.packets)
        if is_right:
            tally.add(case.name + ", the texts", unlike_listing(f, said.texts))
    print("as they stand: %d filters on %d packets, %d of them refused" % (len(cases), len(file.read.packets), sum(map(len, refused.values()))))
    for number, names in sorted(refused.items()):
        print("left out, refused with %2d: %s" % (number, ", ".join(names)))


def over(tally, chosen, file, is_generated):
    for form in chosen:
        check(form.program, file.read.packets[:CHECKED])
    verdicts, rows = Verdicts(chosen, file, is_generated), []
    cases = [Case(form.name, form.program, file, form.page, pipe=n % 2, write=True) for n, form in enumerate(chosen)]
    for form, (_, answer, _, is_right) in zip(chosen, tally.held(cases)):
        if is_right:
            rows.append(verdicts.compare(tally, form, answer))
    if rows:
        show(rows)


def run(tally, count):
    """Over so many generated packets."""
    chosen = list(forms())
    print("the stored packets:")
    as_they_stand(tally, stored())
    over(tally, chosen, stored(), False)
    print("generated packets:")
    over(tally, chosen, generated(count), True)
