"""Prints tables in Markdown: how long the real filters' pages are in each mode; how many subscribers a page of 4,096 bytes holds; what the
bytes of such pages are made of. `bench/bytes` starts it.

The pages are the program `answers`', which takes a stream of cases (docs/CASES.md). A list of subscribers is examples/filters/subscribers.c
with other addresses in its switch, compiled as every filter there is. Of each kind of list one of every length is made, from one subscriber
up, until a row of them finds no room in any mode.
"""

import os
import random
import re
import struct
import subprocess
import sys
import tempfile
from collections import Counter
from typing import NamedTuple

HERE = os.path.dirname(os.path.abspath(__file__))
ROOT = os.path.dirname(HERE)
FILTERS = os.path.join(ROOT, "examples", "filters")
sys.path[:0] = [FILTERS, os.path.join(ROOT, "exec-test")]

from bytecode import compiled, linked
from listing import accepted, as_stream, records
from manifest import Filter, filters
from table import Table

# The flags of a case.
STANDARD, COMPACT, FIVE_TABLES = 1 << 2, 1 << 3, 1 << 7
MODES = {"as rbpf": 0, "compact": COMPACT, "standard": STANDARD, "both": STANDARD | COMPACT}
PAGE, LONGEST_PAGE = 4096, 131072
# A helper's address where the loader is position-independent: no 32-bit constant.
ADDRESS = 0x7F0011223340
SLOT, EPILOGUE = 8, 16  # bytes
CONDITIONAL, CONDITIONAL_JUMP, OTHER_JUMP = 1, 6, 5  # the kind of a conditional jump; bytes of one, and of another
AT_ONCE = 32  # lists that are compiled before they are translated


# ---- pages -----------------------------------------------------------------------------------------------------------------------------


def counted(items, form):
    return struct.pack("<I%d%s" % (len(items), form), len(items), *items)


def case(f, flags, page):
    """A case, without the length in front."""
    program = f.bytecode()
    entries = [len(program) // SLOT + 1] * 5
    head = struct.pack("<BI5I", f.flags() | flags | FIVE_TABLES, page, *entries)
    return head + counted(f.helpers, "I") + counted([ADDRESS] * len(f.helpers), "Q") + counted(program, "B")


def pages(chosen, length):
    """For each filter its accepted answer by the mode's name, None where it is refused, on a page of that length."""
    stream = as_stream(case(f, flags, length) for f in chosen for flags in MODES.values())
    done = subprocess.run([os.path.join(ROOT, "run"), "answers"], input=stream, stdout=subprocess.PIPE, check=True)
    found = {answer.number: answer for answer in accepted(records(done.stdout))}
    return [{mode: found.get(len(MODES) * at + n) for n, mode in enumerate(MODES)} for at in range(len(chosen))]


# ---- the real filters ------------------------------------------------------------------------------------------------------------------


def saved(longer, shorter):
    return "%.1f %%" % (100 * (longer - shorter) / longer)


def show_filters():
    view = Table("filter", "slots", "as rbpf", "compact", "saved", "standard", "both", "saved")
    chosen = [f for f in filters() if f.answer == "accepted"]
    total = Counter()
    for f, page in zip(chosen, pages(chosen, LONGEST_PAGE)):
        lengths = {mode: len(answer.code) for mode, answer in page.items()}
        total.update(lengths, slots=len(f.bytecode()) // SLOT)
        add_lengths(view, f.name, len(f.bytecode()) // SLOT, lengths)
    add_lengths(view, "all", total["slots"], total)
    view.show()


def add_lengths(view, name, slots, lengths):
    rbpfs, compact, standard, both = (lengths[mode] for mode in MODES)
    view.add(name, slots, rbpfs, compact, saved(rbpfs, compact), standard, both, saved(standard, both))


# ---- lists of subscribers --------------------------------------------------------------------------------------------------------------


class Kind(NamedTuple):
    """A kind of list: its addresses have these bits set, and of the others these at random."""

    name: str
    cpu: str
    fixed: int
    free: int


KINDS = [
    Kind("below 128.0.0.0", "v1", 0, 2**31 - 1),
    Kind("128.0.0.0 and above", "v1", 2**31, 2**31 - 1),
    Kind("all addresses", "v1", 0, 2**32 - 1),
    Kind("all addresses", "v3", 0, 2**32 - 1),
]


class List(Filter):
    """A filter that is not in list.txt."""

    def __init__(self, kind, addresses, folder):
        source = os.path.join(folder, "list.c")
        with open(source, "w") as file:
            file.write(source_of(addresses))
        super().__init__("list %s %s mbuff %d - accepted" % (source, kind.cpu, PAGE))
        self.kind, self.count, self.code = kind, len(addresses), linked(self, compiled(self, folder))

    def bytecode(self):
        return self.code


def source_of(addresses):
    with open(os.path.join(FILTERS, "subscribers.c")) as file:
        text = file.read()
    cases = "".join("\ncase %du:" % address for address in addresses)
    text, count = re.subn(r"(\s+S\(\d[^()]*\))+", lambda _: cases, text)
    assert count == 1, "subscribers.c has its list in another form"
    return text


def growing(kind, folder):
    """Lists of 1, 2, 3 .. subscribers."""
    numbers, addresses = random.Random(kind.name), []
    while True:
        address = kind.fixed | numbers.getrandbits(32) & kind.free
        if address not in addresses:
            addresses.append(address)
            yield List(kind, addresses, folder)


def tried(kind):
    """Every list that was tried, with its pages: on until so many, one behind the other, find no room."""
    out, rooms = [], True
    with tempfile.TemporaryDirectory() as folder:
        lists = growing(kind, folder)
        while rooms:
            some = [next(lists) for _ in range(AT_ONCE)]
            found = pages(some, PAGE)
            rooms = any(answer for page in found for answer in page.values())
            out += zip(some, found)
    return out


def longest(lists, mode):
    """The longest list that finds room, as every shorter one does."""
    return lists[[page[mode] is None for _, page in lists].index(True) - 1]


def show_lists(by_kind):
    view = Table("addresses", "bytecode", *MODES)
    for kind, lists in by_kind.items():
        view.add(kind.name, kind.cpu, *[longest(lists, mode)[0].count for mode in MODES])
    view.show()


# ---- what a page is made of ------------------------------------------------------------------------------------------------------------


PARTS = ["frame", "comparisons", "jumps", "constants", "loads, stores", "other"]
LD_DW_IMM, EXIT = 0x18, 0x95


def part_of(opcode):
    """Of a slot's code what is no listed jump: by RFC 9669 section 3, the class and the operation."""
    family, operation, by_register = opcode & 7, opcode & 0xF0, opcode & 8
    if opcode == LD_DW_IMM or family in (4, 7) and operation == 0xB0 and not by_register:
        return "constants"
    if family < 4:
        return "loads, stores"
    if family in (5, 6) and opcode != EXIT:
        return "comparisons"
    return "other"


def made_of(f, answer):
    """Bytes of each part of a page."""
    program, end = f.bytecode(), len(answer.code) - EPILOGUE
    parts = Counter(frame=answer.locations[0] + EPILOGUE)
    # From the last slot to the first; a wide load's second slot has no code.
    for slot in reversed([slot for slot, place in enumerate(answer.locations[:-1]) if place > 0]):
        parts[part_of(program[SLOT * slot])] += end - answer.locations[slot]
        end = answer.locations[slot]
    # The prologue's jump comes first, and is the frame's.
    for kind, maker in list(zip(answer.kinds, answer.makers))[1:]:
        length = CONDITIONAL_JUMP if kind == CONDITIONAL else OTHER_JUMP
        parts[part_of(program[SLOT * maker])] -= length
        parts["jumps"] += length
    assert sum(parts.values()) == len(answer.code) and min(parts.values()) >= 0
    return parts


def show_parts(by_kind):
    view = Table("list", "mode", "slots", "bytes", *PARTS)
    stored = [f for f in filters() if f.name in ("subscribers", "subscribers-many")]
    rows = [(f.name, f, page) for f, page in zip(stored, pages(stored, LONGEST_PAGE))]
    for kind, lists in by_kind.items():
        f, page = longest(lists, "as rbpf")
        rows.append(("%d, %s, %s" % (f.count, kind.name, kind.cpu), f, page))
    for name, f, page in rows:
        for mode in ("as rbpf", "compact"):
            parts = made_of(f, page[mode])
            view.add(name, mode, len(f.bytecode()) // SLOT, len(page[mode].code), *[parts[part] for part in PARTS])
    view.show()


def main():
    print("Bytes of the real filters' code (helpers at addresses above 4 GiB):\n")
    show_filters()
    by_kind = {kind: tried(kind) for kind in KINDS}
    print(f"\nSubscribers in a page of {PAGE:,} bytes:\n")
    show_lists(by_kind)
    print("\nWhat the pages of lists are made of, in bytes (with compact constants, the same list):\n")
    show_parts(by_kind)


main()
