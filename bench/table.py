#!/usr/bin/env python3
"""Prints the bench's tables, in Markdown, from its rows, icount.c's counts and, where there are some, its times; then a summary.

    bench/table.py ROWS COUNTS HASHLESS-COUNTS MODES-ROWS MODES-COUNTS MAPPED-ROWS MAPPED-COUNTS RUNS-ROWS RUNS-COUNTS [TIMES]

DPDK's columns stand where the counts have some of its JIT. The last line is `ratio R`: this library's instructions over the Rust's on the
corpus.
"""

import sys
from collections import Counter
from typing import NamedTuple

TITLES = [
    ("sizes", "One program, on the longest page"),
    ("pages", "One program, on a shorter page"),
    ("refused", "A program that is refused (the Rust makes its error's text)"),
    ("corpus", "The corpus"),
    ("filters", "The real filters"),
    ("kinds", "256 slots of one kind"),
]

# A row's labels in the counts, from its own: as src/measure.rs marks them.
RUST, OURS, DPDK, OURS_BESIDE_DPDK, OURS_IN_MODES = range(5)
# Ours has a label for each mode, from OURS_IN_MODES: standard mode and compact constants, off and on.
MODES = ["as rbpf", "compact", "standard", "both"]
# With a map, on a text in which every map finds room, and on one that it fills.
OURS_MAPPED = OURS_IN_MODES + len(MODES)
OURS_MAPPED_TIGHTLY = OURS_MAPPED + 1


# ---- what the files say ----------------------------------------------------------------------------------------------------------------


class Row(NamedTuple):
    table: str
    name: str
    programs: int
    slots: int
    besides: list


def rows_of(name):
    """label -> Row; besides, the line has times, or the length of the maps."""
    rows = {}
    with open(name) as lines:
        for line in lines:
            label, table, row, programs, slots, *besides = line.rstrip("\n").split("\t")
            rows[int(label)] = Row(table, row, int(programs), int(slots), [float(figure) for figure in besides])
    return rows


class Counts:
    """Of a label its instructions, without those of the marks (label 0), and its stretches; none where it was not marked."""

    def __init__(self, name):
        self.instructions, self.stretches = Counter(), Counter()
        with open(name) as lines:
            for label, count, stretches in (map(int, line.split()) for line in lines):
                self.instructions[label], self.stretches[label] = count, stretches
        mark = self.instructions[0] // self.stretches[0]
        for label, stretches in self.stretches.items():
            self.instructions[label] -= mark * stretches


# ---- columns ---------------------------------------------------------------------------------------------------------------------------


class Figures(NamedTuple):
    """A row's, or the sums of several. DPDK's JIT takes some of the programs; its count and ours beside it are of these alone."""

    programs: int
    slots: int
    rust: int
    hashless: int
    ours: int
    dpdk_programs: int
    dpdk: int
    ours_beside_dpdk: int
    rust_ns: float
    ours_ns: float


def ratio(ours, other):
    return f"{ours / other:.3f}" if other else "-"


def per_slot(count, slots):
    return f"{count / slots:.0f}" if slots else "-"


COLUMNS = {
    "programs": lambda row: row.programs,
    "DPDK takes": lambda row: row.dpdk_programs,
    "slots": lambda row: row.slots,
    "Rust": lambda row: row.rust,
    "hashless": lambda row: row.hashless,
    "DPDK": lambda row: row.dpdk or "-",
    "ours": lambda row: row.ours,
    "Rust a slot": lambda row: per_slot(row.rust, row.slots),
    "ours a slot": lambda row: per_slot(row.ours, row.slots),
    "ours / Rust": lambda row: ratio(row.ours, row.rust),
    "ours / hashless": lambda row: ratio(row.ours, row.hashless),
    "ours / DPDK": lambda row: ratio(row.ours_beside_dpdk, row.dpdk),
    "Rust ns": lambda row: int(row.rust_ns),
    "ours ns": lambda row: int(row.ours_ns),
    "ours / Rust ns": lambda row: ratio(row.ours_ns, row.rust_ns),
}
SUMMARY_COLUMNS = ["Rust", "DPDK", "ours", "ours / Rust", "ours / DPDK"]
SUMMARY_ROWS = [
    "EXIT alone",
    "16 slots",
    "256 slots",
    "2048 slots",
    "2048 slots, page of 16384",
    "2048 slots, refused at the last",
    "the corpus's accepted programs",
]
FILTERS = "the real filters"
MAPPED_ROWS = ["EXIT alone", "16 slots", "256 slots", "2048 slots", "2048 slots, page of 16384", "the corpus's accepted programs", FILTERS]
MODE_ROWS = [*SUMMARY_ROWS, FILTERS, "MOV64_IMM", "DIV64_REG", "LE 16", "MOV32_REG", "MOD32_REG", "MUL64_IMM", "LD_DW_IMM (2 slots)"]


class Table:
    """The first column is left-aligned, the others are right-aligned."""

    def __init__(self, *heads):
        self.lines = [heads]

    def add(self, *cells):
        self.lines.append([cell if isinstance(cell, str) else f"{cell:,}" for cell in cells])

    def show(self):
        widths = [max(map(len, column)) for column in zip(*self.lines)]
        lines = [[line[0].ljust(widths[0])] + [cell.rjust(width) for cell, width in zip(line[1:], widths[1:])] for line in self.lines]
        rule = ["-" * widths[0]] + ["-" * (width - 1) + ":" for width in widths[1:]]
        for line in [lines[0], rule] + lines[1:]:
            print("| " + " | ".join(line) + " |")


# ---- tables ----------------------------------------------------------------------------------------------------------------------------


class Bench:
    def __init__(self, rows, counts, hashless, times):
        self.rows, self.counts, self.hashless, self.times = rows, counts, hashless, times
        self.with_dpdk = any(counts.stretches[label + DPDK] for label in rows)

    def figures(self, label):
        row, count = self.rows[label], self.counts.instructions
        rust = [count[label + RUST], self.hashless.instructions[label + RUST]]
        dpdk = [self.counts.stretches[label + DPDK], count[label + DPDK], count[label + OURS_BESIDE_DPDK]]
        times = self.times[label].besides if self.times else [0, 0]
        return Figures(row.programs, row.slots, *rust, count[label + OURS], *dpdk, *times)

    def named(self, name):
        return self.figures(next(label for label, row in self.rows.items() if row.name == name))

    def shown(self, table):
        """name -> Figures of a table's rows, without those whose program is refused."""
        return {row.name: self.figures(label) for label, row in self.rows.items() if row.table == table and row.programs > 0}

    def show_columns(self, heads, figures):
        heads = [head for head in heads if (self.with_dpdk or "DPDK" not in head) and (self.times or "ns" not in head.split())]
        view = Table("", *heads)
        for name, row in figures.items():
            view.add(name, *[COLUMNS[head](row) for head in heads])
        view.show()

    def show(self, table):
        figures = self.shown(table)
        if not figures:
            print("There are no examples/filters/*.bin to translate.")
            return
        left_out = [row.name for row in self.rows.values() if row.table == table and row.name not in figures]
        if table == "filters":
            figures["all"] = sums(figures)
        self.show_columns(COLUMNS, figures)
        if left_out:
            print(f"\nRefused, and left out: {', '.join(left_out)}.")

    def passes(self):
        """A program that is refused at its last slot is checked; on a long page it is checked and written, on a page that is too short to
        be sure measured and written. The three make each pass's share."""
        wheres = [", refused at the last", "", ", page of 16384"]
        checked, checked_written, measured_written = (self.named(f"2048 slots{where}").ours for where in wheres)
        written = checked_written - checked
        view = Table("ours, 2,048 slots", "instructions", "a slot")
        for name, share in [("checking", checked), ("measuring", measured_written - written), ("writing", written)]:
            view.add(name, share, per_slot(share, 2048))
        view.show()

    def summary(self):
        figures = {name: self.named(name) for name in SUMMARY_ROWS}
        filters = self.shown("filters")
        if filters:
            figures[FILTERS] = sums(filters)
        self.show_columns(SUMMARY_COLUMNS, figures)
        in_part = {name: row for name, row in figures.items() if 0 < row.dpdk_programs < row.programs}
        if in_part:
            takes = " and ".join(f'{row.dpdk_programs:,} of the {row.programs:,} of "{name}"' for name, row in in_part.items())
            print(f"\nDPDK takes {takes}: its figures there and ours / DPDK are of these alone.")

    def corpus(self):
        (corpus,) = self.shown("corpus").values()
        return ratio(corpus.ours, corpus.rust)


def added_up(rows, names, figures_of):
    """name -> a row's figures, those of the real filters in one; figures_of gives what there is of a row beside its programs and slots."""
    figures = {}
    for label, row in rows.items():
        name = FILTERS if row.table == "filters" else row.name
        if name in names:
            figures.setdefault(name, Counter()).update(programs=row.programs, slots=row.slots, **figures_of(label))
    return figures


def show_modes(rows, counts):
    """Ours in every mode, on the programs that have the same verdict in all."""
    figures = added_up(rows, MODE_ROWS, lambda label: {mode: counts.instructions[label + at] for at, mode in enumerate(MODES, OURS_IN_MODES)})
    view = Table("mode", "programs", "slots", *MODES, *[f"{mode}, a slot" for mode in MODES])
    for name, row in figures.items():
        a_slot = [f"{row[mode] / row['slots']:.2f}" for mode in MODES]
        view.add(name, *[row[column] for column in ("programs", "slots", *MODES)], *a_slot)
    view.show()


def show_mapped(rows, counts):
    """Ours with a map, beside a plain translation of the same programs."""
    columns = {"plain": OURS, "mapped": OURS_MAPPED, "tightly": OURS_MAPPED_TIGHTLY}

    def figures_of(label):
        return {"text": int(rows[label].besides[0]), **{name: counts.instructions[label + at] for name, at in columns.items()}}

    view = Table("with a map", "programs", "slots", "text", *columns, "mapped / plain", "tightly / plain")
    for name, row in added_up(rows, MAPPED_ROWS, figures_of).items():
        ratios = [ratio(row[column], row["plain"]) for column in ("mapped", "tightly")]
        view.add(name, *[row[column] for column in ("programs", "slots", "text", *columns)], *ratios)
    view.show()


def show_runs(rows, counts):
    """A packet's run on the model, beside DPDK's interpreter; the slots are those that run."""
    view = Table("a run", "slots run", "ours", "DPDK", "ours, a slot", "DPDK, a slot")
    for label, row in rows.items():
        both = [counts.instructions[label + engine] if counts.stretches[label + engine] else None for engine in (OURS, DPDK)]
        view.add(row.name, row.slots, *["-" if count is None else count for count in both],
                 *["-" if count is None else f"{count / row.slots:.2f}" for count in both])
    view.show()


def sums(figures):
    return Figures(*map(sum, zip(*figures.values())))


def main():
    rows, counts, hashless, modes_rows, modes_counts, mapped_rows, mapped_counts, runs_rows, runs_counts, *times = sys.argv[1:]
    bench = Bench(rows_of(rows), Counts(counts), Counts(hashless), rows_of(times[0]) if times else {})
    for table, title in TITLES:
        print(f"\n{title}:\n")
        bench.show(table)
    print("\nOurs, by pass:\n")
    bench.passes()
    print("\nOurs, in every mode (without programs that have another verdict in one of them):\n")
    show_modes(rows_of(modes_rows), Counts(modes_counts))
    print("\nOurs, with a map of so many bytes (tightly: the text has room for no more):\n")
    show_mapped(rows_of(mapped_rows), Counts(mapped_counts))
    print("\nA packet's run on the model, which checks each access and counts each slot (DPDK's interpreter does neither):\n")
    show_runs(rows_of(runs_rows), Counts(runs_counts))
    print("\nSummary (on a page of 16384 bytes ours measures the program before it writes it):\n")
    bench.summary()
    print(f"\nratio {bench.corpus()}")


if __name__ == "__main__":
    main()
