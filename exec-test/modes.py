"""The four modes in which programs are translated, and where the pages of each part from RFC 9669: the entries are those of
docs/DIFFERENCES.md. Compact constants make no entry: a compact mode has those of the same mode without them."""


class Mode:
    """`flags` is what the mode adds to the flags of the loader (runner.c) and of a case (docs/CASES.md); `mended` are the entries in which
    its pages follow the RFC after all. `plain` is the same mode without compact constants, for a mode without them itself."""

    def __init__(self, name, flags, mended, plain=None):
        self.name, self.flags, self.mended, self.plain = name, flags, mended, plain or self

    def is_compact(self):
        return self.plain is not self

    def differences(self, entries):
        """Of the entries in which rbpf's pages part from the RFC, those in which this mode's do."""
        return tuple(entry for entry in entries if entry not in self.mended)


def compact(plain):
    return Mode(plain.name + ", compact", plain.flags | 8, plain.mended, plain)


RBPF = Mode("as rbpf", 0, ())
STANDARD = Mode("in standard mode", 4, ("A1", "A2", "A3", "A8", "A9"))
MODES = (RBPF, STANDARD, compact(RBPF), compact(STANDARD))  # a mode stands behind its plain one
ALL_FLAGS = 12
