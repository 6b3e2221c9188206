"""Asks the loader (runner.c) for pages: filters in, the translator's answer, the code and the verdicts on packets out."""

import struct
import subprocess

from machine import loader

# As in runner.c.
NO_CHANGE, REGISTERS_CHANGED = 2**32 - 1, 255


class Page:
    """What the runner says of one filter."""

    def __init__(self, output, at, count):
        self.number, self.slot, self.length, self.jumps = struct.unpack_from("<IIII", output, at)
        self.end = at + 16
        self.verdicts = []
        if self.number == 0:
            runs = [struct.unpack_from("<BQ", output, self.end + self.length + 9 * k) for k in range(count)]
            self.verdicts = [value if end == 0 else self.accident(end) for end, value in runs]
            self.end += self.length + 9 * count

    @staticmethod
    def accident(end):
        return "registers changed" if end == REGISTERS_CHANGED else "signal %d" % end

    def answer(self):
        return "refused:%d:%d" % (self.number, self.slot) if self.number else "accepted"

    def verdict(self):
        """The verdict on the only packet, or the refusal."""
        return self.answer() if self.number else self.verdicts[0]


def pages(mode, chosen, packets=(), changes=None, seconds=None):
    """A Page for each filter, translated in the mode and run on the packets; `changes` are the positions of the code bytes that are changed
    before. A page that was changed may do anything: the loader may fail (CalledProcessError) or never end (TimeoutExpired, after so many
    seconds)."""
    def counted(data):
        return struct.pack("<I", len(data)) + data

    given = bytearray(struct.pack("<I", len(packets)) + b"".join(counted(p) for p in packets))
    for f, change in zip(chosen, changes or [NO_CHANGE] * len(chosen)):
        given += struct.pack("<III%dI" % len(f.helpers), f.flags() | mode.flags, f.page, len(f.helpers), *f.helpers)
        given += counted(f.bytecode()) + struct.pack("<I", change)
    output = subprocess.run(loader(), input=given, stdout=subprocess.PIPE, check=True, timeout=seconds).stdout
    out, at = [], 0
    for _ in chosen:
        out.append(Page(output, at, len(packets)))
        at = out[-1].end
    return out
