"""The helpers that pages call, as the interpreter calls them, and where the loader (runner.c) has each: those of examples/filters/README.md,
and `mix` on both sides of the numbers at which an address is loaded in another form."""

from interpreter import M32

SUBSCRIBED, MIX, CSUM_DIFF = 1, 2, 28
AT_BORDERS = {201: 2**31 - 16, 202: 2**31, 203: 2**32 - 16, 204: 2**32}

# As in runner.c, but for the first: it stands where the compiler puts it, at a low address like this.
ADDRESSES = {SUBSCRIBED: 0x401000, MIX: 0x100000000000, CSUM_DIFF: 0x100000000010, **AT_BORDERS}


def is_subscribed(_, address, *rest):
    return int(address % 256 % 7 == 0)


def mix(_, *numbers):
    total = 0
    for number in numbers:
        total = (total * 31 + number) % 2**64
    return total >> 32 ^ total & M32


def csum_diff(memory, source, source_size, target, target_size, seed):
    def halves(at, size):
        return sum(memory.load(at + k, 2) for k in range(0, size, 2))

    total = seed + halves(target, target_size) + source_size // 2 * 0xFFFF - halves(source, source_size)
    while total >> 32:
        total = (total & M32) + (total >> 32)
    return total


FUNCTIONS = {SUBSCRIBED: is_subscribed, MIX: mix, CSUM_DIFF: csum_diff, **{helper: mix for helper in AT_BORDERS}}
