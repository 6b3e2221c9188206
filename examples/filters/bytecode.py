"""Compiles the filters of list.txt to bytecode, NAME.bin, which is stored beside them so that nothing else needs a compiler.
`examples/filters/build` starts it, and `--check` compares what it compiles with what is stored. bench/bytes.py compiles filters of its own
with it.

The bytecode is the section .text, eight bytes a slot, in which a call of a function of the same file counts from the slot behind the
call. A filter that needs anything from outside that section (a global variable, a map) is an error here.
"""

import os
import struct
import subprocess
import sys
import tempfile

HERE = os.path.dirname(os.path.abspath(__file__))
sys.path.insert(0, HERE)

from manifest import filters

COMPILER = "clang-19"
SYMBOL_TABLE, RELOCATIONS = 2, 9
FUNCTION_CALL = 10  # R_BPF_64_32
CALL, LOCAL = 0x85, 1


def fail(text):
    sys.exit("examples/filters/build: " + text)


def compiled(f, folder):
    made = os.path.join(folder, f.name + ".o")
    done = subprocess.run([COMPILER, "-O2", "-Wall", "-Werror", "-target", "bpfel", "-mcpu=" + f.cpu, "-I", HERE, "-c",
                           os.path.join(HERE, f.source), "-o", made])
    if done.returncode:
        fail("%s does not compile" % f.source)
    with open(made, "rb") as file:
        return file.read()


def sections(elf):
    """Of a 64-bit little-endian ELF file: (name, type, info, bytes) of each section."""
    at, = struct.unpack_from("<Q", elf, 0x28)
    size, count, names = struct.unpack_from("<HHH", elf, 0x3A)
    heads = [struct.unpack_from("<IIQQQQIIQQ", elf, at + size * k) for k in range(count)]
    text = elf[heads[names][4]:heads[names][4] + heads[names][5]]
    return [(text[h[0]:text.index(b"\0", h[0])].decode(), h[1], h[7], elf[h[4]:h[4] + h[5]]) for h in heads]


def linked(f, elf):
    """The section .text with the calls of its own functions resolved."""
    parts = sections(elf)
    index = [p[0] for p in parts].index(".text")
    code = bytearray(parts[index][3])
    symbols = next(p[3] for p in parts if p[1] == SYMBOL_TABLE)
    for _, _, info, table in (p for p in parts if p[1] == RELOCATIONS and p[2] == index):
        for place, kind_and_symbol in struct.iter_unpack("<QQ", table):
            _, _, _, home, value, _ = struct.unpack_from("<IBBHQQ", symbols, 24 * (kind_and_symbol >> 32))
            if kind_and_symbol & 0xFFFFFFFF != FUNCTION_CALL or home != index:
                fail("%s: slot %d refers to something outside the code" % (f.name, place // 8))
            resolve(f, code, place // 8, value // 8)
    return bytes(code)


def resolve(f, code, slot, base):
    opcode, registers, _, imm = struct.unpack_from("<BBhi", code, 8 * slot)
    if opcode != CALL or registers >> 4 != LOCAL:
        fail("%s: slot %d has a relocation and is no call" % (f.name, slot))
    target = base + imm + 1
    if not 0 <= target < len(code) // 8:
        fail("%s: slot %d calls slot %d" % (f.name, slot, target))
    struct.pack_into("<i", code, 8 * slot + 4, target - slot - 1)


def main():
    check = sys.argv[1:] == ["--check"]
    if sys.argv[1:] and not check:
        fail("usage: examples/filters/build [--check]")
    different = 0
    with tempfile.TemporaryDirectory() as folder:
        for f in filters():
            code = linked(f, compiled(f, folder))
            stored = f.bytecode() if os.path.exists(f.path) else None
            different += code != stored
            if not check:
                with open(f.path, "wb") as out:
                    out.write(code)
            print("%-28s %-3s %4d slots%s" % (f.name, f.cpu, len(code) // 8, "" if code == stored else "  changed"))
    if check and different:
        fail("%d filters differ from what is stored" % different)


if __name__ == "__main__":
    main()
