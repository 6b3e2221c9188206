"""Runs a filter in the Linux kernel, whose verifier, interpreter and JIT nobody here wrote, on packets with BPF_PROG_TEST_RUN. Where the
kernel does not allow that, `Refused` says so.

A filter of the form `mbuff` is loaded as an XDP program. Such a program finds the addresses of its packet in two 32-bit fields at 0 and 4
of what r1 points to, which the kernel replaces by loads of its own; `struct packet` has two 64-bit fields at 0 and 8. These loads are the
one thing that is changed, and only ahead of the first jump: one that is missed there is refused by the kernel's verifier.

A raw filter that reaches its packet by the loads from classic BPF alone is loaded unchanged as a traffic classifier. Other raw filters
mean something else in the kernel, where r1 is never the packet itself.
"""

import ctypes
import functools
import os
import platform
import struct

SYSCALL = {"x86_64": 321, "aarch64": 280}
LOAD, TEST_RUN = 5, 10
CLASSIFIER, XDP = 3, 6
ATTRIBUTE = 120  # bytes
LOG = 1 << 20
SHORTEST = 14  # bytes of a packet that the kernel takes for a test run
SHORTEST_CLASSIFIED = {0x0800: 34, 0x86DD: 54}  # and for a classifier: IP with its whole header
LOAD_64, LOAD_32, COPY_64, CALL_CLASS = 0x79, 0x61, 0xBF, (5, 6)


class Refused(Exception):
    """The kernel does not take the program, or nobody may ask it to."""


def called(command, attribute):
    number = SYSCALL.get(platform.machine())
    if number is None:
        raise Refused("the number of the system call bpf is not known on this machine")
    libc = ctypes.CDLL(None, use_errno=True)
    buffer = ctypes.create_string_buffer(attribute.ljust(ATTRIBUTE, b"\0"), ATTRIBUTE)
    result = libc.syscall(number, command, buffer, ATTRIBUTE)
    if result < 0:
        raise Refused(os.strerror(ctypes.get_errno()))
    return result, buffer.raw


def as_xdp(program):
    """The program with its loads of the packet's two addresses as XDP has them."""
    out, holders = bytearray(program), {1}
    for at in range(0, len(program), 8):
        opcode, registers, off, imm = struct.unpack_from("<BBhi", program, at)
        dst, src = registers & 15, registers >> 4
        if opcode & 7 in CALL_CLASS:
            break
        if opcode == LOAD_64 and src in holders and off in (0, 8):
            struct.pack_into("<BBhi", out, at, LOAD_32, registers, off // 2, imm)
        if opcode == COPY_64 and src in holders:
            holders.add(dst)
        elif opcode & 7 not in (2, 3):
            holders.discard(dst)
    return bytes(out)


def is_by_classic_loads(program):
    """Whether a program has the loads of RFC 9669's section 5.5 and no others."""
    opcodes = set(program[::8])
    return bool(opcodes & {0x20, 0x28, 0x30, 0x40, 0x48, 0x50}) and not any(opcode & 7 == 1 for opcode in opcodes)


def loaded(program, kind=XDP):
    """A descriptor of the program in the kernel. Only a refusal is asked for again with the verifier's reasons."""
    code, licence = ctypes.create_string_buffer(program, len(program)), ctypes.create_string_buffer(b"Dual MIT/GPL")
    attribute = struct.pack("<IIQQ", kind, len(program) // 8, ctypes.addressof(code), ctypes.addressof(licence))
    try:
        return called(LOAD, attribute)[0]
    except Refused as why:
        log = ctypes.create_string_buffer(LOG)
        try:
            return called(LOAD, attribute + struct.pack("<IIQ", 1, LOG, ctypes.addressof(log)))[0]
        except Refused:
            reasons = log.value.decode(errors="replace").strip().splitlines()
            raise Refused("%s%s" % (why, ": " + reasons[-2] if len(reasons) > 1 else "")) from None


@functools.cache
def is_allowed():
    """Whether the kernel takes the shortest program of all: r0 = 0, exit."""
    try:
        os.close(loaded(bytes.fromhex("b7000000000000009500000000000000")))
        return True
    except Refused:
        return False


def is_taken(packet, is_raw):
    """Whether the kernel takes the packet for a test run."""
    if len(packet) < SHORTEST or not is_raw:
        return len(packet) >= SHORTEST
    return len(packet) >= SHORTEST_CLASSIFIED.get(int.from_bytes(packet[12:14], "big"), SHORTEST)


def verdicts(program, is_raw, packets):
    """The low 32 bits of r0 for each packet, None for those that are too short for the kernel."""
    if is_raw and not is_by_classic_loads(program):
        return [None] * len(packets)
    descriptor = loaded(program, CLASSIFIER) if is_raw else loaded(as_xdp(program))
    try:
        return [tried(descriptor, packet) if is_taken(packet, is_raw) else None for packet in packets]
    finally:
        os.close(descriptor)


def tried(descriptor, packet):
    data = ctypes.create_string_buffer(packet, len(packet))
    attribute = struct.pack("<IIIIQQII", descriptor, 0, len(packet), 0, ctypes.addressof(data), 0, 1, 0)
    return struct.unpack_from("<I", called(TEST_RUN, attribute)[1], 4)[0]
