"""Asks tcpdump: which packets of a capture a rule keeps, what classic BPF it makes of the rule, and whether it opens a capture."""

import struct
import subprocess

from machine import fail


def asked(*words, given=None):
    done = subprocess.run(["tcpdump", *words], input=given, stdout=subprocess.PIPE, stderr=subprocess.PIPE)
    if done.returncode:
        fail("tcpdump does not take %s: %s" % (" ".join(words), done.stderr.decode().strip()))
    return done.stdout


def records(capture):
    """(time in microseconds, captured bytes) of each packet of a little-endian capture with such times."""
    at = 24
    while at < len(capture):
        seconds, micros, length, _ = struct.unpack_from("<IIII", capture, at)
        yield seconds * 1000000 + micros, capture[at + 16:at + 16 + length]
        at += 16 + length


def kept(rule, path):
    """The times of the packets that tcpdump keeps of a capture in which no two have the same time."""
    return {time for time, _ in records(asked("-r", path, "-w", "-", rule))}


def classic(rule, path):
    """The classic BPF program, for packets such as the capture's, as `tcpdump -ddd` prints it."""
    return asked("-r", path, "-ddd", rule).decode()


def opened(path):
    """The captured bytes of each packet, as tcpdump reads the capture, whatever its format."""
    return [packet for _, packet in records(asked("-r", path, "--time-stamp-precision=micro", "-w", "-"))]
