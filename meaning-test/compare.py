"""Holds the meaning, RFC 9669's step as crate ebpf_meaning defines it in antt, to two that know nothing of antt: the interpreter of exec-test/
and the Linux kernel. `meaning-test/run` starts it.

The interpreter: what it makes of the steps of steps.py is the table of crates/ebpf_meaning/proofs/MeaningTests.antt, which antt computes
again whenever the crate is proved. That the file is this table is compared here; --emit writes it. Each opcode's steps have to tell it from
every other opcode. The kernel: programs.py.
"""

import os
import sys

HERE = os.path.dirname(os.path.abspath(__file__))
sys.path[:0] = [HERE, os.path.join(HERE, "..", "exec-test")]

import programs
from interpreter import M32
from steps import confused, steps

TABLE = os.path.join(HERE, "..", "crates", "ebpf_meaning", "proofs", "MeaningTests.antt")


def number(n):
    return str(n) if n < 1000 else "0x" + format(n, "_x")


def line(step):
    """A step and what comes of it. The table has a place for one register that changes, dst."""
    following, behind = step.outcome()
    expected = step.registers()
    expected[step.dst] = behind[step.dst]
    if behind != expected:
        programs.fail("%s changes another register than its dst in the interpreter" % step.name)
    fields = (step.dst, step.src, step.off & M32, step.imm, step.left, step.right, following, behind[step.dst])
    return "    line 0x%02x %s ∷" % (step.opcode, " ".join(map(number, fields)))


def table(all_steps):
    lines, name = [], None
    for step in all_steps:
        lines += ["    -- " + step.name] * (step.name != name) + [line(step)]
        name = step.name
    return programs.filled("MeaningTests.head", count=len(all_steps)) + "\n".join([*lines, "    []"]) + programs.filled("MeaningTests.tail")


def squeezed(text):
    return "".join(text.split())


def is_stored(text):
    """`rt fmt` sets the lines of the file."""
    if not os.path.exists(TABLE):
        return False
    with open(TABLE) as file:
        return squeezed(file.read()) == squeezed(text)


def say(parts):
    for about, some in parts.items():
        print("%-20s %4d steps, of %2d opcodes" % (about, len(some), len({step.opcode for step in some})), flush=True)


def problems(all_steps, text):
    """What is wrong with the stored table."""
    for one, other in confused(all_steps):
        yield "its steps of opcode %#04x would be those of %#04x too" % (one, other)
    if not is_stored(text):
        yield "it is not the table of the interpreter's steps (meaning-test/run --emit)"


def main():
    parts = steps()
    all_steps = [step for part in parts.values() for step in part]
    text = table(all_steps)
    if "--emit" in sys.argv:
        with open(TABLE, "w") as file:
            file.write(text)
        print("meaning-test: wrote a table of %d steps" % len(all_steps))
        return
    say(parts)
    wrong = list(problems(all_steps, text))
    for problem in wrong:
        print("DIFFERENT: crates/ebpf_meaning/proofs/MeaningTests.antt: " + problem)
    run, different = programs.compared(sys.argv[1])
    print("meaning-test: %d steps in antt's table, %d problems; %d programs of the kernel in antt, %d different" % (
        len(all_steps), len(wrong), run, different))
    sys.exit(1 if wrong or different else 0)


main()
