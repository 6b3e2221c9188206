"""What this folder's scripts need of the machine, by the names that scripts/toolchain.sh puts into the environment: the x86-64 compiler and
disassembler, an emulator where the machine is not an x86-64 one, the library; and the programs of this folder that are written in C, which
are built anew where something below them has changed."""

import functools
import os
import subprocess
import sys

HERE = os.path.dirname(os.path.abspath(__file__))
ROOT = os.path.dirname(HERE)
BUILT = os.path.join(ROOT, "target", "exec-test")
COMPILER, OBJDUMP, EMULATOR, LIBRARY = (os.environ[name] for name in ("X86_GCC", "X86_OBJDUMP", "EMULATOR", "LIBRARY"))


def fail(text):
    sys.exit("exec-test: " + text)


def compiled(name, parts, options):
    """The command that runs the program, a static x86-64 one, made of NAME.c; `parts` are what else it is made of."""
    source, program = os.path.join(HERE, name + ".c"), os.path.join(BUILT, name)
    if not os.path.exists(program) or os.path.getmtime(program) < max(os.path.getmtime(part) for part in [source, *parts]):
        os.makedirs(BUILT, exist_ok=True)
        command = [COMPILER, "-O1", "-Wall", "-Werror", "-static", "-no-pie", "-fno-pie", "-o", program, source, *options]
        if subprocess.run(command).returncode:
            fail(name + ".c does not compile")
    return [*EMULATOR.split(), program]


@functools.cache
def loader():
    include = os.path.join(ROOT, "include")
    return compiled("runner", [LIBRARY, os.path.join(include, "ndakoleem.h")], ["-I", include, LIBRARY])
