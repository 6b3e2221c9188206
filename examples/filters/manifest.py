"""Reads list.txt, the list of the filters here: for the scripts of this folder, for exec-test and for bench."""

import os

HERE = os.path.dirname(os.path.abspath(__file__))


class Filter:
    """One line of list.txt."""

    def __init__(self, line):
        self.name, self.source, self.cpu, self.form, page, helpers, self.answer = line.split()
        self.page = int(page)
        self.helpers = [] if helpers == "-" else [int(h) for h in helpers.split(",")]
        # A name may stand with a suffix that starts with '@': another line for the same bytecode.
        self.path = os.path.join(HERE, self.name.split("@")[0] + ".bin")

    def flags(self):
        """Bit 0 is use_mbuff, bit 1 update_data_ptr."""
        return {"mbuff": 1, "raw": 0}[self.form]

    def bytecode(self):
        with open(self.path, "rb") as file:
            return file.read()


def filters():
    with open(os.path.join(HERE, "list.txt")) as file:
        return [Filter(line) for line in file if line.strip() and not line.startswith("#")]
