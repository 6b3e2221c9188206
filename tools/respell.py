#!/usr/bin/env python3
"""Spells the repository's own words in snake case, as today's Rattle does: kindsOf is kinds_of, length-bytesOf is length-bytes_of.

usage: tools/respell.py [FOLDER]        at the top of the repository, or of FOLDER, once, behind the kit's port.py

What turns are names that begin with a small letter and go on with a capital one, wherever a file of crates/ has one outside a string: in .antt
files, in .rt files (whose own code has no such name), in must-fail edits, and in the code spans of *.md. A dash that joins two names of a lemma
stays; a definition or a field that specs/ declares with a dash gets an underscore. Names that begin with a capital letter stay: types,
facts, and the mnemonics and registers of Intel's manual.
"""

import pathlib
import re
import sys

ROOT = pathlib.Path(sys.argv[1] if sys.argv[1:] else ".")
NAME = r"""[^\s(){}.;,@"«»:`|]+"""
CAMEL = re.compile(r"(?:^|(?<=[-_/+]))[a-z][a-z0-9]*[A-Z][A-Za-z0-9]*")
DECLARED = re.compile(r"^\s*(?:pub |abbrev |unfoldable |mutual )*(%s) :" % NAME, re.M)
STRING = re.compile(r'"(?:[^"\\\n]|\\.)*"')
# Lemmas that would fall together with the function that they are about.
LEMMAS = {
    "jit_safety/proofs/UselessRuns.antt": "runs_by",
    "ndakoleem_replay/proofs/ExportedRunLaws.antt": "run_in",
    "jit_theorem/proofs/MapProved.antt": "map_of",
}


def snake(part):
    return re.sub(r"(?<=[a-z0-9])([A-Z])", lambda m: "_" + m[1].lower(), part)


def files(*kinds):
    return sorted(path for kind in kinds for path in (ROOT / "crates").glob("*/" + kind) if "out" not in path.parts)


def dashed():
    """The definitions and fields of specs/ whose name has a dash between words, by their new name."""
    names = {}
    for path in files("specs/**/*.antt"):
        for name in DECLARED.findall(path.read_text()):
            if "-" in name and name == name.lower():
                names[name] = name.replace("-", "_")
    return names


def respell(text, words):
    def turn(match):
        word = match[0]
        if word in words:
            return words[word]
        return CAMEL.sub(lambda m: snake(m[0]), word)
    parts, at = [], 0
    for string in STRING.finditer(text):
        parts += [re.sub(NAME, turn, text[at:string.start()]), string[0]]
        at = string.end()
    return "".join(parts + [re.sub(NAME, turn, text[at:])])


def main():
    words = dashed()
    changed = 0
    for path in files("specs/**/*.antt", "proofs/**/*.antt", "src/**/*.rt", "must-fail/*.edit"):
        text = path.read_text()
        lemma = LEMMAS.get(str(path.relative_to(ROOT / "crates")))
        new = respell(re.sub(r"(?<![\w.])%s(?=[\s,}])" % lemma, lemma + "_lem", text) if lemma else text, words)
        if new != text:
            path.write_text(new)
            changed += 1
    own = {snake_of for path in files("specs/**/*.antt") for snake_of in DECLARED.findall(path.read_text())}
    for path in sorted([*ROOT.glob("*.md"), *ROOT.glob("docs/**/*.md"), *(ROOT / "crates").glob("*/README.md")]):
        if path.name in ("PORT.md",):
            continue
        text = path.read_text()
        new = re.sub(r"`[^`\n]+`", lambda m: re.sub(NAME, lambda w: next(
            (to for to in (CAMEL.sub(lambda c: snake(c[0]), w[0]),) if to in own), w[0]), m[0]), text)
        if new != text:
            path.write_text(new)
            changed += 1
    print("%d files changed; with underscores: %s" % (changed, ", ".join(sorted(words.values()))))


main()
