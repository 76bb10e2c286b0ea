#!/usr/bin/env python3
"""Tries tests/fuzz.py with programs that are wrong.

    tests/fuzz_test.py [PROGRAM [WORD ..]]

PROGRAM is `etcs`, as for tests/fuzz.py. From it are made programs that answer wrongly: two alike in each command, one that
never accepts an item, and one that ends an item at each line; and two in `explain`, which takes the first piece of a pipe
for all of it, or writes a tab as it is. Each has to be found wrong within 30 seconds, and PROGRAM itself must not be. The
status is 0 if that is so, 1 if it isn't, and 2 if the words are wrong or the program can't be run.
"""

import random
import sys

sys.dont_write_bytecode = True
import fuzz

SECONDS = 30
SEED = 1


def form_of(words):
    """The form that a call reads; nothing for a log."""
    return words[words.index("--from") + 1] if "--from" in words else ""


class Never(fuzz.Program):
    """Says that each input is cut short, or that a line is bad."""

    def run(self, words, given, size_of=None):
        form = form_of(words)
        if not given or not form:
            return super().run(words, given, size_of)
        if form == "json":
            return 1, b"", b"etcs: line 1: bad JSON\n"
        line = given.split(b"\n")[0].strip(b"\r")
        if form == "hex" and (len(line) % 2 or not line.isalnum()):
            return super().run(words, given, size_of)
        bits = 8 * len(given) if form == "bin" else 4 * len(given.translate(None, b"\r\n"))
        return 1, b"", b"etcs: item 1 truncated after %d bits\n" % bits


class ByLine(fuzz.Program):
    """Wants whole items in each line of digits, and reads no further than one that has none."""

    def run(self, words, given, size_of=None):
        if form_of(words) == "hex":
            front = b""
            for line in given.splitlines(keepends=True):
                front += line
                if super().run(["check", *words[1:5]], line)[0]:
                    break
            given = front
        return super().run(words, given, size_of)


class FirstPiece(fuzz.Program):
    """Explains nothing but the first piece that comes through a pipe."""

    def run(self, words, given, size_of=None):
        if size_of and words[0] == "explain":
            given = given[: size_of()]
        return super().run(words, given, size_of)


class Raw(fuzz.Program):
    """Writes a tab of the input where it explains it."""

    def run(self, words, given, size_of=None):
        status, output, faults = super().run(words, given, size_of)
        return status, output + b"\t" * (words[0] == "explain" and b"\t" in given), faults


def findings(program):
    """How many findings there are for a program."""
    print(f"{type(program).__name__}:", flush=True)
    return fuzz.fuzz(program, random.Random(SEED), fuzz.sheet_text(), SECONDS, 1)


def main(words):
    if words and words[0].startswith("-"):
        print(__doc__, file=sys.stderr)
        return 2
    words = words or [f"{fuzz.TOP}/crates/etcs/out/etcs"]
    try:
        found = [findings(it(words)) for it in (Never, ByLine, FirstPiece, Raw)]
    except OSError as error:
        print(f"{words[0]}: {error.strerror}", file=sys.stderr)
        return 2
    print(f"{sum(found)} of {len(found)} wrong programs are found out")
    return 0 if all(found) else 1


if __name__ == "__main__":
    sys.exit(main(sys.argv[1:]))
