#!/usr/bin/env python3
"""Writes share/help.txt: what the program writes for words that ask for help, for its version or for nothing.

    tools/help_texts.py [--check]

The texts are those of the vectors `help` of crates/etcs_vectors/stdin, which the gate compares with the program; the
script `etcs` writes from the file what the program would. With --check the file is compared, and the status is 1 if
it differs.
"""

import os
import sys

sys.dont_write_bytecode = True
sys.path.append(os.path.join(os.path.dirname(os.path.dirname(os.path.realpath(__file__))), "tests"))
from vectors import vectors_of

TOP = os.path.dirname(os.path.dirname(os.path.realpath(__file__)))
STDIN = f"{TOP}/crates/etcs_vectors/stdin"
FILE = f"{TOP}/share/help.txt"
# What a line of command lines begins with; no line of a text begins so.
MARK = "== "
HEAD = f"""\
The output for command lines that ask for help, for the version or for nothing. A line `{MARK}STATUS: LINE, LINE ..` has
command lines that are answered alike, and the text follows: to standard output where the status is 0, else to standard
error. tools/help_texts.py writes this file from crates/etcs_vectors/stdin.
"""


def section(words, expected):
    """Returns the part of the file for a vector."""
    status, _, text = expected.partition("\n")
    lines = [it for it in words.split(", ") if it.split()[0] == "etcs"]
    if any(it.startswith(MARK) for it in text.split("\n")):
        raise ValueError(f"{lines[0]}: a line of its text begins with {MARK}")
    return f"\n{MARK}{status}: {', '.join(lines)}\n{text}\n"


def made():
    """Returns the text of the file."""
    with open(STDIN, encoding="utf-8", newline="") as sheet:
        vectors = list(vectors_of(sheet.read()))
    return HEAD + "".join(section(words, expected) for _, kind, words, expected in vectors if kind == "help")


def main(words):
    if words not in ([], ["--check"]):
        sys.exit(__doc__)
    text = made()
    if not words:
        with open(FILE, "w", encoding="utf-8", newline="") as file:
            file.write(text)
        return 0
    with open(FILE, encoding="utf-8", newline="") as file:
        is_same = file.read() == text
    print("share/help.txt: no difference" if is_same else "share/help.txt has parted from the vectors: run tools/help_texts.py")
    return 0 if is_same else 1


if __name__ == "__main__":
    sys.exit(main(sys.argv[1:]))
