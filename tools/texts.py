#!/usr/bin/env python3
"""Puts the texts that the program prints as they are into crates/etcs_cli/src/texts.rt.

    tools/texts.py [--check [PROGRAM]]

They are docs/etcs.schema.json (`etcs schema`), share/etcs.tables.json (`etcs tables`) and the files of share/completions
(`etcs completions SHELL`). Each is cut after a LF into pieces, of which the prover takes no longer ones. With --check nothing is
written, and the status is 1 if the source has another text, or if PROGRAM prints another one.
"""

import os
import subprocess
import sys

TOP = os.path.dirname(os.path.dirname(os.path.realpath(__file__)))
SOURCE = f"{TOP}/crates/etcs_cli/src/texts.rt"
# The name of a text in the source, its file, and the words of the program that print it.
TEXTS = (
    ("SCHEMA", "docs/etcs.schema.json", ["schema"]),
    ("TABLES", "share/etcs.tables.json", ["tables"]),
    ("BASH", "share/completions/etcs.bash", ["completions", "bash"]),
    ("ZSH", "share/completions/_etcs", ["completions", "zsh"]),
    ("FISH", "share/completions/etcs.fish", ["completions", "fish"]),
)
MOST = 16000  # characters of a piece
HEAD = """\
//! Texts that are printed as they are. tools/texts.py writes this file.

use std::io::{self, Write};

/// A text.
#[derive(Clone, Copy, Debug, PartialEq, Eq)]
pub(crate) enum Text {
    /// The JSON Schema of items.
    Schema,
    /// The tables of variables, packets and messages, as JSON.
    Tables,
    /// The completions for bash, zsh and fish.
    Bash,
    Zsh,
    Fish,
}
"""


def pieces_of(text):
    """Yields the pieces of a text."""
    piece = ""
    for line in text.splitlines(keepends=True):
        if len(piece) + len(line) > MOST:
            yield piece
            piece = ""
        piece += line
    yield piece


def literal(text):
    """Returns what stands for a text in a string literal of one line."""
    return text.replace("\\", "\\\\").replace('"', '\\"').replace("\n", "\\n")


def read(path):
    with open(f"{TOP}/{path}", encoding="utf-8") as file:
        return file.read()


def made():
    """Returns the source."""
    parts, writers, arms = [HEAD], [], []
    for name, path, _ in TEXTS:
        pieces = list(pieces_of(read(path)))
        names = [name if len(pieces) == 1 else f"{name}_{number}" for number in range(1, len(pieces) + 1)]
        parts += [f'\n/// {path}{"" if len(pieces) == 1 else f", part {number}"}.\nstatic {it}: &str =\n    "{literal(piece)}";\n' for number, (it, piece) in enumerate(zip(names, pieces), 1)]
        calls = "".join(f"    out.write_all({it}.as_bytes())?;\n" for it in names[:-1])
        writers.append(f"\n/// Writes {path}.\nfn write_{name.lower()}(out: &mut impl Write) -> io::Result<()> {{\n{calls}    out.write_all({names[-1]}.as_bytes())\n}}\n")
        arms.append(f"        Text::{name.capitalize()} => write_{name.lower()}(out),\n")
    end = f"\n/// Writes the text.\npub(crate) fn write_text(text: Text, out: &mut impl Write) -> io::Result<()> {{\n    match text {{\n{''.join(arms)}    }}\n}}\n"
    return "".join([*parts, *writers, end])


def differing(program):
    """Yields what differs: the source, and what the program prints."""
    with open(SOURCE, encoding="utf-8") as file:
        if file.read() != made():
            yield f"{os.path.relpath(SOURCE, TOP)} has other texts than {', '.join(path for _, path, _ in TEXTS)}: run tools/texts.py"
    for _, path, words in TEXTS if program else ():
        if subprocess.run([program, *words], capture_output=True, text=True).stdout != read(path):
            yield f"etcs {' '.join(words)} prints another text than {path}"


def main(words):
    if words and (words[0] != "--check" or len(words) > 2):
        print(__doc__, file=sys.stderr)
        return 2
    if not words:
        with open(SOURCE, "w", encoding="utf-8") as file:
            file.write(made())
        return 0
    found = list(differing(words[1] if len(words) > 1 else None))
    print("\n".join(found) or f"{len(TEXTS)} texts of the program, no difference")
    return 1 if found else 0


if __name__ == "__main__":
    sys.exit(main(sys.argv[1:]))
