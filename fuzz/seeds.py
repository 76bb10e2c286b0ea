#!/usr/bin/env python3
"""Writes the items, lines of JSON and fields of the examples, the vectors and seeds.txt as inputs of the fuzz target.

    fuzz/seeds.py FOLDER
"""

import glob
import hashlib
import os
import re
import sys

TOP = os.path.dirname(os.path.dirname(os.path.realpath(__file__)))
sys.dont_write_bytecode = True
sys.path.insert(0, f"{TOP}/tests")
from vectors import text_bytes, vectors_of

KINDS = ("long", "short", "radio", "train")  # by their numbers, from 1
OTHER_NAMES = {"message": "radio", "train_message": "train"}
FORMS = ("items", "line", "fields")  # by their numbers, of fuzz.h
ITEMS, LINE = 0, 1
STARVED = 32  # what is added to the number of a form if memory is refused often


def kind_of(words):
    """Returns the first kind among some words, or None."""
    return next((it for it in (OTHER_NAMES.get(word, word) for word in words) if it in KINDS), None)


def seeds():
    """Yields each input: kind, form, bytes."""
    for path in sorted(glob.glob(f"{TOP}/examples/*.hex")):
        kind = kind_of([os.path.basename(path).split("_")[0]]) or "short"
        with open(path, encoding="utf-8") as file:
            for line in file.read().split():
                yield from item(kind, line)
    with open(f"{TOP}/crates/etcs_vectors/stdin", encoding="utf-8") as file:
        for _, name, words, expected in vectors_of(file.read()):
            kind = kind_of([name, *re.split(r"[ =]", words)])
            for digits in re.findall(r"\b[0-9A-Fa-f]{6,}\b", words):
                if kind:
                    yield from item(kind, digits)
            for line in re.findall(r"\{.*\}", f"{words}\n{expected}"):
                of_line = kind_of(re.findall(r'"kind":"(\w+)"', line)) or kind
                if of_line:
                    yield of_line, LINE, text_bytes(line)


def written():
    """Yields the inputs of seeds.txt: a line KIND FORM and then bytes in hexadecimal, or after `line` JSON.

    Bytes of a line that isn't text are the form `bytes`; `starved-` before a form says that memory is refused often.
    """
    with open(f"{TOP}/fuzz/seeds.txt", encoding="utf-8") as file:
        for kind, word, text in (line.rstrip("\n").split(" ", 2) for line in file if not line.startswith("#")):
            name = word.removeprefix("starved-")
            form = LINE if name == "bytes" else FORMS.index(name)
            yield kind, form + (STARVED if name != word else 0), text.encode() if name == "line" else bytes.fromhex(text)


def long_ones():
    """Yields inputs that are too long for seeds.txt: bits for more bytes than a message has, and objects of many members."""
    yield "radio", LINE, b'{"data":"' + b"0" * 8174 + b'","kind":"radio","nid":15}'
    for count in (12, 40, 300):
        for places in (range(count), range(count, 0, -1), [7 * it % 401 for it in range(count)]):
            members = ",".join(f'"k{it:03}":{it}' for it in places)
            yield "radio", LINE, f'{{"kind":"radio","nid":24,{members}}}'.encode()


def item(kind, digits):
    """Yields the input of hexadecimal digits, if they are bytes."""
    if len(digits) % 2 == 0 and re.fullmatch("[0-9A-Fa-f]+", digits):
        yield kind, ITEMS, bytes.fromhex(digits)


def main(words):
    if len(words) != 1 or words[0].startswith("-"):
        sys.exit(__doc__)
    os.makedirs(words[0], exist_ok=True)
    found = {bytes([KINDS.index(kind) + 4 * form]) + data for kind, form, data in [*seeds(), *written(), *long_ones()]}
    for data in found:
        with open(f"{words[0]}/{hashlib.sha1(data).hexdigest()}", "wb") as file:
            file.write(data)
    print(f"{len(found)} seeds")


if __name__ == "__main__":
    main(sys.argv[1:])
