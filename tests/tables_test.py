#!/usr/bin/env python3
"""Compares what a decoder reads by share/etcs.tables.json alone (tests/tables_decoder.py) with what a program shows.

    tests/tables_test.py PROGRAM

PROGRAM is `etcs`. The inputs are those of the vectors, and items of bench/mix.py, as they are and changed. Each that is whole
items has to give the same variables and numbers, in the same order, and numbers have to mean what `explain` says; each other one
has to be no item. The status is 1 if an input is read otherwise.
"""

import json
import re
import sys

sys.dont_write_bytecode = True
from tables_decoder import decoded
from vector_inputs import KEPT, KINDS, TOP, answers, explained, inputs

# What `explain` says beside the meaning of a number, and the variables that it puts in other words.
NOTES = re.compile(r"(^|, )(\w+( and \w+)? (is|are) next|.*(follows?|so the (packet|message) ends with bit \d+))$|^no speed$")
OTHERWISE = {"M_VERSION", "NID_PACKET", "L_PACKET", "L_MESSAGE", "NID_MN", "NID_OPERATIONAL", "NID_RADIO"}


def tables():
    """Returns the tables."""
    with open(f"{TOP}/share/etcs.tables.json", encoding="utf-8") as file:
        return json.load(file)


def read(table, kind, data):
    """Returns the pairs of each item of some bytes; nothing if they aren't whole items."""
    found = decoded(table, kind, data)
    return found and [it.pairs for it in found]


def meanings(table, kind, data):
    """Returns the variables of whole items that have numbers, with the numbers and what these mean."""
    found = [(*pair, text) for it in decoded(table, kind, data) for pair, text in zip(it.pairs, it.meanings)]
    return [it for it in found if it[0] not in KEPT]


def is_meant(name, text, said):
    """Returns whether the meaning of a number is what `explain` says, which also names messages of the other way."""
    said = NOTES.sub("", said)
    is_other = name in OTHERWISE or name == "X_TEXT" and not said or name == "NID_MESSAGE" and not text
    return is_other or said == (text or "")


def meant_otherwise(table, program, kind, given):
    """Yields each variable of the items of these bytes, of which the meaning isn't what the program explains."""
    found = [it for data in given for it in meanings(table, kind, data)]
    for (name, number, text), (_, _, other, said) in zip(found, explained(program, kind, b"".join(given)), strict=True):
        if name != other or not is_meant(name, text, said):
            yield f"{name} {number}: {text}, and {other} is explained as {said}"


def main(words):
    if len(words) != 1 or words[0].startswith("-"):
        sys.exit(__doc__)
    given, table, faults = list(inputs(words[0])), tables(), []
    for (line, kind, data, _), expected in zip(given, answers(words[0], given)):
        found = read(table, kind, data)
        if found != expected:
            faults.append(f"{line}: {kind} {data.hex().upper()}: {found}, and the program shows {expected}")
    for kind in KINDS:
        chosen = [data for line, its, data, is_whole in given if its == kind and is_whole and ", " not in line]
        faults += meant_otherwise(table, words[0], kind, chosen)
    whole = sum(is_whole for *_, is_whole in given)
    print(*faults, f"{whole} inputs of items and {len(given) - whole} others, {len(faults)} read otherwise", sep="\n")
    return 1 if faults else 0


if __name__ == "__main__":
    sys.exit(main(sys.argv[1:]))
