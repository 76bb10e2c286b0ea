#!/usr/bin/env python3
"""Draws changed lines of JSON, and changed items, from bench/mix.py's mix.

    bench/edits.py short|long|radio|train [--lines N] [--seed N]

Each line has one change: of a bit, a digit, a number, a name, a mark, a pair, a packet, any byte, or the order of
packets or members. Some lines are still as the program writes them, some are other JSON of an item, and most are no
item. The same kind, number of lines and seed give the same lines. `items` changes a bit of an item, cuts bytes off or
adds some.
"""

import argparse
import json
import random
import re
import sys

sys.dont_write_bytecode = True
import mix

LINES = 1000
DIGIT = re.compile(r"\d")
BIT = re.compile(r"(?<=[01])[01](?=[01])")
NAME = re.compile(r"(?<=\[\")[A-Z_]+")
BITS = re.compile(r"(?<=:\")[01]*(?=\")")
NUMBER = re.compile(r"(?<=[,:])\d+")
NID = re.compile(r"(?<=\"nid\":)\d+")
MARK = re.compile(r"[\[\]{},:\"]")
FIELDS = re.compile(r"(\{)(\"dir\":\d,)?\"fields\":(\[\]|\[\[.*?\]\]),(?=\"nid\")")
PAIR = re.compile(r"\[\"[A-Z_]+\",[^\]]*\],?")


def replaced(line, found, text):
    """The line with another text in place of what was found, and as it is if nothing was."""
    return line[: found.start()] + text + line[found.end() :] if found else line


def one(pattern, line, by_chance):
    """One of the places where a pattern is, or nothing."""
    found = list(pattern.finditer(line))
    return by_chance.choice(found) if found else None


def digit(line, by_chance):
    return replaced(line, one(DIGIT, line, by_chance), by_chance.choice("0123456789"))


def bit(line, by_chance):
    return replaced(line, one(BIT, line, by_chance), by_chance.choice("01"))


def longer(line, by_chance):
    """The line with a byte more of bits."""
    found = one(BITS, line, by_chance)
    return replaced(line, found, found[0] + by_chance.choice(["00000000", "11111111"])) if found else line


def zero(line, by_chance):
    """The line with a zero in front of a number."""
    found = one(NUMBER, line, by_chance)
    return replaced(line, found, f"0{found[0]}")


def nid(line, by_chance):
    return replaced(line, one(NID, line, by_chance), str(by_chance.choice([0, 1, 4, 24, 44, 64, 137, 145, 255, 256])))


def mark(line, by_chance):
    """The line with a mark removed, doubled or replaced, or with a comma before or after it."""
    found = one(MARK, line, by_chance)
    return replaced(line, found, by_chance.choice(["", 2 * found[0], *'[]{}:," ', f",{found[0]}", f"{found[0]},"]))


def kept(line, by_chance):
    """The line with a packet as if it were kept, or with a direction too many or too few."""
    found = one(FIELDS, line, by_chance)
    if found is None:
        return line
    direction, fields = found[2] or "", found[3]
    data = "".join(by_chance.choice("01") for _ in range(by_chance.randrange(9)))
    other = "" if direction else '"dir":1,'
    parts = [f'"data":"{data}",{direction}', f'{other}"fields":{fields},', f'"data":"{data}",{found[0][1:]}']
    return replaced(line, found, f"{found[1]}{by_chance.choice(parts)}")


def name(line, by_chance):
    return replaced(line, one(NAME, line, by_chance), by_chance.choice([*mix.WIDTHS, *NAME.findall(line)]))


def removed_pair(line, by_chance):
    return replaced(line, one(PAIR, line, by_chance), "")


def doubled_pair(line, by_chance):
    found = one(PAIR, line, by_chance)
    return replaced(line, found, 2 * found[0]) if found else line


def removed_byte(line, by_chance):
    at = by_chance.randrange(len(line))
    return line[:at] + line[at + 1 :]


def added_byte(line, by_chance):
    at = by_chance.randrange(len(line) + 1)
    return line[:at] + by_chance.choice(" \t0,]}\"") + line[at:]


def packets(line, by_chance):
    """The line with its packets in another order."""
    tree = json.loads(line)
    by_chance.shuffle(tree.get("packets", []))
    return json.dumps(tree, separators=(",", ":"))


def markers(line, by_chance):
    """The line with four markers before its packets, which have 56 bits."""
    tree = json.loads(line)
    if "packets" in tree:
        tree["packets"][:0] = 4 * [{"fields": [["NID_VBCMK", by_chance.randrange(64)]], "nid": 0}]
    if "fill" in tree:
        tree["fill"] = tree["fill"][56:]
    return json.dumps(tree, separators=(",", ":"))


def members(line, by_chance):
    """The line with its members in another order."""
    members = list(json.loads(line).items())
    by_chance.shuffle(members)
    return json.dumps(dict(members), separators=(",", ":"))


CHANGES = [
    bit, longer, digit, zero, nid, name, mark, removed_pair, doubled_pair, kept, removed_byte, added_byte, packets,
    markers, members,
]


def lines(kind, count=LINES, seed=mix.SEED):
    """As many changed lines of a kind."""
    by_chance = random.Random(f"edits {kind} {seed}")
    drawn = mix.written("json", mix.items(kind, count, seed)).decode().splitlines()
    return [by_chance.choice(CHANGES)(line, by_chance).encode() + b"\n" for line in drawn]


def changed(item, by_chance):
    """An item with one change."""
    if by_chance.randrange(2) == 0:
        bit = 1 << by_chance.randrange(8 * len(item))
        return (int.from_bytes(item, "big") ^ bit).to_bytes(len(item), "big")
    if by_chance.randrange(2) == 0:
        return item[: by_chance.randrange(len(item))]
    return item + bytes(by_chance.randrange(256) for _ in range(by_chance.randint(1, 8)))


def items(kind, count=LINES, seed=mix.SEED):
    """As many changed items of a kind."""
    by_chance = random.Random(f"changed items {kind} {seed}")
    return [changed(item, by_chance) for item, _ in mix.items(kind, count, seed)]


def main():
    words = argparse.ArgumentParser(description=__doc__, formatter_class=argparse.RawDescriptionHelpFormatter)
    words.add_argument("kind", choices=mix.KINDS)
    words.add_argument("--lines", type=int, default=LINES)
    words.add_argument("--seed", type=int, default=mix.SEED)
    words = words.parse_args()
    sys.stdout.buffer.write(b"".join(lines(words.kind, words.lines, words.seed)))


if __name__ == "__main__":
    main()
