#!/usr/bin/env python3
"""Compares the reasons that a program gives for refused bits with those that follow from share/etcs.tables.json alone.

    tests/reasons_test.py [--items N] [--seconds N] [--seed N] PROGRAM

PROGRAM is `etcs`. Items of bench/mix.py of all kinds are changed, by one or two bits or by another number in place of one, and
given to `log`, as text and with `--to json`; some of those that are refused are also given to `explain`, cut short at any byte.
tests/tables_refusals.py tries all numbers of a refused variable: which bit is refused, whether the tables have a number that begins
with the bits up to it, which numbers below and above them fit, and how many bits are left. What the program writes has to be that.
For some of the numbers that fit an item is made that has the same bits before the variable; the program and
tests/tables_decoder.py have to accept it.

N items (20,000) are compared, or as many as N seconds (50) allow. The same seed (1) gives the same items. Each difference is written
with its input, at most 20 of them; the last line has the counts. The status is 0, 1 if there is a difference or no item was
compared, and 2 if the words are wrong or the program can't be run.
"""

import argparse
import json
import os
import random
import re
import subprocess
import sys
import time
from collections import Counter
from concurrent.futures import ThreadPoolExecutor

sys.dont_write_bytecode = True
TOP = os.path.dirname(os.path.dirname(os.path.realpath(__file__)))
sys.path += [f"{TOP}/tests", f"{TOP}/bench"]
import mix
from tables_decoder import decoded
from tables_refusals import MESSAGE_LENGTH, PACKET_LENGTH, ROW, Reader

KINDS = ("short", "long", "radio", "train")
DRAWN = 500  # items of a kind that are changed
ROUND = 500  # changed items of a kind that are given at once
EXPLAINED = 20  # of these that are given to `explain`
SHOWN = 20  # differences that are written
LIMIT = 60  # seconds for a call of the program
LINE = re.compile(r'(?:line |\{"line":)(\d+)')
WHY = re.compile(r"refused at bit (\d+)\n(?:.*\n)*?  Why: (.*)\.\n")
MEANT = re.compile(r"(, not \d+) \([^()]*\)$")


def changed(chance, reader, data, places):
    """Returns an item with one or two bits turned, or with another number in place of one, in as many bytes as its length says."""
    number, size = int.from_bytes(data, "big"), 8 * len(data)
    for _ in range(chance.randint(1, 2)):
        at, width = chance.choice(places)
        how = chance.randrange(3)
        if how == 0:
            number ^= 1 << chance.randrange(size)
        elif how == 1:
            number ^= 1 << size - 1 - chance.randrange(at, at + width)
        else:
            ones = (1 << width) - 1
            number = number & ~(ones << size - at - width) | chance.randint(0, ones) << size - at - width
    found = number.to_bytes(len(data), "big")
    count = len(data) if reader.is_telegram else found[1] << 2 | found[2] >> 6
    # `log` gives no reason for a message that has fewer than three bytes by its length
    return found[:count] + chance.randbytes(max(0, count - len(found))) if count > 2 else data


def notes(program, kind, lines, *options):
    """Returns what `log` says of each bad line."""
    text = "".join(it.hex() + "\n" for it in lines)
    words = [program, "log", "--kind", kind, *options]
    done = subprocess.run(words, input=text, capture_output=True, text=True, timeout=LIMIT)
    said = done.stderr if options else done.stdout
    return {int(found[1]) if (found := LINE.match(it)) else it: it for it in said.splitlines()}


def note_of(line, reader, refusal):
    """Returns the note of a line with `--to json`."""
    what = {MESSAGE_LENGTH: "message", PACKET_LENGTH: "packet", ROW: "packet"}.get(refusal.here)
    members = {
        "line": line, "kind": reader.name, "bit": refusal.bit, "variable": refusal.name, "cause": refusal.cause, "number": refusal.number,
        "below": refusal.below, "above": refusal.above, what: refusal.nid, "room": refusal.room, "reason": reader.words(refusal),
    }
    return json.dumps({name: it for name, it in members.items() if it is not None}, separators=(",", ":"))


def explained(program, kind, data):
    """Returns what `explain` says of bytes: the refused bit and the sentence, without what the number means."""
    words = [program, "explain", "--kind", kind, "--from", "bin"]
    done = subprocess.run(words, input=data, capture_output=True, timeout=LIMIT)
    match = WHY.search(done.stdout.decode())
    return match and (int(match[1]), MEANT.sub(r"\1", match[2]))


class Comparison:
    """What was compared."""

    def __init__(self, program, tables):
        self.program, self.tables, self.counts, self.faults = program, tables, Counter(), []

    def compare(self, reader, given):
        """Compares what `log` says of items with the tables; returns those that are refused."""
        texts, objects = notes(self.program, reader.name, given), notes(self.program, reader.name, given, "--to", "json")
        refused = []
        for line, data in enumerate(given, 1):
            text = note = None
            if refusal := reader.refusal(data):
                self.counts[refusal.here, refusal.cause] += 1
                refused.append(data)
                text = f"line {line}: refused at bit {refusal.bit}, {refusal.name}: {reader.words(refusal)}"
                note = note_of(line, reader, refusal)
            self.note("log", reader.name, data, texts.pop(line, None), text)
            self.note("log --to json", reader.name, data, objects.pop(line, None), note)
        for note in [*texts.values(), *objects.values()]:
            self.note("log", reader.name, b"", note, None)
        return refused

    def compare_explained(self, reader, pool, given):
        """Compares what `explain` says of bytes."""
        answers = pool.map(lambda it: explained(self.program, reader.name, it), given)
        for data, answer in zip(given, answers):
            refusal = reader.refusal(data)
            if refusal:
                self.counts["explained", refusal.cause] += 1
                self.note("explain", reader.name, data, answer, (refusal.bit, reader.words(refusal)))

    def compare_fitting(self, reader, given):
        """Compares what `log` says of items that begin as these do and then have the nearest number that fits."""
        found = [(data, reader.refusal(data)) for data in given]
        items = [reader.item_with(data, it, number) for data, it in found for number in (it.below, it.above) if number is not None]
        said = notes(self.program, reader.name, items)
        for line, data in enumerate(items, 1):
            self.counts["with a number that fits",] += 1
            self.note("log", reader.name, data, said.pop(line, None), None)
            self.note("tables_decoder", reader.name, data, decoded(self.tables, reader.name, data) is None, False)

    def note(self, command, kind, data, found, expected):
        """Notes a difference."""
        if found != expected:
            self.faults.append(f"{command} --kind {kind} < {data.hex().upper()}: {found}, and by the tables {expected}")


def cut(chance, data):
    """Returns the bytes, or some of them from the first one on."""
    return data[: chance.randint(1, len(data))] if chance.randrange(2) else data


def compare_all(program, items, seconds, seed):
    """Compares items until there are so many refused ones, or the time is over."""
    with open(f"{TOP}/share/etcs.tables.json", encoding="utf-8") as file:
        tables = json.load(file)
    chance, done, until = random.Random(seed), Comparison(program, tables), time.monotonic() + seconds
    readers = [Reader(tables, kind) for kind in KINDS]
    drawn = {it.name: [(data, it.places_of(data)) for data, _ in mix.items(it.name, DRAWN, seed)] for it in readers}
    for reader in readers:
        done.compare(reader, [data for data, _ in drawn[reader.name]])
    with ThreadPoolExecutor(os.cpu_count()) as pool:
        while sum(done.counts.values()) < items and time.monotonic() < until and len(done.faults) < SHOWN:
            for reader in readers:
                given = [changed(chance, reader, *chance.choice(drawn[reader.name])) for _ in range(ROUND)]
                refused = done.compare(reader, given)
                some = chance.sample(refused, min(EXPLAINED, len(refused)))
                done.compare_fitting(reader, some)
                done.compare_explained(reader, pool, [cut(chance, it) for it in some])
    return done


def main(words):
    reader = argparse.ArgumentParser(usage=__doc__, add_help=False)
    for name, default in (("--items", 20_000), ("--seconds", 50), ("--seed", 1)):
        reader.add_argument(name, type=int, default=default)
    reader.add_argument("program")
    asked = reader.parse_args(words)
    try:
        done = compare_all(asked.program, asked.items, asked.seconds, asked.seed)
    except OSError as error:
        print(f"{asked.program}: {error.strerror}", file=sys.stderr)
        return 2
    print(*done.faults[:SHOWN], sep="\n", end="\n" * bool(done.faults))
    print(*(f"{' '.join(it)} {count}" for it, count in sorted(done.counts.items())), sep=", ")
    print(f"{sum(done.counts.values())} items, {len(done.faults)} with another reason")
    return 1 if done.faults or not done.counts else 0


if __name__ == "__main__":
    sys.exit(main(sys.argv[1:]))
