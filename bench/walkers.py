#!/usr/bin/env python3
"""Walkers over items in memory, which check them and make no values of them: the bindings of the library are measured
beside them.

    bench/walkers.py

writes the walker in C, which has the call `etcs_check` of bindings/c/etcs.h, calls no library, and for a refused item
gives neither bit nor variable. It may read 64 bytes past an item. `taken` walks in Python.

Both are made from the rows of mix.py and from the numbers that plain/variables.rs admits. A variable that admits every
number, and on which nothing depends, is passed over.
"""

import os
import re
import sys
from collections import namedtuple

sys.dont_write_bytecode = True
import mix

HERE = os.path.dirname(os.path.abspath(__file__))
VARIABLE = re.compile(r"\b([A-Z]+_\w+) (\d+)(?: \(([^)]+)\))?")

# Bits to pass over, and then a variable, except in the last step, whose width is 0: the numbers that it admits, or
# nothing if it admits all, and the groups that depend on it, each a test and steps.
Step = namedtuple("Step", "skip width numbers groups")


def admitted():
    """The numbers that a variable admits, for those variables that don't admit all of their width."""
    with open(os.path.join(HERE, "plain", "variables.rs"), encoding="utf-8") as file:
        listed = re.search(r"\nvariables! \{\n(.*?)\n\}", file.read(), re.S)[1]
    numbers = {}
    for name, width, ranges in VARIABLE.findall(listed):
        if int(width) != mix.WIDTHS.get(name, int(width)):
            raise ValueError(f"{name} has two widths")
        ends = [it.split("..=") for it in ranges.split(" | ") if it]
        if ends:
            numbers[name] = frozenset(n for it in ends for n in range(int(it[0]), int(it[-1]) + 1))
    return numbers


def steps_of(row, numbers):
    """The steps of a row."""
    steps, skip = [], 0
    for item, following in zip(row, [*row[1:], ""]):
        if isinstance(item, tuple):
            steps[-1].groups.append((item[0], steps_of(item[1], numbers)))
            continue
        name = item.rstrip("#")
        if name in numbers or isinstance(following, tuple):
            steps.append(Step(skip, mix.WIDTHS[name], numbers.get(name), []))
            skip = 0
        else:
            skip += mix.WIDTHS[name]
    return [*steps, Step(skip, 0, None, [])]


NUMBERS = admitted()
TELEGRAM = steps_of(mix.parsed(mix.TELEGRAM_HEADER), {**NUMBERS, "M_VERSION": frozenset([32, 33])})
ROWS = {"radio": mix.ROWS_TO_TRAIN, "train": mix.ROWS_TO_TRACK}
PACKETS = {kind: {nid: steps_of(row, NUMBERS) for nid, row in rows.items()} for kind, rows in ROWS.items()}
# What a message has after L_MESSAGE and before its packets.
MESSAGES = {
    kind: {nid: steps_of(mix.parsed(f"{mix.HEADERS[kind]} {own}"), NUMBERS) for nid, own in rows.items()}
    for kind, rows in mix.MESSAGES.items()
}
USER_BITS = {"short": 210, "long": 830}


# ---- In Python.


class Refused(Exception):
    """The bytes don't begin with an item."""


class Walk:
    """A walk over bytes."""

    def __init__(self, data):
        self.number_of_all = int.from_bytes(data, "big")
        self.end = 8 * len(data)

    def number(self, at, width):
        """The number of these bits."""
        left = self.end - at - width
        if left < 0:
            raise Refused
        return self.number_of_all >> left & (1 << width) - 1

    def over(self, steps, at):
        """Where the steps end."""
        for skip, width, numbers, groups in steps:
            at += skip
            if not width:
                break
            number = self.number(at, width)
            if numbers is not None and number not in numbers:
                raise Refused
            at += width
            for test, group in groups:
                if test == "*":
                    for _ in range(number):
                        at = self.over(group, at)
                elif str(number) in test:
                    at = self.over(group, at)
        return at

    def over_packet(self, kind, nid, at, end):
        """Where a packet of this number ends, which begins here."""
        start, at = at, at + 8
        if kind == "radio":
            if self.number(at, 2) == 3:
                raise Refused
            at += 2
        after = start + self.number(at, 13)
        at += 13
        if not at <= after <= end:
            raise Refused
        row = PACKETS[kind].get(nid)
        if row is not None and self.over(row, at) != after:
            raise Refused
        return after

    def over_telegram(self, kind):
        """How many bytes the telegram has."""
        user_bits = USER_BITS[kind]
        end = user_bits - 8
        at = self.over(TELEGRAM, 0)
        while True:
            nid = self.number(at, 8)
            if nid == 255:
                break
            at = at + 14 if nid == 0 else self.over_packet("radio", nid, at, end)
            if at > end:
                raise Refused
        if self.number(user_bits, -user_bits % 8) != 0:
            raise Refused
        return (user_bits + 7) // 8

    def over_message(self, kind):
        """How many bytes the message has."""
        nid, length = self.number(0, 8), self.number(8, 10)
        at, end = 18, 8 * length
        if end > self.end or end < at:
            raise Refused
        if nid not in MESSAGES[kind]:
            return length
        at = self.over(MESSAGES[kind][nid], at)
        while at + 7 < end:
            packet = self.number(at, 8)
            if kind == "radio" and packet in (0, 255):
                raise Refused
            at = self.over_packet(kind, packet, at, end)
        if at > end:
            raise Refused
        return length


def taken(data, kind):
    """How many bytes the item has that the bytes begin with, or 0 if there is none."""
    try:
        walk = Walk(data)
        return walk.over_telegram(kind) if kind in USER_BITS else walk.over_message(kind)
    except Refused:
        return 0


# ---- In C.

HEAD = """\
/* bench/walkers.py has written this. A place is how many bits are before it, and 0 where an item is refused. */
#include "etcs.h"

static inline uint64_t number(const uint8_t *bytes, size_t at, unsigned width) {
    uint64_t word;
    __builtin_memcpy(&word, bytes + at / 8, 8);
    return __builtin_bswap64(word) << at % 8 >> (64 - width);
}
"""
BODY = """
/* Where a packet of this number ends, of which `at` is after the frame and `end` where it has to end. */
static size_t %(kind)s_packet(unsigned nid, const uint8_t *bytes, size_t at, size_t end) {
    switch (nid) {
%(cases)s
    default: return end;
    }
    return at;
}
"""
OVER_PACKET = """
/* Where the packet ends that begins here. */
static inline size_t over_%(kind)s_packet(unsigned nid, const uint8_t *bytes, size_t at, size_t end) {
    size_t frame = at + %(frame)s;
    size_t after = at + number(bytes, frame - 13, 13);
    if (after < frame || after > end || %(refused)s) return 0;
    return %(kind)s_packet(nid, bytes, frame, after) == after ? after : 0;
}
"""
OVER_TELEGRAM = """
/* The bytes of a telegram. */
static size_t telegram(const uint8_t *bytes, size_t user_bits) {
    size_t at = 0, end = user_bits - 8;
%(header)s
    for (unsigned nid; (nid = number(bytes, at, 8)) != 255;) {
        at = nid == 0 ? at + 14 : over_radio_packet(nid, bytes, at, end);
        if (at == 0 || at > end) return 0;
    }
    size_t len = (user_bits + 7) / 8;
    return (uint8_t)(bytes[len - 1] << user_bits %% 8) == 0 ? len : 0;
}
"""
OVER_MESSAGE = """
/* The bytes of a message, which are there. */
static size_t %(kind)s_message(const uint8_t *bytes, size_t len) {
    size_t at = 18, end = 8 * len;
    if (end < at) return 0;
    switch (bytes[0]) {
%(cases)s
    default: return len;
    }
    while (at + 7 < end) {
        unsigned nid = number(bytes, at, 8);
        if (%(refused)s || (at = over_%(kind)s_packet(nid, bytes, at, end)) == 0) return 0;
    }
    return at > end ? 0 : len;
}
"""
CALL = """
etcs_status etcs_check(etcs_kind kind, const uint8_t *bytes, size_t len, etcs_answer *answer) {
    size_t most = kind == ETCS_SHORT ? 27 : kind == ETCS_LONG ? 104 : len < 3 ? 3 : number(bytes, 8, 10);
    if (len < most) return ETCS_MORE;
    answer->taken = kind == ETCS_SHORT ? telegram(bytes, 210) : kind == ETCS_LONG ? telegram(bytes, 830)
        : kind == ETCS_RADIO ? radio_message(bytes, most) : train_message(bytes, most);
    return answer->taken ? ETCS_OK : ETCS_REFUSED;
}
"""


def tested(name, numbers):
    """An expression in C that says whether a number is one of these."""
    ranges = []
    for n in sorted(numbers):
        if ranges and ranges[-1][1] == n - 1:
            ranges[-1][1] = n
        else:
            ranges.append([n, n])
    lows = [f"{name} >= {low} && " if low else "" for low, _ in ranges]
    return " || ".join(f"({low}{name} <= {high})" for low, (_, high) in zip(lows, ranges))


def lines_of(steps, depth):
    """Lines in C that walk over steps from `at` on, and not far past `end`."""
    indent = "    " * depth
    for place, (skip, width, numbers, groups) in enumerate(steps):
        if skip:
            yield f"{indent}at += {skip};"
        if not width:
            break
        name = f"n{depth}_{place}"
        yield f"{indent}unsigned {name} = number(bytes, at, {width});"
        yield f"{indent}at += {width};"
        if numbers is not None:
            yield f"{indent}if (!({tested(name, numbers)})) return 0;"
        for test, group in groups:
            if test == "*" and not group[0].width:
                yield f"{indent}at += {name} * {group[0].skip};"
                continue
            if test == "*":
                yield f"{indent}for (; {name} > 0; {name}--) {{"
                yield f"{indent}    if (at > end) return 0;"
            else:
                yield f"{indent}if ({tested(name, map(int, test))}) {{"
            yield from lines_of(group, depth + 1)
            yield f"{indent}}}"


def cases(rows):
    """The cases of a switch by number, each with a row."""
    lines = []
    for nid, steps in rows.items():
        lines += [f"    case {nid}: {{", *lines_of(steps, 2), "        break;", "    }"]
    return "\n".join(lines)


def in_c():
    """The walker in C."""
    parts = [HEAD]
    for kind, frame, nid, direction in (
        ("radio", "23", "nid == 0 || nid == 255", "number(bytes, at + 8, 2) == 3"),
        ("train", "21", "0", "0"),
    ):
        parts.append(BODY % {"kind": kind, "cases": cases(PACKETS[kind])})
        parts.append(OVER_PACKET % {"kind": kind, "frame": frame, "refused": direction})
        parts.append(OVER_MESSAGE % {"kind": kind, "cases": cases(MESSAGES[kind]), "refused": nid})
    return "".join([*parts, OVER_TELEGRAM % {"header": "\n".join(lines_of(TELEGRAM, 1))}, CALL])


if __name__ == "__main__":
    sys.stdout.write(in_c())
