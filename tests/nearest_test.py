#!/usr/bin/env python3
"""Tests which lengths `log` names where it refuses an L_PACKET.

    tests/nearest_test.py PROGRAM

PROGRAM is `etcs`. The first packet of a short telegram gets each L_PACKET from 0 to 8191, for each typed packet with a table of
its own length below; all other bits are zeros. A length may stand there if no bit of it is refused. Of each refusal the bits up
to the refused one stand for a block of numbers. What the sentence names as the nearest lengths that fit have to be those: the
greatest below the block that may stand there, and the least above it, each if there is one; and none of the block may.

Each sentence that names others is written, at most ten for a packet. The last line has the counts. The status is 0 if there is
none, 1 if there is one, and 2 if the words are wrong or the program can't be run.
"""

import re
import subprocess
import sys

HEADER = 0xA0007F802000C >> 2  # 50 bits, then NID_PACKET
PACKETS = (3, 5, 12, 15, 16, 21, 27, 41, 46, 68, 72)
BITS = 216
FIRST = 60  # of L_PACKET
WIDTH = 13
NEAREST = re.compile(r"; (?:(\d+) and (\d+) fit|(\d+) is the (least|greatest) that fits)$")
REFUSED = re.compile(r"line (\d+): refused at bit (\d+), (\w+): (.*)")


def telegram(header, packet, length):
    bits = header << 166 | packet << (BITS - 58) | length << (BITS - FIRST - WIDTH)
    return f"{bits:054X}"


def refusals(program, lines):
    """The refused bit, the variable and the sentence of each line, None where there is none."""
    text = "".join(line + "\n" for line in lines)
    run = subprocess.run([program, "log", "--kind", "short"], input=text, capture_output=True, text=True)
    if run.returncode > 1:
        sys.exit(f"status {run.returncode}: {run.stderr}")
    found = [None] * len(lines)
    for note in (run.stdout + run.stderr).splitlines():
        if match := REFUSED.match(note):
            found[int(match[1]) - 1] = (int(match[2]), match[3], match[4])
    return found


def named(sentence):
    match = NEAREST.search(sentence)
    if not match:
        return None
    low, high, one, which = match.groups()
    if which == "least":
        return None, int(one)
    if which == "greatest":
        return int(one), None
    return int(low), int(high)


def wrong(program, packet):
    """How many lengths are refused, and which sentences about them are wrong."""
    found = refusals(program, [telegram(HEADER, packet, length) for length in range(1 << WIDTH)])
    at = {n: f[0] - FIRST for n, f in enumerate(found) if f and f[1] == "L_PACKET" and FIRST <= f[0] < FIRST + WIDTH}
    stands = [n for n in range(1 << WIDTH) if n not in at]
    bad = []
    for length, place in at.items():
        rest = WIDTH - place - 1
        block = length >> rest
        below = max((n for n in stands if n >> rest < block), default=None)
        above = min((n for n in stands if n >> rest > block), default=None)
        if any(n >> rest == block for n in stands) or named(found[length][2]) != (below, above):
            bad.append((length, found[length][2], below, above))
    return len(at), bad


def main(words):
    if len(words) != 1:
        sys.stderr.write(__doc__)
        return 2
    refused = mistaken = 0
    for packet in PACKETS:
        count, bad = wrong(words[0], packet)
        refused += count
        mistaken += len(bad)
        for length, sentence, below, above in bad[:10]:
            print(f"packet {packet}, L_PACKET {length}: {sentence}, but {below} and {above} are the nearest that fit")
    print(f"{refused} refused lengths, {mistaken} named wrongly")
    return 1 if mistaken else 0


if __name__ == "__main__":
    sys.exit(main(sys.argv[1:]))
