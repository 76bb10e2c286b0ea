#!/usr/bin/env python3
"""Compares what tshark shows of telegrams and messages by bindings/wireshark/etcs.lua with what a program shows.

    bindings/wireshark/test.py PROGRAM

PROGRAM is `etcs`. The inputs are those of the vectors, and items of bench/mix.py, as they are and changed. Each that is whole
items has to give the same variables and numbers, in the same order, and no expert info; each other one has to have an expert info
`etcs.refused`. tests/tables_decoder.py says what is written beside each number. The preferences, the heuristic, filters, a link
layer of a user's own, and the recipe of docs/COOKBOOK.md are tried too. The status is 1 if something differs.
"""

import html
import os
import re
import subprocess
import sys
import tempfile

sys.dont_write_bytecode = True
HERE = os.path.dirname(os.path.realpath(__file__))
TOP = os.path.dirname(os.path.dirname(HERE))
sys.path.append(f"{TOP}/tests")
from tables_test import meanings, tables
from vector_inputs import KEPT, KINDS, answers, inputs

PORTS = {kind: 50001 + at for at, kind in enumerate(KINDS)}
DECODE_AS = [word for kind, port in PORTS.items() for word in ("-d", f"udp.port=={port},etcs_{kind}")]
TSHARK = ["tshark", "-n", "-X", f"lua_script:{HERE}/etcs.lua"]
RAW_IP, USER_0 = 101, 147  # link layers
FIELD = re.compile(r'<field name="etcs\.(\w+)" showname="([^"]*)".*? show="([^"]*)"')
LIMIT = 1800  # seconds for a call of tshark


# ---- Captures.


def in_udp(port, data):
    """Returns a packet of IP and UDP with a payload."""
    udp = b"".join(it.to_bytes(2, "big") for it in (40000, port, 8 + len(data), 0))
    length = 20 + len(udp) + len(data)
    address = bytes([192, 0, 2, 1])  # for documentation
    return b"\x45\0" + length.to_bytes(2, "big") + bytes([0, 0, 0, 0, 64, 17, 0, 0]) + 2 * address + udp + data


def write_capture(path, link, packets):
    """Writes a capture file of packets."""
    with open(path, "wb") as file:
        file.write(b"".join(it.to_bytes(4, "little") for it in (0xA1B2C3D4, 0x00040002, 0, 0, 262144, link)))
        for packet in packets:
            size = len(packet).to_bytes(4, "little")
            file.write(bytes(8) + size + size + packet)


def tshark(path, *words):
    """Returns what tshark writes of a capture file."""
    done = subprocess.run([*TSHARK, "-r", path, *words], capture_output=True, timeout=LIMIT, text=True)
    faults = [it for it in done.stderr.splitlines() if not it.startswith("Running as user")]
    if done.returncode or faults:
        sys.exit("\n".join([f"tshark ended with {done.returncode}", *faults[:20]]))
    return done.stdout


# ---- Variables and numbers.


def number(name, show):
    """Returns what a field shows, as `answers` gives it."""
    if name in (*KEPT, "LEFT_OVER"):
        return show
    return int(show, 0) % 2**16 if name == "D_REF" else int(show, 0)


def label(name, value, text):
    """Returns the line of a variable whose number means a text."""
    if name == "NID_RADIO":
        return f"{name}: {text}"
    value -= 2**16 * (name == "D_REF" and value >= 2**15)
    return f"{name}: {value} ({text})" if text else f"{name}: {value}"


def dissected(path):
    """Yields for each packet the pairs of its fields, the lines of those with numbers, and whether it has an expert info."""
    for packet in tshark(path, *DECODE_AS, "-T", "pdml", "-J", "etcs").split("<packet>")[1:]:
        if "Lua Error" in packet:
            sys.exit(packet)
        found = [(name.upper(), html.unescape(text), show) for name, text, show in FIELD.findall(packet)]
        pairs = [(name, number(name, show)) for name, _, show in found if name not in ("PAD", "REFUSED", "TEXT")]
        lines = [text for name, text, _ in found if name not in (*KEPT, "PAD", "REFUSED", "TEXT")]
        yield pairs, lines, any(name == "REFUSED" for name, *_ in found)


def wrong_inputs(program, path):
    """Yields the inputs that are dissected otherwise than the program shows them."""
    given, table = list(inputs(program)), tables()
    expected = answers(program, given)
    write_capture(path, RAW_IP, [in_udp(PORTS[kind], data) for _, kind, data, _ in given])
    for (line, kind, data, _), items, (pairs, lines, is_refused) in zip(given, expected, dissected(path), strict=True):
        if items is None:
            is_right = is_refused
        else:
            is_right = not is_refused and pairs == sum(items, []) and lines == [label(*it) for it in meanings(table, kind, data)]
        if not is_right:
            yield f"{line}: {kind} {data.hex().upper()}: {pairs}, {lines}, refused: {is_refused}; expected {items}"
    whole = sum(it is not None for it in expected)
    print(f"{whole} inputs of items and {len(given) - whole} others")


# ---- How payloads are found, and filters.

EXAMPLES = {"short_linking": "short", "long_line_ahead": "long", "radio_stop_in_sr": "radio", "train_position_report": "train"}
SHORT = "short telegram, NID_C 98, NID_BG 511, packets 5"
LONG = "long telegram, NID_C 98, NID_BG 2040, packets 5 12 21 27"
RADIO = "message to the train, NID_MESSAGE 24, General message, packets 137"
TRAIN = "message to the track, NID_MESSAGE 136, Train Position Report, packets 0"
CUT = "message to the train, NID_MESSAGE 24, General message, refused"
OTHER_WAY = "message to the track, NID_MESSAGE 24"
PORTS_OF_TRIES = (6000, 6001, 6000, 6001, 6000)
# What the column Info says with some words of the command line.
TRIES = [
    ("the heuristic", [], [SHORT, LONG]),
    ("ports", ["-o", "etcs.ports:6000-6001"], [SHORT, LONG, RADIO, TRAIN, CUT]),
    ("a port", ["-o", "etcs.ports:6001"], [SHORT, LONG, TRAIN]),
    ("a kind", ["-o", "etcs.ports:6000", "-o", "etcs.kind:train", "-Y", "frame.number == 3"], [OTHER_WAY]),
    ("Decode As", ["-d", "udp.port==6000,etcs", "-Y", "udp.port == 6000"], [SHORT, RADIO, CUT]),
    ("a number", ["-o", "etcs.ports:6000-6001", "-Y", "etcs.nid_bg == 511"], [SHORT]),
    ("a meaning", ["-o", "etcs.ports:6000-6001", "-Y", 'etcs.q_srstop == "go if in SR mode"'], [RADIO]),
    ("refused", ["-o", "etcs.ports:6000-6001", "-Y", "etcs.refused"], [CUT]),
]
USER_DLT = ["-o", 'uat:user_dlts:"User 0 (DLT=147)","etcs_radio","0","","0",""']


def info(path, words):
    """Returns what the column Info says of each packet of ETCS, or of those that the words choose."""
    return tshark(path, *([] if "-Y" in words else ["-Y", "etcs"]), *words, "-T", "fields", "-e", "_ws.col.Info").splitlines()


def wrong_tries(program, path):
    """Yields the tries that give something else."""
    items = []
    for name, kind in EXAMPLES.items():
        with open(f"{TOP}/examples/{name}.hex", "rb") as file:
            words = [program, "convert", "--kind", kind, "--to", "bin"]
            items.append(subprocess.run(words, stdin=file, capture_output=True, check=True).stdout)
    items.append(items[2][:-1])
    write_capture(path, RAW_IP, [in_udp(port, it) for port, it in zip(PORTS_OF_TRIES, items)])
    found = [(name, info(path, words), expected) for name, words, expected in TRIES]
    write_capture(path, USER_0, [items[2]])
    found.append(("a link layer", info(path, USER_DLT), [RADIO]))
    for name, lines, expected in found:
        if lines != expected:
            yield f"{name}: {lines}, expected {expected}"


def wrong_recipe(program, folder):
    """Yields the recipe of docs/COOKBOOK.md if it doesn't write what its comments say."""
    with open(f"{TOP}/docs/COOKBOOK.md", encoding="utf-8") as file:
        block = re.search(r"^## In Wireshark\n.*?^```sh\n(.*?)^```", file.read(), re.M | re.S)[1]
    os.symlink(os.path.realpath(program), f"{folder}/etcs")
    for name in ("examples", "bindings"):
        os.symlink(f"{TOP}/{name}", f"{folder}/{name}")
    done = subprocess.run(["bash", "-e", "-c", block], cwd=folder, capture_output=True, timeout=LIMIT, text=True)
    expected = re.findall(r"^# (.*)$", block, re.M)
    if done.returncode or done.stdout.splitlines() != expected:
        yield f"the recipe: {done.stdout}{done.stderr}"


def main(words):
    if len(words) != 1 or words[0].startswith("-"):
        sys.exit(__doc__)
    with tempfile.TemporaryDirectory() as folder:
        path = f"{folder}/capture.pcap"
        faults = [*wrong_tries(words[0], path), *wrong_recipe(words[0], folder), *wrong_inputs(words[0], path)]
    print(*faults, f"wireshark: {len(faults)} dissected otherwise", sep="\n")
    return 1 if faults else 0


if __name__ == "__main__":
    sys.exit(main(sys.argv[1:]))
