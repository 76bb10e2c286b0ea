"""The bytes that vectors are about, items drawn at random, and what a program shows of them, for tests of other decoders."""

import os
import random
import re
import subprocess
import sys

sys.dont_write_bytecode = True
TOP = os.path.dirname(os.path.dirname(os.path.realpath(__file__)))
sys.path += [f"{TOP}/tests", f"{TOP}/bench"]
import mix
import vectors

KINDS = ("short", "long", "radio", "train")
MESSAGES = {"message": "radio", "train_message": "train"}
COMMAND = re.compile(r"etcs (?:show|check|convert) --kind (\w+)(?: --from hex)?(?: --to \w+)? < (.+)")
KEPT = ("FILL", "OTHER_DATA", "PADDING")
EXPLAINED = re.compile(r"^ +(\d+)(?:\.\.(\d+))? +(\w+) +-?\w+(?:  (.*))?$", re.M)
DRAWN = 250  # items of each kind
LIMIT = 120  # seconds for a call of the program


def inputs(program):
    """Yields the vectors' bytes and those drawn: where they come from, the kind, the bytes, and whether they are whole items."""
    for kind in KINDS:
        yield from drawn(program, kind)
    with open(f"{TOP}/crates/etcs_vectors/stdin", encoding="utf-8", newline="") as sheet:
        for vector in vectors.vectors_of(sheet.read()):
            yield from ((f"line {line}", *rest) for line, *rest in inputs_of(*vector) if rest[1])


def inputs_of(line, kind, words, expected):
    """Yields the bytes of a vector."""
    if kind in KINDS:
        yield line, kind, bytes.fromhex(words), expected.startswith("item 1 ")
    elif kind in MESSAGES:
        yield line, MESSAGES[kind], bytes.fromhex(words), True
    elif kind == "turned":
        yield from turned(line, *words.split(" "), expected)
    elif kind == "run":
        yield from of_text(line, *words.partition(" ")[::2], expected.startswith("ok "))
    elif kind == "program" and (found := COMMAND.fullmatch(words)):
        yield from of_text(line, *found.groups(), expected.split("\n")[0] == "0")


def turned(line, kind, digits, expected):
    """Yields an item and the bytes with each of its bits turned; the bits with which they are no item are listed."""
    data = bytes.fromhex(digits)
    refused = {int(it.split(" ")[0]) for it in expected.split("\n")}
    yield line, kind, data, True
    for bit in range(8 * len(data)):
        other = bytearray(data)
        other[bit // 8] ^= 0x80 >> bit % 8
        yield f"{line}, bit {bit}", kind, bytes(other), bit not in refused


def of_text(line, kind, text, is_whole):
    """Yields the bytes of an input of hexadecimal digits."""
    words = vectors.text_bytes(text).decode().split()
    if all(re.fullmatch("([0-9A-Fa-f]{2})+", it) for it in words):
        yield line, kind, bytes.fromhex("".join(words)), is_whole


def drawn(program, kind):
    """Yields items of bench/mix.py, and the same with bits or a number changed, cut short, and with bytes after them."""
    chance = random.Random(kind)
    items = [data for data, _ in mix.items(kind, DRAWN)]
    changed = [with_bits_turned(chance, it) for it in items]
    changed += [with_number(chance, *it) for it in zip(items, places(program, kind, items)) for _ in range(3)]
    good = good_lines(program, kind, changed)
    for at, data in enumerate(items):
        yield f"drawn {at}", kind, data, True
        yield f"drawn {at}, cut", kind, data[: -chance.randint(1, 3)], False
        yield f"drawn {at}, longer", kind, data + chance.randbytes(chance.randint(1, 2)), False
    for at, data in enumerate(changed):
        yield f"changed {at}", kind, data, data in good


def with_bits_turned(chance, data):
    """Returns bytes with up to three bits turned."""
    number = int.from_bytes(data, "big")
    for _ in range(chance.randint(1, 3)):
        number ^= 1 << chance.randrange(8 * len(data))
    return number.to_bytes(len(data), "big")


def with_number(chance, data, places):
    """Returns an item with one of the largest numbers of a variable, some of which are spare or no measure."""
    first, last = chance.choice(places)
    ones, shift = (1 << last - first + 1) - 1, 8 * len(data) - last - 1
    number = max(0, ones - chance.choice([0, 0, 1, 2]))
    return (int.from_bytes(data, "big") & ~(ones << shift) | number << shift).to_bytes(len(data), "big")


def places(program, kind, items):
    """Returns for each item the first and the last bits of its variables."""
    found = []
    for first, last, *_ in explained(program, kind, b"".join(items)):
        if first == 0:
            found.append([])
        found[-1].append((first, last))
    return found


def good_lines(program, kind, given):
    """Returns those of these bytes that the program says are an item."""
    lines = "".join(it.hex() + "\n" for it in given)
    words = [program, "log", "--kind", kind, "--good"]
    done = subprocess.run(words, input=lines.encode(), capture_output=True, timeout=LIMIT)
    return {bytes.fromhex(it) for it in done.stdout.decode().split()}


def answers(program, given):
    """Returns for each of `inputs` the pairs of its items, as the program shows them; nothing if it isn't whole items."""
    items = {kind: shown(program, kind, b"".join(it[2] for it in given if it[1] == kind and it[3])) for kind in KINDS}
    return [of_bytes(items[kind], len(data)) if is_whole else None for _, kind, data, is_whole in given]


def of_bytes(items, count):
    """Returns the pairs of the next items, which have this many bytes."""
    found = []
    while count > 0:
        size, pairs = next(items)
        found.append(pairs)
        count -= size
    return found


def shown(program, kind, data):
    """Yields the bytes and the pairs of each item of these bytes, as the program shows them."""
    done = subprocess.run([program, "show", "--kind", kind, "--from", "bin"], input=data, capture_output=True, timeout=LIMIT)
    if done.returncode:
        sys.exit(f"the program doesn't show what vectors accept: {done.stderr.decode()}")
    for text in re.split(r"^item ", done.stdout.decode(), flags=re.M)[1:]:
        head, *lines = text.splitlines()
        yield -(-int(head.split()[2]) // 8), [pair(*it.split(maxsplit=2)) for it in lines if it != "end"]


def explained(program, kind, data):
    """Yields the first and the last bit of each variable of items, its name, and what its number means."""
    done = subprocess.run([program, "explain", "--kind", kind, "--from", "bin"], input=data, capture_output=True, timeout=LIMIT)
    for first, last, name, text in EXPLAINED.findall(done.stdout.decode()):
        yield int(first), int(last or first), name, text


def pair(name, text, more=""):
    """Returns a variable of a line of `show` and its number as it is sent, or its bits."""
    if name == "packet":
        return "NID_PACKET", int(text)
    if name in KEPT:
        return name, more
    return name, int(text, 16) if name == "NID_RADIO" else int(text) % 2**16 if name == "D_REF" else int(text)
