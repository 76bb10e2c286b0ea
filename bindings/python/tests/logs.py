"""logs.py PROGRAM: compares `etcs.read_log` and `etcs.groups` with PROGRAM's `log --to json`, what it says about other lines, and
its groups, over lines as FORMAT.md has them, good and bad. The status is 0 where all agree."""

import json
import os
import random
import subprocess
import sys

HERE = os.path.dirname(os.path.abspath(__file__))
sys.dont_write_bytecode = True
sys.path[:0] = [os.path.join(HERE, "..", "src"), HERE]
import etcs
from meanings import mix

KINDS = ("short", "long", "radio", "train", "long,short", "radio,train", "short,radio", "short,train", "long,short,radio,train")
LINES = 1500
NUMBERS = ("cause", "number", "below", "above", "room")


def spelled(digits, chance):
    """A line with these digits, as people write them."""
    size = chance.choice([2, 4, 8, 16])
    parts = [digits[at:at + size] for at in range(0, len(digits), size)]
    joint = chance.choice([" ", "  ", "\t", "-", ".", ":", ",", ", ", " 0x"])
    text = chance.choice([digits, digits, joint.join(parts), digits.upper(), f"0x{digits}", joint.join(f"0x{it}" for it in parts)])
    text = chance.choice(["", "", "data=", '"', "data='", "(", "[", '{"d":"', "1,", "x", "<", "d="]) + text
    text += chance.choice(["", "", "", '"', "]", '"}', ",OK", ",-63", " ; balise 1", " # noon", " # 0123456789abcdef0123", " // 0123456789abcdef0123", "\t;0123456789abcdef0123", " 0123456789abcdef0123", "#0123456789abcdef0123", "'", ">", ")", " 7F", ",", "\t", " é"])
    return chance.choice(["", "", "12:00:03 ", "btm 01 ", "é ", "A1 ", "2026-11-28T12:00:03Z ", "7F,", "\ufeff"]) + text


def line_of(items, chance):
    """A line of a log, of up to three runs of digits."""
    count = chance.choice([1, 1, 1, 2, 3])
    return chance.choice([" ", " id=", ",", "!", " ; ", " # ", " // ", "/", "  \ufeff"]).join(part_of(items, chance) for _ in range(count))


def part_of(items, chance):
    """A line of a log of one run, which may be bad, blank, a comment or text."""
    data, kind = chance.choice(items)
    what = chance.randrange(20)
    if what == 0:
        return chance.choice(["", " \t", "# noon", "  # A113", "no digits", "ABC", "0x", ",", "A1", "A1 1", "\x00", "é", "FF" * 30, "1" * 210, "0" * 830, "retry 17", "12:00 17", "idle: 123", "state machine: idle"])
    if what < 4:
        turned = bytearray(data)
        turned[chance.randrange(len(turned))] ^= 1 << chance.randrange(8)
        data = bytes(turned)
    elif what < 7:
        data = chance.choice([data[:-1], data + b"\0", data[1:], bytes([chance.randrange(256)]) + data, data + data])
    digits = data.hex()
    if what == 7 and kind in ("short", "long"):
        digits = f"{int(digits, 16):0{8 * len(data)}b}"[:210 if kind == "short" else 830]
    elif what == 8:
        digits = digits[1:]
    return spelled(digits, chance)


def said(program, text, kinds, strict):
    """Returns what the program says about each line, by its number, and the groups."""
    words = [program, "log", "--kind", kinds, "--to", "json", "--groups", *["--strict"] * strict]
    ran = subprocess.run(words, input=text, stdout=subprocess.PIPE, stderr=subprocess.PIPE, check=False)
    found, groups = {}, []
    for line in ran.stdout.decode().split("\n")[:-1]:
        tree = json.loads(line)
        found[tree["line"]] = (tree["front"], tree["item"])
    for line in ran.stderr.decode().split("\n")[:-1]:
        if line.startswith("group "):
            groups.append(line)
        else:
            tree = json.loads(line)
            if tree["cause"] != "another item":
                found[tree["line"]] = noted(tree)
    return found, groups


def noted(tree):
    """What the program says about a bad line or one of another kind, and the numbers of a refusal."""
    if "bit" in tree:
        return (f"refused at bit {tree['bit']}, {tree['variable']}: {tree['reason']}", *map(tree.get, NUMBERS))
    return ("other: " * (tree["cause"] == "other") + tree["reason"],)


def fault_of(line):
    """The same of a line that the module read."""
    return (line.note, *(getattr(line.fault, it) for it in NUMBERS if isinstance(line.fault, etcs.Refused)))


def grouped(items, chance):
    """Telegrams of few groups, so that they meet."""
    for _ in range(LINES // 3):
        data, kind = chance.choice([it for it in items if it[1] in ("short", "long")])
        item = etcs.decode(data, kind)
        total = chance.randrange(3)
        for name, number in (("NID_C", 1), ("NID_BG", chance.randrange(40)), ("N_TOTAL", total), ("N_PIG", chance.randrange(total + 1) if chance.random() < .95 else 5), ("M_DUP", chance.choice([0, 0, 0, 1, 2])), ("M_MCOUNT", chance.choice([255, 255, 7, 7, 7, 254]))):
            item[name] = number
        yield etcs.encode(item).hex()


def main():
    program, chance = sys.argv[1], random.Random(int(sys.argv[2]) if len(sys.argv) > 2 else 1)
    items = [(data, kind) for kind in etcs.KINDS for data in mix(kind)]
    lines = [line_of(items, chance) for _ in range(LINES)] + list(grouped(items, chance))
    text = chance.choice(["\n", "\r\n"]).join(lines).encode() + b"\n\xff\xfe A1 " + bytes.fromhex("80").hex().encode() + b"\n"
    wrong = count = 0
    for at, kinds in enumerate(KINDS):
        strict = at % 2 == 1
        found, groups = said(program, text, kinds, strict)
        read = list(etcs.read_log(text.split(b"\n")[:-1], kinds, strict=strict))
        mine = {it.number: (it.front, it.item.to_dict()) if it.item is not None else fault_of(it) for it in read}
        count += len(mine)
        for number in sorted({*found, *mine}):
            if found.get(number) != mine.get(number):
                wrong += 1
                print(kinds, number, repr(text.split(b"\n")[number - 1])[:300], found.get(number), mine.get(number), sep="\n  ")
        if groups != list(map(str, etcs.groups(read))):
            wrong += 1
            print(kinds, [it for it in zip(groups, map(str, etcs.groups(read))) if it[0] != it[1]][:5])
        again = list(etcs.read_log(text.decode("utf-8", "replace").splitlines(keepends=True) if kinds == "short" and b"\x00" not in text else [], kinds))
        wrong += bool(again) and [it.note for it in again] != [it.note for it in read]
    print(f"logs: {count} lines, {wrong} differ")
    return 1 if wrong else 0


if __name__ == "__main__":
    sys.exit(main())
