"""meanings.py PROGRAM: compares what `etcs.variables` says numbers mean, and the entry of each, with what PROGRAM's `explain` prints.

It takes items of bench/mix.py, items with each packet to begin with, and the same with one number changed: for each variable
each number that has a text, the least and the largest, and some between. The status is 0 if all agree, and no text is left out."""

import os
import re
import subprocess
import sys

HERE = os.path.dirname(os.path.abspath(__file__))
TOP = os.path.join(HERE, "..", "..", "..")
sys.dont_write_bytecode = True
sys.path[:0] = [os.path.join(HERE, "..", "src"), HERE, os.path.join(TOP, "tools")]
import etcs
from sources import number_texts, units, variable
from test_etcs import all_items

#: the texts of numbers that have one, and the variables whose numbers have a unit, by the names of variables
TEXTS = {variable(var).name: texts for var, texts in number_texts().items()}
UNITS = {variable(var).name for var in units()}

MIX = 150
#: what a number means for what follows it, which a list of variables shows by itself
EFFECT = re.compile(r"(?:, |^)(?:\w+ is next|so the \w+ ends with bit \d+|characters that follow|no entry follows|1 entry follows|\d+ entries follow)$")
LINE = re.compile(r"( +)(\d+)(?:\.\.(\d+))? +(\w+) +(\S+(?: bits?)?)(?:  (.*))?$")
ENTRY = re.compile(r"( +)entry (\d+) of \d+$")


def mix(kind):
    """Yields items of the mix."""
    words = [sys.executable, os.path.join(TOP, "bench", "mix.py"), kind, "--items", str(MIX)]
    data = subprocess.run([*words, "--form", "bin"], stdout=subprocess.PIPE, check=True).stdout
    yield from (etcs.encode(item) for _, item in etcs.items(data, kind))


def tried(name, width):
    """The numbers of a variable that are looked at."""
    most = 2**width - 1
    return {it for it in (*TEXTS.get(name, {}), 0, 1, 2, 5, 31, 32, 33, 34, 65, 99, 119, 120, 121, 126, 127, 1180, 32767, 32768, 65535, most) if it <= most}


def changed(items):
    """Yields the items, and those with one number changed, a few for each variable and number."""
    done = {}
    for data, kind in items:
        yield data, kind
        sent = etcs.fields(data, kind)
        for place, field in enumerate(sent):
            if field.name not in TEXTS and field.name not in UNITS:
                continue
            for number in tried(field.name, field.width):
                if done.get((field.name, number), 0) > 1:
                    continue
                try:
                    yield etcs.from_fields([*sent[:place], field._replace(number=number), *sent[place + 1:]], kind), kind
                    done[field.name, number] = done.get((field.name, number), 0) + 1
                except etcs.EtcsError:
                    pass


def printed(program, items, kind):
    """Returns of each item what `explain` prints: variables with numbers, what they mean, and their entries."""
    text = subprocess.run([program, "explain", "--kind", kind], input="".join(f"{it.hex()}\n" for it in items), stdout=subprocess.PIPE, text=True).stdout
    found, entry = [], ()
    for line in text.split("\n"):
        if row := ENTRY.match(line):
            entry = (*entry[:len(row[1]) // 2 - 2], int(row[2]) - 1)
        head = re.match(r"  packet (\d+)(?:, (.*?))?, bits \d+ to \d+$", line)
        if line.startswith("line "):
            found.append([])
        elif head:
            found[-1].append(("NID_PACKET", int(head[1]), head[2] or "", ()))
        elif (row := LINE.match(line)) and row[4] != "NID_PACKET" and row[5][-3:] not in ("bit", "its"):
            number = int(row[5], 16) if row[4] == "NID_RADIO" else int(row[5])
            number += 65536 if row[4] == "D_REF" and number < 0 else 0
            found[-1].append((row[4], number, EFFECT.sub("", EFFECT.sub("", row[6] or "")), entry[:len(row[1]) // 2 - 1]))
    return found


def main():
    program, items, wrong, seen = sys.argv[1], {kind: [] for kind in etcs.KINDS}, 0, set()
    every = [*all_items(), *((data, kind) for kind in etcs.KINDS for data in mix(kind))]
    for data, kind in changed(every):
        items[kind].append(data)
    count = 0
    for kind, all_of in items.items():
        said = printed(program, all_of, kind)
        assert len(said) == len(all_of), (kind, len(said), len(all_of))
        for data, lines in zip(all_of, said):
            mine = [(it.name, it.number, it.meaning, it.entry) for it in etcs.variables(data, kind) if it.name not in ("FILL", "OTHER_DATA", "PADDING", "PAD")]
            seen.update(it[:2] for it in mine)
            count += len(mine)
            if mine != lines:
                wrong += 1
                print(kind, data.hex(), [it for it in zip(mine, lines) if it[0] != it[1]][:3] or (len(mine), len(lines)))
    left = [(name, number) for name, texts in TEXTS.items() for number, text in texts.items() if text and (name, number) not in seen]
    left += [name for name in UNITS if not any(it[0] == name for it in seen)]
    print(f"meanings: {count} of {sum(map(len, items.values()))} items, {wrong} items differ" + (f"; not seen: {left}" if left else ""))
    return 1 if wrong or left else 0


if __name__ == "__main__":
    sys.exit(main())
