#!/usr/bin/env python3
"""Compares src/etcs/_rows.py, the rows of packets with groups that are repeated and the variables of messages, with the sources.

    bindings/python/rows.py            the status is 0 if they agree
    bindings/python/rows.py --write    writes the file
"""

import os
import sys

HERE = os.path.dirname(os.path.abspath(__file__))
PATH = os.path.join(HERE, "src", "etcs", "_rows.py")
sys.dont_write_bytecode = True
sys.path.insert(0, os.path.join(HERE, "..", "..", "tools"))
from schema import HEADERS
from sources import FRAMES, Many, One, When, messages, packets, variable


def flat(items):
    """Yields the words of a row: `(V TEST n)` and `[n]` take the next n words, those of groups counted."""
    for item in items:
        if isinstance(item, One):
            yield variable(item.var).name
            continue
        words = list(flat(item.items))
        yield f"({variable(item.var).name} {item.test} {len(words)})" if isinstance(item, When) else f"[{len(words)}]"
        yield from words


def is_repeated(items):
    """Whether a row has a group that is repeated."""
    return any(isinstance(it, Many) or isinstance(it, When) and is_repeated(it.items) for it in items)


def to_begin_with(var):
    """A variable with its least number, or 1 of Q_SCALE, as packets to begin with have it."""
    var = variable(var)
    return f'("{var.name}", {1 if var.name == "Q_SCALE" else var.ranges[0][0]})'


def tuple_of(parts):
    """The text of a tuple."""
    return f"({', '.join(parts)}{',' if len(parts) == 1 else ''})"


def text():
    """_rows.py."""
    rows = {nid: it.row for nid, it in packets("train").items() if is_repeated(it.row)}
    if any(is_repeated(it.row) for it in packets("track").values()):
        raise SystemExit("rows.py: a packet to the track has a group that is repeated")
    lines = "".join(f'    {nid}: "{" ".join(flat(row))}",\n' for nid, row in sorted(rows.items()))
    heads = {kind: tuple_of([to_begin_with(it) for it in HEADERS[way]]) for kind, way in (("radio", "train"), ("train", "track"))}
    heads = "".join(f'    "{kind}": {head},\n' for kind, head in heads.items())
    bodies = ""
    for kind, way in (("radio", "train"), ("train", "track")):
        own = "".join(f"        {nid}: {tuple_of([to_begin_with(one.var) for one in it.row])},\n" for nid, it in messages(way).items())
        bodies += f'    "{kind}": {{\n{own}    }},\n'
    return f"""# Written by bindings/python/rows.py from the sources.
from typing import Dict, Tuple

#: the rows of packets to the train that have groups that are repeated: `(V TEST n)` and `[n]` take the next n words, those of
#: groups counted; the first if the number of V passes the test, the second as often as the number before it says
ROWS: Dict[int, str] = {{
{lines}}}

#: how many bits a packet has before its row
FRAMES: Dict[str, int] = {{"radio": {FRAMES["train"]}, "train": {FRAMES["track"]}}}

#: the header of a message of a kind after L_MESSAGE, with the least numbers
HEADS: Dict[str, Tuple[Tuple[str, int], ...]] = {{
{heads}}}

#: the variables of its own that a message has, by its kind and number, with the least numbers and Q_SCALE 1
OWN: Dict[str, Dict[int, Tuple[Tuple[str, int], ...]]] = {{
{bodies}}}
"""


def main():
    wanted = text()
    if "--write" in sys.argv[1:]:
        with open(PATH, "w", encoding="utf-8") as file:
            file.write(wanted)
        return 0
    with open(PATH, encoding="utf-8") as file:
        if file.read() == wanted:
            return 0
    print(f"{PATH} isn't what the sources say: bindings/python/rows.py --write")
    return 1


if __name__ == "__main__":
    sys.exit(main())
