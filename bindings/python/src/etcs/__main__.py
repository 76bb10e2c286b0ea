"""A small `etcs` over the library, with a part of the program's command line.

    python -m etcs show|check --kind long|short|radio|train [--from hex|bin|json] < FILE
    python -m etcs convert --kind .. --to json|hex|bin [--from hex|bin|json] < FILE
    python -m etcs fields --kind .. < FILE        each variable with its bit, one per line

This is for trying the module. The program is proved, and has more commands, and texts and limits of its own.
"""

import argparse
import sys
from typing import Any, Callable, List, Optional

from . import KINDS, Kind, NotAnItem, Refused, Truncated, _library, fields, show

_BITS = {"short": 210, "long": 830}


def _lines(item: bytes, kind: Kind, words: Any, count: int) -> bytes:
    """The output for an item."""
    if words.command == "show":
        return show(item, kind, count).encode()
    if words.command == "check":
        return f"item {count} ok {_BITS.get(kind, 8 * len(item))} bits\n".encode()
    if words.command == "fields":
        return "".join(f"{each.bit} {each.name} {each.number}\n" for each in fields(item, kind)).encode()
    if words.to == "json":
        return _library.to_json(item, kind)[0] + b"\n"
    return item if words.to == "bin" else item.hex().upper().encode() + b"\n"


def _from_lines(text: bytes, words: Any, out: Callable[[bytes], Any]) -> int:
    """Converts lines of JSON to the requested form."""
    for count, line in enumerate(text.splitlines(), 1):
        try:
            out(_lines(_library.from_json(line, words.kind), words.kind, words, count))
        except NotAnItem:
            sys.stderr.write(f"etcs: line {count}: bad JSON\n")
            return 1
        except Refused as fault:
            sys.stderr.write(f"etcs: item {count} {fault}\n")
            return 1
    return 0


def main(argv: Optional[List[str]] = None) -> int:
    parser = argparse.ArgumentParser(prog="python -m etcs", description=__doc__, formatter_class=argparse.RawDescriptionHelpFormatter)
    parser.add_argument("command", choices=["show", "check", "convert", "fields"])
    parser.add_argument("--kind", choices=KINDS, required=True)
    parser.add_argument("--from", dest="form", choices=["hex", "bin", "json"], default="hex")
    parser.add_argument("--to", choices=["hex", "bin", "json"], default="json")
    words = parser.parse_args(argv)
    out = sys.stdout.buffer.write
    data = sys.stdin.buffer.read()
    if words.form == "json":
        return _from_lines(data, words, out)
    if words.form == "hex":
        try:
            data = bytes.fromhex(data.decode("ascii"))
        except ValueError:
            sys.stderr.write("etcs: bad hexadecimal\n")
            return 1
    at, count = 0, 1
    try:
        while at < len(data):
            front = data[at:at + 1023]
            taken = _library.check(front, words.kind)
            out(_lines(front[:taken], words.kind, words, count))
            at, count = at + taken, count + 1
    except (Refused, Truncated) as fault:
        sys.stdout.flush()
        sys.stderr.write(f"etcs: item {count} {fault}\n")
        return 1
    return 0


if __name__ == "__main__":
    sys.exit(main())
