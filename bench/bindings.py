#!/usr/bin/env python3
"""The bindings of the library, each beside a walker that checks the same items (bench/walkers.py).

    bench/bindings.py etcs|walker KIND FILE COUNT

checks each record of a file COUNT times, from memory, by the Python binding or by the walker in Python, and writes a line
for each, as bench/bindings.c does, which says what a record is. The binding uses the library that $ETCS_LIBRARY names, or
that of bindings/out.
"""

import os
import subprocess
import sys

sys.dont_write_bytecode = True
import walkers

HERE = os.path.dirname(os.path.abspath(__file__))
BINDINGS = os.path.join(os.path.dirname(HERE), "bindings")
LIBRARIES = os.path.join(BINDINGS, "out")


def records(items):
    """Items as records of a file."""
    return b"".join(len(item).to_bytes(2, "big") + item for item in items)


def read(path):
    """The items of a file of records."""
    with open(path, "rb") as file:
        text = file.read()
    items, at = [], 0
    while at < len(text):
        after = at + 2 + int.from_bytes(text[at : at + 2], "big")
        items.append(text[at + 2 : after])
        at = after
    return items


def programs(libraries, folder):
    """The words of each binding's program and of its walker's, which are built in a folder."""
    walker = os.path.join(folder, "walker.c")
    with open(walker, "w", encoding="utf-8") as file:
        file.write(walkers.in_c())
    pairs = []
    for name, part in (("binding", os.path.join(libraries, "libetcs.a")), ("walker", walker)):
        program = os.path.join(folder, f"{name}_in_c")
        source = os.path.join(HERE, "bindings.c")
        subprocess.run(["cc", "-O2", f"-I{BINDINGS}/c", source, part, "-o", program], check=True)
        pairs.append([program])
    os.environ.update(ETCS_LIBRARY=os.path.join(libraries, "libetcs.so.1"), PYTHONHASHSEED="0")
    python = [sys.executable, os.path.abspath(__file__)]
    return {"C": pairs, "Python": [[*python, "etcs"], [*python, "walker"]]}


def by_door():
    """What checks bytes by the Python binding."""
    sys.path.insert(0, os.path.join(BINDINGS, "python", "src"))
    import etcs

    def taken(data, kind):
        try:
            return etcs.check(data, kind)
        except etcs.EtcsError:
            return 0

    return taken


def main():
    if len(sys.argv) != 5:
        sys.exit(__doc__)
    taken = by_door() if sys.argv[1] == "etcs" else walkers.taken
    kind, items = sys.argv[2], read(sys.argv[3])
    for _ in range(int(sys.argv[4])):
        answers = [taken(item, kind) for item in items]
    sys.stdout.write("".join(f"{answer}\n" for answer in answers))


if __name__ == "__main__":
    main()
