#!/usr/bin/env python3
"""Copies the library into another repository: the crate `etcs_codec` and all that it rests on.

    tools/copy_library.py [--check] DIR

DIR is the folder of the other repository, with its crates.txt or without one. Each crate's src, specs and proofs become those
of this repository, and their lines of crates.txt come before all other lines. Nothing else in DIR is touched, so the same
call updates the library. A crate of DIR then names `etcs_codec` in its line of crates.txt, and nothing else of the library.

With --check nothing is written: each file and line that is missing, different or superfluous is named, and the status is 1
if there is one. The status is 2 if the words are wrong or DIR can't be read or written.
"""

import filecmp
import os
import shutil
import sys

TOP = os.path.dirname(os.path.dirname(os.path.realpath(__file__)))
PARTS = ("src", "specs", "proofs")


def crate_lines(folder):
    """Returns the lines of a crates.txt, and the names of the crates that they are of, in order."""
    path = f"{folder}/crates.txt"
    lines = open(path, encoding="utf-8").read().splitlines() if os.path.exists(path) else []
    return lines, {it.split(":")[0].split()[0]: it for it in lines if ":" in it and not it.startswith("#")}


def library():
    """Returns the lines of etcs_codec and of the crates below it, by their names, lowest first."""
    _, crates = crate_lines(TOP)
    needed, found = ["etcs_codec"], set()
    while needed:
        name = needed.pop()
        if name in crates and name not in found:
            found.add(name)
            needed += crates[name].split(":")[1].split()
    return {name: line for name, line in crates.items() if name in found}


def files_of(folder, name):
    """Returns the paths of a crate's sources, from the folder of the repository."""
    found = set()
    for part in PARTS:
        for at, _, files in os.walk(f"{folder}/crates/{name}/{part}"):
            found |= {os.path.relpath(f"{at}/{it}", folder) for it in files if not it.endswith(".oantt")}
    return found


def differences(folder):
    """Yields what a copy lacks, what differs in it, and what is superfluous."""
    _, there = crate_lines(folder)
    for name, line in library().items():
        if there.get(name) != line:
            yield f"crates.txt: the line of {name} {'differs' if name in there else 'is missing'}"
        ours, theirs = files_of(TOP, name), files_of(folder, name)
        for path in sorted(ours | theirs):
            if path not in theirs:
                yield f"{path} is missing"
            elif path not in ours:
                yield f"{path} isn't in the library"
            elif not filecmp.cmp(f"{TOP}/{path}", f"{folder}/{path}", shallow=False):
                yield f"{path} differs"


def copy(folder):
    """Makes the crates and their lines those of this repository; files that are the same stay as they are."""
    crates = library()
    for name in crates:
        ours = files_of(TOP, name)
        for path in files_of(folder, name) - ours:
            os.remove(f"{folder}/{path}")
        for path in ours:
            to = f"{folder}/{path}"
            if not os.path.exists(to) or not filecmp.cmp(f"{TOP}/{path}", to, shallow=False):
                os.makedirs(os.path.dirname(to), exist_ok=True)
                shutil.copy(f"{TOP}/{path}", to)
    lines, there = crate_lines(folder)
    replaced = {there.get(name) for name in crates}
    made = [*crates.values(), *(it for it in lines if it not in replaced)]
    if made != lines:
        # a full disk leaves the lines that are there
        path = os.path.realpath(f"{folder}/crates.txt")
        with open(f"{path}.new", "w", encoding="utf-8") as new:
            new.write("".join(f"{it}\n" for it in made))
        os.replace(f"{path}.new", path)
    return len(crates)


def main(words):
    check = "--check" in words
    words = [it for it in words if it != "--check"]
    if len(words) != 1 or words[0].startswith("-"):
        print(__doc__, file=sys.stderr)
        return 2
    folder = words[0]
    if not os.path.isdir(folder) or os.path.samefile(folder, TOP):
        print(f"{folder}: not the folder of another repository", file=sys.stderr)
        return 2
    try:
        if not check:
            print(f"{copy(folder)} crates and their lines of crates.txt are in {folder}")
        found = list(differences(folder))
    except OSError as error:
        print(f"{error.filename or folder}: {error.strerror}", file=sys.stderr)
        return 2
    print("\n".join(found) or "the library is there, whole and unchanged")
    return 1 if found else 0


if __name__ == "__main__":
    sys.exit(main(sys.argv[1:]))
