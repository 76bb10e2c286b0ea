#!/usr/bin/env python3
"""Writes which parts of the library's code the inputs of the fuzz target reach, by function.

    fuzz/counters.py [RT]

The inputs are those of seeds.py, and those that were found, in fuzz/out/found. The library is built without a proof and
without inlining, so that each counter is in the function whose source it belongs to; copies of a generic function count as one.
A counter is `removed` if each way from it ends in a check that fails, which proofs exclude. It needs what
fuzz/unproved.py needs, and clang; if the library isn't there, building it takes about four minutes.
"""

import collections
import os
import re
import shlex
import subprocess
import sys
import tempfile

TOP = os.path.dirname(os.path.dirname(os.path.realpath(__file__)))
OUT = f"{TOP}/fuzz/out"
NAME = r'("[^"]+"|[\w.$-]+)'
TABLE = re.compile(rf"^@__sancov_gen_[.\d]* = .* constant \[\d+ x ptr\] \[ptr @{NAME}, ptr inttoptr \(i64 1 to ptr\)(.*)\]")
ENTRY = ""  # the label of a function's first block


def read_module(path):
    """Returns each function's name with the labels of its counters, in their order, and its blocks by their labels."""
    tables, functions, blocks, label = [], {}, {}, ENTRY
    with open(path, encoding="utf-8") as module:
        for line in module:
            if table := TABLE.match(line):
                tables.append((table[1], [ENTRY, *re.findall(rf"blockaddress\(@{NAME}, %{NAME}\)", table[2])]))
            elif line.startswith("define"):
                blocks, label = {ENTRY: []}, ENTRY
                functions[re.search(rf"@{NAME}\(", line)[1]] = blocks
            elif found := re.match(rf"{NAME}:", line):
                label = found[1] if blocks[ENTRY] else ENTRY
                blocks.setdefault(label, [])
            elif line.startswith(" "):
                blocks[label].append(line.strip())
    return [(name, [it if it == ENTRY else it[1] for it in labels]) for name, labels in tables], functions


def next_of(lines):
    """Returns the labels of the blocks that may follow a block of these lines; None if it returns."""
    last = next((at for at in range(len(lines) - 1, -1, -1) if re.match(r"(br|switch|ret|unreachable)\b", lines[at])), 0)
    return None if lines[last].startswith("ret") else re.findall(rf"label %{NAME}", " ".join(lines[last:]))


def removed_of(blocks):
    """Returns the labels of the blocks from which each way ends in a trap."""
    following, removed, before = {label: next_of(lines) for label, lines in blocks.items()}, set(), None
    while before != len(removed):
        before = len(removed)
        removed |= {label for label, it in following.items() if it is not None and removed.issuperset(it)}
    return removed


def reached_by(folders):
    """Returns a 1 or 0 for each counter."""
    with tempfile.TemporaryDirectory() as room:
        sources = [f"{TOP}/fuzz/{it}.c" for it in ("counters", "fuzz", "mutate")]
        words = [*shlex.split(os.environ.get("CLANG") or "clang"), "-std=gnu11", "-O1", f"-I{TOP}/bindings/c", "-Wl,--wrap=malloc,--wrap=realloc,--wrap=free"]
        subprocess.run([*words, "-o", f"{room}/counters", *sources, f"{OUT}/counted/libetcs.a"], check=True)
        return subprocess.run([f"{room}/counters", *folders], check=True, text=True, stdout=subprocess.PIPE).stdout.strip()


def main(words):
    subprocess.run([f"{TOP}/fuzz/unproved.py", "counted", *words], check=True, stdout=sys.stderr)
    subprocess.run([f"{TOP}/fuzz/seeds.py", f"{OUT}/seeds"], check=True, stdout=subprocess.DEVNULL)
    tables, functions = read_module(f"{OUT}/counted/library.ll")
    reached = iter(reached_by([f"{OUT}/seeds", f"{OUT}/found"]))
    counts = collections.defaultdict(collections.Counter)
    for name, labels in tables:
        removed = removed_of(functions[name])
        for label, is_reached in zip(labels, reached):
            state = "reached" if is_reached == "1" else "removed" if label in removed else "other"
            counts[re.sub("::<.*", "", name.strip('"'))][state] += 1
    total = sum(counts.values(), collections.Counter())
    print(f"{total['reached']:,} counters are reached, {total['removed']:,} removed; of {total['other']:,} others:")
    for name, count in sorted(counts.items(), key=lambda it: (-it[1]["other"], it[0])):
        if count["other"]:
            print(f"{count['other']:5} of {count.total():5}  {name}" + ("" if count["reached"] else ", never entered"))


if __name__ == "__main__":
    if sys.argv[2:] or sys.argv[1:2] and sys.argv[1].startswith("-"):
        sys.exit(__doc__)
    main(sys.argv[1:])
