#!/usr/bin/env python3
"""Finds functions that are expensive to prove.

    tools/expensive_functions.py [FOLDER ..]

Looks through each FOLDER, or without one through crates/*/out, for the work that `tools/rt check` keeps. Of each
function it keeps the run, a file `.Lts.oantt` with its paths and all that is dropped on them; time and memory of the
proof grow with it. Each line is the size and the name of a function whose run is larger than MOST, the largest first. The
last line counts them.

Such a function mostly owns a value with many parts, such as a reader or an engine, which is dropped in place on each path.
Hand the value to `drop`, which is proved once for each type, and let another function borrow it.

The status is 1 if there is such a function, and 2 if no run is found. `rt ci` and `./etcs build` from nothing keep none. The run of a function that is gone
stays until its crate's out/incremental is removed.
"""

import os
import re
import sys

TOP = os.path.dirname(os.path.dirname(os.path.realpath(__file__)))
# The size above which a run is reported, in bytes. One of 48 MB took 14 minutes, one of 2 MB less than one.
MOST = 15_000_000
RUN = re.compile(r"Rattle-(\w+)-proofs\.(.+)\.Lts\.oantt")


def runs(folder):
    """Yields the name of each function whose run is kept below a folder, and the size of its file in bytes."""
    for at, _, names in os.walk(folder):
        for name in names:
            if found := RUN.fullmatch(name):
                try:
                    yield f"{found[1]}::{found[2].replace('.', '::')}", os.path.getsize(f"{at}/{name}")
                except FileNotFoundError:
                    pass  # a proof that is running replaces its files


def crates():
    """Returns the folders of all crates' kept work."""
    at = f"{TOP}/crates"
    return [f"{at}/{it}/out" for it in sorted(os.listdir(at)) if os.path.isdir(f"{at}/{it}/out")]


def main(folders):
    for folder in folders:
        if not os.path.isdir(folder):
            print(f"expensive_functions: {folder} isn't a folder", file=sys.stderr)
            return 2
    sizes = {}
    for folder in folders or crates():
        for name, size in runs(folder):
            sizes[name] = max(size, sizes.get(name, 0))
    if not sizes:
        where = ", ".join(folders) or "crates/*/out"
        print(f"expensive_functions: no proof is kept in {where}: run tools/rt check in a crate", file=sys.stderr)
        return 2
    found = sorted(((size, name) for name, size in sizes.items() if size > MOST), reverse=True)
    for size, name in found:
        print(f"{size / 1e6:5.1f} MB  {name}")
    print(f"{len(found)} of {len(sizes)} functions above {MOST / 1e6:.0f} MB")
    return 1 if found else 0


if __name__ == "__main__":
    if any(it.startswith("-") for it in sys.argv[1:]):
        print(__doc__.strip())
        sys.exit(0 if sys.argv[1:] in (["--help"], ["-h"]) else 2)
    sys.exit(main(sys.argv[1:]))
