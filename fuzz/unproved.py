#!/usr/bin/env python3
"""Builds the library for C from its sources without a proof, as tests need it.

    fuzz/unproved.py guided|counted [RT]

`guided` has what guides libFuzzer, counters of edges and of compares, and can be linked only with libFuzzer. `counted` has
counters of edges alone, and no function is inlined. RT is the path of `rt`. It writes fuzz/out/guided/libetcs.a, or
fuzz/out/counted/libetcs.a and the library.ll that it is compiled from, in two to four minutes; if they are there and no source
changed it does nothing. bindings/unproved_library.py says how, and builds the library without either. The status is 0, or 1 with
the reason.
"""

import os
import shutil
import sys

TOP = os.path.dirname(os.path.dirname(os.path.realpath(__file__)))
sys.dont_write_bytecode = True
sys.path.insert(0, f"{TOP}/bindings")
from unproved_library import CODE, SCRIPTS, call, compile_object, make_or_stop

EDGES = "-fsanitize-coverage=inline-8bit-counters,pc-table"
NOT_INLINED = [it for name in ("inline", "inlinehint", "inlinecold") for it in ("-mllvm", f"-{name}-threshold=-100000")]
FILES = {"guided": ["libetcs.a"], "counted": ["libetcs.a", "library.ll"]}


def guided(kit, room):
    """Makes the library that guides libFuzzer."""
    compile_object(kit, room, [f"{EDGES},trace-cmp"])


def counted(kit, room):
    """Makes the library that counts edges, and leaves its module with the counters."""
    words = [f"{kit}/toolchain/bin/clang", *CODE, EDGES, *NOT_INLINED, "-S", "-emit-llvm", "-x", "ir", "library.ll", "-o", "counted.ll"]
    call("clang", words, room)
    os.replace(f"{room}/counted.ll", f"{room}/library.ll")
    compile_object(kit, room, ["-Xclang", "-disable-llvm-passes"])


def main(words):
    if len(words) not in (1, 2) or words[0] not in FILES:
        sys.exit(__doc__)
    form, out = words[0], f"{TOP}/fuzz/out/{words[0]}"
    rt = words[1] if len(words) == 2 else shutil.which("rt") or "/opt/rattle/bin/rt"
    make_or_stop("fuzz", rt, out, FILES[form], [*SCRIPTS, os.path.realpath(__file__)], {"guided": guided, "counted": counted}[form])
    print(f"unproved, for tests alone: {out}/libetcs.a")


if __name__ == "__main__":
    main(sys.argv[1:])
