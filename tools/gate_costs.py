#!/usr/bin/env python3
"""Says how long the gate will take here, watches what it costs, and says which crates were the most expensive.

    tools/gate_costs.py [--all]

.ci/run starts it before `rt ci` and ends it with SIGTERM after that. At its start it writes how many cores and how much free
memory there are, and how long the gate takes by that. Then it looks once a second at the checks that run on this machine, by
their names in /proc. At its end it writes the processor time of each kind of check, and the crates that took the
most time and the most memory; with --all, all of them. A crate whose check took more memory than MOST is marked: mostly a
function of it drops an owned value in place, which `drop` is for; tools/expensive_functions.py finds it.
"""

import os
import re
import signal
import sys
import time
from collections import defaultdict

# Minutes of `rt ci` by the clock from nothing, on an Intel Xeon of 2.5 GHz that does nothing else, as in docs/DEVELOPING.md:
# cores, free memory in GB, minutes. Those with 20 GB were measured, the others are modelled.
TIMES = [(4, 20, 82), (4, 14, 119), (2, 20, 111), (2, 14, 128)]
MOST = 5_000_000_000  # bytes
TICKS = os.sysconf("SC_CLK_TCK")


def free_memory():
    """Returns the free memory in GB, as the system estimates it."""
    with open("/proc/meminfo", encoding="ascii") as file:
        return int(re.search(r"MemAvailable: +(\d+)", file.read())[1]) / 1_000_000


def outlook():
    """Returns how long the gate takes, by cores and free memory."""
    cores, memory = len(os.sched_getaffinity(0)), free_memory()
    found = [it for it in TIMES if it[0] <= cores and it[1] <= memory]
    about = f"about {min(it[2] for it in found)}" if found else f"more than {max(it[2] for it in TIMES)}"
    return f"gate: {cores} cores, {memory:.0f} GB of memory free: {about} minutes from nothing at 2.5 GHz if nothing else runs; some minutes if all was proved here before"


def checks():
    """Yields each check that runs: what tells it from others, its crate, its kind, processor seconds and the most memory so far."""
    for pid in filter(str.isdigit, os.listdir("/proc")):
        try:
            with open(f"/proc/{pid}/cmdline", "rb") as file:
                words = file.read().decode(errors="replace").split("\0")
            if not words[0].endswith("/rattle") or "--crate-name" not in words:
                continue
            with open(f"/proc/{pid}/stat", encoding="ascii", errors="replace") as file:
                stat = file.read().rpartition(")")[2].split()
            with open(f"/proc/{pid}/status", encoding="ascii", errors="replace") as file:
                most = re.search(r"VmHWM:\s+(\d+)", file.read())
            is_edit = os.path.basename(os.readlink(f"/proc/{pid}/cwd")).startswith(("rt-edit-", "mutant"))
        except (OSError, IndexError):
            continue
        kind = "edits" if is_edit else "tests" if "--test" in words else "proof"
        crate = words[words.index("--crate-name") + 1]
        yield (pid, stat[19]), crate, kind, (int(stat[11]) + int(stat[12])) / TICKS, 1024 * int(most[1]) if most else 0


def report(seen, seconds, is_all):
    """Writes what the checks took."""
    times, memory, kinds = defaultdict(float), defaultdict(int), defaultdict(float)
    for crate, kind, time_of, most in seen.values():
        times[crate] += time_of
        kinds[kind] += time_of
        memory[crate] = max(memory[crate], most)
    total = " and ".join(f"{kinds[it] / 60:.0f} for {it}" for it in ("proof", "tests", "edits") if kinds[it])
    print(f"gate: {seconds / 60:.0f} minutes by the clock, {sum(times.values()) / 60:.0f} of processor time: {total or 'nothing was proved anew'}", file=sys.stderr)
    ranked = sorted(times, key=lambda it: -times[it])
    for crate in ranked if is_all else [it for it in ranked[:6] if times[it] > 60]:
        print(f"gate: {crate:<20} {times[crate]:5.0f} s, {memory[crate] / 1e9:.1f} GB", file=sys.stderr)
    for crate in ranked:
        if memory[crate] > MOST:
            print(f"gate: {crate} took {memory[crate] / 1e9:.1f} GB: look at it with tools/expensive_functions.py", file=sys.stderr)


def main(words):
    if words not in ([], ["--all"]):
        sys.exit(__doc__)
    print(outlook(), file=sys.stderr, flush=True)
    is_ended = []
    for it in (signal.SIGTERM, signal.SIGINT):
        signal.signal(it, lambda *_: is_ended.append(True))
    begun, seen, parent = time.monotonic(), {}, os.getppid()
    while not is_ended and os.getppid() == parent:
        for key, *found in checks():
            seen[key] = found
        time.sleep(1)
    report(seen, time.monotonic() - begun, bool(words))


if __name__ == "__main__":
    main(sys.argv[1:])
