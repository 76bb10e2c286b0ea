#!/usr/bin/env python3
"""cluster_test.py PROGRAM [PYTHON]: reads a log by examples/log_cluster.py on a cluster of three workers on this machine, of
which one is killed in the middle, and compares items, bad lines, counts, groups and the table with those of one `PROGRAM log`.

PYTHON (/usr/bin/python3) has Dask and pandas: `apt-get install python3-distributed python3-pandas`. The table is Parquet if
PYTHON has pyarrow or fastparquet, otherwise CSV. A line says what was compared; the status is 0, or 1 if something differs, 2
without Dask.
"""

import csv
import json
import os
import pathlib
import random
import re
import subprocess
import sys
import tempfile
import time

TOP = pathlib.Path(__file__).resolve().parent.parent
KINDS = ("long", "short", "radio", "train")
ITEMS, BLOCK = 4000, "30kB"
FIRST = 10  # parts that are written before a worker is killed
PAUSE = 0.2  # seconds that a part takes at least
PARQUET = "import pandas, sys; pandas.read_parquet(sys.argv[1]).to_csv(sys.stdout, index=False)"


def log(room):
    """Writes a log of items of all kinds, of which some are broken, with times before them; telegrams come more than once."""
    chance, lines = random.Random(1), []
    for kind in KINDS:
        words = [sys.executable, TOP / "bench/mix.py", kind, "--form", "hex", "--items", str(ITEMS // 4)]
        lines += subprocess.run(words, stdout=subprocess.PIPE, text=True, check=True).stdout.split()
    lines += chance.choices(lines, k=len(lines))
    chance.shuffle(lines)
    for place in range(0, len(lines), 17):
        lines[place] = chance.choice([lines[place][:-2], "no digits", f"{lines[place][:40]}0{lines[place][41:]}", "# noon", "", f"A1\r{lines[place]}"])
    path = room / "btm.log"
    path.write_text("".join(f"12:00:{place % 60:02} {line}\n" if line else "\n" for place, line in enumerate(lines)))
    return path


def slow(room, program):
    """Writes a script that runs the program after a pause, so that the workers are at work for some seconds."""
    path = room / "etcs"
    path.write_text(f'#!/bin/sh\nsleep {PAUSE}\nexec "{pathlib.Path(program).resolve()}" "$@"\n')
    path.chmod(0o755)
    return path


def start(room, python, program):
    """Starts a scheduler and three workers, and returns them with the scheduler's address."""
    env = {**os.environ, "ETCS_PROGRAM": str(program), "PYTHONDONTWRITEBYTECODE": "1"}
    quiet = {"stdout": subprocess.DEVNULL, "stderr": subprocess.DEVNULL, "env": env, "cwd": room}
    found = room / "scheduler.json"
    words = [python, "-m", "distributed.cli.dask_scheduler", "--host", "127.0.0.1", "--port", "0", "--no-dashboard", "--scheduler-file", found]
    ran = [subprocess.Popen(words, **quiet)]
    begun = time.monotonic()
    while not found.exists() or not found.read_text():
        if ran[0].poll() is not None or time.monotonic() > begun + 120:
            ran[0].kill()
            sys.exit("cluster_test: no scheduler: apt-get install python3-distributed")
        time.sleep(0.2)
    address = json.loads(found.read_text())["address"]
    words = [python, "-m", "distributed.cli.dask_worker", address, "--nthreads", "1", "--no-nanny", "--no-dashboard", "--local-directory", room]
    return ran + [subprocess.Popen(words, **quiet) for _ in range(3)], address, env


def counts_of(line):
    """What the recipe prints for a line of counts: of a refused variable a line for each cause."""
    name, number, note = re.fullmatch(r"(.*?) (\d+)( \(.*\))?", line).groups("")
    causes = re.findall(r"(\d+) (\w+)", note) if name.startswith("refused ") else []
    return [f"{name} {cause} {part}" for part, cause in causes] or [f"{name}{note} {number}"]


def one_run(program, path):
    """Returns what PROGRAM says about the log: items, bad lines, counts and groups."""
    words = [program, "log", "--kind", ",".join(KINDS), "--to", "json", "--summary", "--groups"]
    with open(path, "rb") as given:
        ran = subprocess.run(words, stdin=given, stdout=subprocess.PIPE, stderr=subprocess.PIPE, check=False)
    said = ran.stderr.decode().splitlines()
    bad = [it for it in said if it.startswith("{")]
    groups = [it for it in said if it.startswith("group ")]
    counts = {name for it in said if it not in groups and it[0] != "{" for name in counts_of(it)}
    return ran.stdout.decode().splitlines(), bad, counts, groups


def numbers_of(items):
    """Yields a line of the table for each variable of the items."""
    for line in map(json.loads, items):
        item = line["item"]
        own = [("", "", it) for it in item.get("header", []) + item.get("fields", [])]
        own += [(str(place), str(packet["nid"]), it) for place, packet in enumerate(item.get("packets", [])) for it in packet.get("fields", [])]
        for place, nid, (name, number) in own:
            sent = int(number, 16) if name == "NID_RADIO" else number & 0xFFFF if name == "D_REF" else number
            yield [str(line["line"]), line["front"], item["kind"], place, nid, name, str(sent)]


def table_of(python, out):
    """Returns what the table is, and its lines without the head."""
    if (out / "table").exists():
        texts = [subprocess.run([python, "-c", PARQUET, out / "table"], stdout=subprocess.PIPE, text=True, check=True).stdout]
    else:
        texts = [it.read_text() for it in sorted(out.glob("table-*.csv"), key=lambda it: int(it.stem.partition("-")[2]))]
    what = "Parquet" if (out / "table").exists() else "CSV"
    return what, [row for text in texts for row in list(csv.reader(text.splitlines()))[1:]]


def texts_of(out, name):
    """Returns the lines of the files of all parts."""
    return [it for part in sorted(out.glob(f"{name}-*.json")) for it in part.read_text().splitlines()]


def main():
    if not sys.argv[1:]:
        print(__doc__)
        return 2
    program, python = sys.argv[1], sys.argv[2] if sys.argv[2:] else "/usr/bin/python3"
    if subprocess.run([python, "-c", "import distributed, pandas"], stderr=subprocess.DEVNULL, check=False).returncode:
        print("cluster_test: no Dask: apt-get install python3-distributed python3-pandas")
        return 2
    with tempfile.TemporaryDirectory(prefix="cluster-") as name:
        room = pathlib.Path(name)
        path, out = log(room), room / "out"
        ran, address, env = start(room, python, slow(room, program))
        try:
            words = [python, TOP / "examples/log_cluster.py", address, path, out, BLOCK, "--table"]
            wait = f"from dask.distributed import Client; Client({address!r}).wait_for_workers(3)"
            subprocess.run([python, "-c", wait], env=env, cwd=room, check=True)
            reader = subprocess.Popen(words, stdout=subprocess.PIPE, env=env, cwd=room, text=True)
            killed = kill_one(ran, reader, out)
            printed = reader.communicate(timeout=1200)[0].splitlines()
        finally:
            for it in ran:
                it.kill()
                it.wait()
        items, bad, counts, groups = one_run(program, path)
        what, table = table_of(python, out)
        differ = [name for name, one, other in (
            ("items", items, texts_of(out, "items")), ("bad lines", bad, texts_of(out, "bad")),
            ("counts", counts, {it for it in printed if not it.startswith("group ")}),
            ("groups", groups, [it for it in printed if it.startswith("group ")]), ("table", list(numbers_of(items)), table),
        ) if one != other]
        parts = len(list(out.glob("items-*.json")))
    print(f"cluster: {len(items)} items in {parts} parts, {len(bad)} bad lines, {len(groups)} groups, {len(table)} numbers as {what}; "
          + f"{killed}; " + (f"differ: {', '.join(differ)}" if differ else "all as in one run"))
    return 1 if differ or killed == "none was killed" else 0


def kill_one(ran, reader, out):
    """Kills a worker that runs the program once some parts are written, and says so."""
    while reader.poll() is None:
        busy = [it for it in ran[1:] if any(each.read_text() for each in pathlib.Path(f"/proc/{it.pid}/task").glob("*/children"))]
        if busy and len(list(out.glob("items-*.json"))) >= FIRST:
            busy[0].kill()
            return f"a worker was killed after {FIRST} parts"
        time.sleep(0.02)
    return "none was killed"


if __name__ == "__main__":
    sys.exit(main())
