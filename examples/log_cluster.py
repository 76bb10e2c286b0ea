"""Reads a log on a cluster of Dask: `python3 log_cluster.py SCHEDULER LOG OUT [BLOCK] [--table]`.

Each worker runs the program `etcs log` over parts of the log, a process for each part of BLOCK bytes (16MiB). OUT is a new folder.
The items of a part go to OUT/items-*.json, reports of all other lines to OUT/bad-*.json, both with the line numbers of the whole
log; counts and groups go to standard output. With --table the variables of all items are written as a table, too: OUT/table is
Parquet if pyarrow or fastparquet is installed, otherwise there is OUT/table-*.csv.

Each worker needs the program, `etcs` on the path or the one that ETCS_PROGRAM names, and access to LOG and OUT. It holds one
part with its JSON at a time, and the lines of the telegrams of all parts. A worker may end at any time.
"""

import argparse
import importlib.util
import json
import os
import re
import subprocess
from collections import Counter
from itertools import accumulate

import dask
import dask.bag
from dask.bytes import read_bytes
from dask.distributed import Client

KINDS = "long,short,radio,train"
BUCKETS = 8
LINE = re.compile(rb'^\{"line":(\d+)', re.M)
TEXT = rb'"(?:[^"\\]|\\.)*"'
# only telegrams have a member `fill`, which is the first
TELEGRAM = re.compile(rb'^\{"line":(\d+),"front":' + TEXT + rb',"item":\{"fill":.*?\["NID_C",(\d+)\],\["NID_BG",(\d+)\]', re.M)
COUNT = re.compile(r"(.*?) (\d+)( \(.*\))?")
COLUMNS = {"line": "int64", "front": str, "kind": str, "packet": "Int64", "nid": "Int64", "name": str, "number": "uint64"}


def log(data, *words):
    """Runs `etcs log` over some lines, and returns what it writes to standard output and to standard error."""
    words = [os.environ.get("ETCS_PROGRAM", "etcs"), "log", "--kind", KINDS, *words]
    ran = subprocess.run(words, input=data, capture_output=True, check=False)
    if ran.returncode not in (0, 1):  # 1: some lines are bad
        raise RuntimeError(f"{' '.join(words)} ended with {ran.returncode}: {ran.stderr[-200:].decode()}")
    return ran.stdout, ran.stderr


def count(data):
    """Returns how many lines a part ends."""
    return data.count(b"\n")


def read(data, part, before, out):
    """Writes the files of a part that begins after `before` lines; returns its counts, and the telegrams of each bucket's groups,
    each as the number of its line, its group, and its line."""
    items, said = log(data, "--to", "json", "--summary")
    first = said.rindex(b"items ")  # the line of the first count
    lines, buckets = data.split(b"\n"), [[] for _ in range(BUCKETS)]
    for number, *group in (map(int, it.groups()) for it in TELEGRAM.finditer(items)):
        # the hash of numbers is the same in all processes
        buckets[hash(tuple(group)) % BUCKETS].append((before + number, group, lines[number - 1]))
    for name, text in ("items", items), ("bad", said[:first]):
        write(f"{out}/{name}-{part:05}.json", LINE.sub(lambda it: b'{"line":%d' % (before + int(it[1])), text))
    return dict(counted(said[first:].decode().splitlines())), buckets


def write(path, text):
    """Writes a file at once, so that half of it is never read, even if another worker writes it again."""
    with open(f"{path}.{os.getpid()}", "wb") as file:
        file.write(text)
    os.replace(file.name, path)


def counted(lines):
    """Yields what the lines of counts count, and how many of it there are; of a refused variable for each cause."""
    for line in lines:
        name, number, note = COUNT.fullmatch(line).groups("")
        if name.startswith("refused "):
            yield from ((f"{name} {cause}", int(part)) for part, cause in re.findall(r"(\d+) (\w+)", note))
        else:
            yield name + note, int(number)


def group(parts):
    """Returns the groups of a bucket, each with the line where it begins."""
    begun, lines = {}, []
    for number, nids, line in (it for part in parts for it in part):
        begun.setdefault(tuple(nids), number)
        lines.append(line)
    said = log(b"\n".join(lines), "--groups")[0].decode().splitlines()
    return [(begun[tuple(map(int, it.split()[1:3]))], it) for it in said]


def rows(line):
    """Yields a row for each variable of an item: its line, the text before it, its kind, the place and the number of the packet,
    the variable and its number as it is sent."""
    it = json.loads(line)
    item = it["item"]
    packets = [(place, packet["nid"], packet.get("fields", [])) for place, packet in enumerate(item.get("packets", []))]
    for place, nid, fields in [(None, None, item.get("header", []) + item.get("fields", [])), *packets]:
        for name, number in fields:
            # NID_RADIO is a string of hexadecimal digits, and D_REF has a sign
            number = int(number, 16) if isinstance(number, str) else number % 2**16 if number < 0 else number
            yield it["line"], it["front"], item["kind"], place, nid, name, number


def write_table(out):
    """Writes the variables of all items as a table."""
    lines = dask.bag.read_text(f"{out}/items-*.json", encoding="utf-8")
    table = lines.map(rows).flatten().to_dataframe(meta=COLUMNS)
    if any(map(importlib.util.find_spec, ("pyarrow", "fastparquet"))):
        table.to_parquet(f"{out}/table", write_index=False)
    else:
        table.to_csv(f"{out}/table-*.csv", index=False)


def main():
    given = argparse.ArgumentParser(description="Reads a log on a cluster of Dask.")
    for name in ("scheduler", "log", "out"):
        given.add_argument(name)
    given.add_argument("block", nargs="?", default="16MiB")
    given.add_argument("--table", action="store_true")
    given = given.parse_args()
    os.makedirs(given.out)
    with Client(given.scheduler) as client:
        parts = read_bytes(given.log, delimiter=b"\n", blocksize=given.block, sample=False)[1][0]
        before = [0, *accumulate(dask.compute(*map(dask.delayed(count), parts)))]
        done = client.persist([dask.delayed(read)(data, part, before[part], given.out) for part, data in enumerate(parts)])
        groups = [dask.delayed(group)([it[1][bucket] for it in done]) for bucket in range(BUCKETS)]
        counts, groups = dask.compute([it[0] for it in done], groups)
        if given.table and parts:
            write_table(given.out)
    total = Counter()
    for it in counts:
        total.update(it)
    for name, number in sorted(total.items()):
        print(name, number)
    for _, line in sorted(it for bucket in groups for it in bucket):
        print(line)


if __name__ == "__main__":
    main()
