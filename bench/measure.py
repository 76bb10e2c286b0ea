#!/usr/bin/env python3
"""Counts the instructions that the program, a plain decoder and a bare one take for an item of bench/mix.py's mix.

    bench/measure.py [--kinds short,long,radio,train] [--forms bin,hex,json,C,Python]
                     [--commands check,show,bin,hex,json] [--items N] [--edits N] [--seed N] [--jobs N]
                     [--bindings FOLDER] [--write | --check] [PROGRAM]

PROGRAM is `etcs`, by default the one that `./etcs build` has built. The plain decoder is
bench/plain/plain.rs, which rustc builds here; with `--no-values` it is the bare one, which makes no values.
The commands are `check`, `show` and `convert` to a form. A count is callgrind's over N items (2,000) less that
over an empty input, divided by N: it hardly varies from run to run.

The forms C and Python are the bindings of the library, each of which checks items in memory beside a walker of
bench/walkers.py, whose counts are with those of the bare decoder. FOLDER has libetcs.a and libetcs.so.1, and is
by default that of `bindings/build`. If they aren't there and no form is named, the bindings are left out. A count
is that of checking all items twice less that of checking them once, divided by N.

Every answer is compared with the mix's own bytes, digits, JSON and lines of `check`, and every text of `show`
with the plain decoder's. An answer that differs is named, and isn't counted. If JSON is measured, all read N
lines of each kind (1,000) that bench/edits.py has changed: if the plain decoder accepts a line, the others have
to give the same answer, and if it refuses one, the bare one has to refuse it too, and the program as well or to
write another line. The plain and the bare decoder have to answer alike to N changed items, and so have a binding
and its walker.

The table is written a row at a time. With --write it is put into bench/README.md as well, unless an answer
differs, with the commit and the versions of rustc and the kit. With --check nothing is put there: a row
differs if a count is more than 1 percent off that of bench/README.md.

The status is 0 if no answer differs, nor any row with --check, 1 if one does, and 2 if the words are
wrong or something can't be run. It needs rustc and valgrind, and works in the folder $BENCH
(etcs_bench in the user's cache).
"""

import argparse
import os
import re
import shutil
import subprocess
import sys
from concurrent.futures import ThreadPoolExecutor

sys.dont_write_bytecode = True
import bindings
import edits
import mix

HERE = os.path.dirname(os.path.abspath(__file__))
TOP = os.path.dirname(HERE)
README = os.path.join(HERE, "README.md")
PROGRAM = os.path.join(TOP, "crates", "etcs", "out", "etcs")
CACHE = os.environ.get("XDG_CACHE_HOME") or os.path.expanduser("~/.cache")
FOLDER = os.path.abspath(os.environ.get("BENCH") or os.path.join(CACHE, "etcs_bench"))
BINDINGS = ["C", "Python"]
COMMANDS = {
    "check": ["check"],
    "show": ["show"],
    "bin": ["convert", "--to", "bin"],
    "hex": ["convert", "--to", "hex"],
    "json": ["convert", "--to", "json"],
}
USER_BITS = {"short": 210, "long": 830}
COLLECTED = re.compile(r"Collected : (\d+)")
PART = re.compile(r"(<!-- made by bench/measure.py -->\n)(.*?)(<!-- end -->)", re.S)
COLUMNS = ["kind", "from", "to", "program", "plain", "ratio", "bare", "ratio"]
WIDTHS = [5, 6, 5, 9, 9, 5, 9, 5]
COUNTS = [3, 4, 6]


class Unrunnable(Exception):
    """Something can't be run: what, and why."""


def names_of(known):
    """What makes a list of known names from a word."""

    def names(text):
        listed = text.split(",")
        unknown = [name for name in listed if name not in known]
        if unknown:
            raise argparse.ArgumentTypeError(f"{unknown[0]} is none of {', '.join(known)}")
        return listed

    return names


def at_least(least):
    """What makes a number from a word."""

    def count(text):
        number = int(text)
        if number < least:
            raise argparse.ArgumentTypeError(f"must be at least {least}")
        return number

    return count


def parsed():
    """The words of the command line, lists as lists of their known names."""
    words = argparse.ArgumentParser(description=__doc__, formatter_class=argparse.RawDescriptionHelpFormatter)
    words.add_argument("program", nargs="?", default=PROGRAM)
    lists = {"--kinds": mix.KINDS, "--forms": [*mix.FORMS, *BINDINGS], "--commands": list(COMMANDS)}
    for option, known in lists.items():
        words.add_argument(option, type=names_of(known))
    words.add_argument("--items", type=at_least(1), default=mix.ITEMS)
    words.add_argument("--edits", type=at_least(0), default=edits.LINES)
    words.add_argument("--seed", type=int, default=mix.SEED)
    words.add_argument("--jobs", type=at_least(1), default=1)
    words.add_argument("--bindings", default=bindings.LIBRARIES)
    written = words.add_mutually_exclusive_group()
    written.add_argument("--write", action="store_true")
    written.add_argument("--check", action="store_true")
    given = words.parse_args()
    if given.write and (given.kinds or given.forms or given.commands):
        words.error("--write wants the whole table")
    if not given.forms and not os.path.exists(os.path.join(given.bindings, "libetcs.a")):
        print(f"{given.bindings} has no libetcs.a: the bindings are left out", file=sys.stderr)
        lists["--forms"] = mix.FORMS
    given.kinds = given.kinds or lists["--kinds"]
    given.forms = given.forms or lists["--forms"]
    given.commands = given.commands or lists["--commands"]
    return given


def said(words):
    """What a command writes."""
    try:
        done = subprocess.run(words, cwd=TOP, stdout=subprocess.PIPE, text=True)
    except OSError as fault:
        raise Unrunnable(f"{words[0]}: {fault}") from fault
    if done.returncode:
        raise Unrunnable(f"{' '.join(words)}: status {done.returncode}")
    return done.stdout


def built():
    """The plain decoder, built."""
    os.makedirs(FOLDER, exist_ok=True)
    plain = os.path.join(FOLDER, "plain")
    source = os.path.join(HERE, "plain", "plain.rs")
    said(["rustc", "-O", "-C", "codegen-units=1", "--edition", "2021", "-o", plain, source])
    return plain


def call(program, command, kind, form):
    """A call of a program, which is its words."""
    return [*program, *COMMANDS[command], "--kind", kind, "--from", form]


def answer(words, given):
    """The status and the output of a call over bytes."""
    try:
        done = subprocess.run(words, input=given, capture_output=True)
    except OSError as fault:
        raise Unrunnable(f"{words[0]}: {fault}") from fault
    return done.returncode, done.stdout


def instructions(words, source):
    """How many instructions a call over a file takes."""
    tool = ["valgrind", "--tool=callgrind", "--callgrind-out-file=/dev/null"]
    try:
        with open(source, "rb") as given:
            done = subprocess.run(
                [*tool, *words], stdin=given, stdout=subprocess.DEVNULL, stderr=subprocess.PIPE, text=True
            )
    except OSError as fault:
        raise Unrunnable(f"valgrind: {fault}") from fault
    collected = COLLECTED.search(done.stderr)
    if collected is None:
        raise Unrunnable(f"valgrind {' '.join(words)}: {done.stderr.strip()[-400:]}")
    return int(collected[1])


class Kind:
    """The items of a kind, and what must be answered to them."""

    def __init__(self, name, words, plain):
        self.name = name
        self.programs = [[words.program], [plain], [plain, "--no-values"]]
        self.drawn = mix.items(name, words.items, words.seed)
        self.edited = edits.lines(name, words.edits, words.seed) if "json" in words.forms else []
        self.given = {form: mix.written(form, self.drawn) for form in mix.FORMS}
        self.given["items"] = bindings.records([item for item, _ in self.drawn])
        self.changed = edits.items(name, words.edits, words.seed)
        self.given["changed"] = bindings.records(self.changed)
        self.sources = {part: os.path.join(FOLDER, f"{name}.{part}") for part in self.given}
        for part, source in self.sources.items():
            with open(source, "wb") as file:
                file.write(self.given[part])
        self.shown = None

    def expected(self, command):
        """What is answered to the items, in whatever form they come."""
        if command in mix.FORMS:
            return self.given[command]
        if command == "check":
            sizes = (USER_BITS.get(self.name, 8 * len(item)) for item, _ in self.drawn)
            return "".join(f"item {number} ok {bits} bits\n" for number, bits in enumerate(sizes, 1)).encode()
        if self.shown is None:
            self.shown = answer(call(self.programs[1], "show", self.name, "bin"), self.given["bin"])[1]
        return self.shown

    def count(self, command, form):
        """The instructions that each program takes for an item; nothing for a program whose answer differs."""
        source = self.sources[form]
        counts = []
        for program in self.programs:
            words = call(program, command, self.name, form)
            if answer(words, self.given[form]) != (0, self.expected(command)):
                print(f"the answer differs: {' '.join(words)} < {source}", file=sys.stderr)
                counts.append(None)
            else:
                taken = instructions(words, source) - instructions(words, os.devnull)
                counts.append(taken / len(self.drawn))
        return counts

    def count_in_memory(self, programs):
        """The instructions that a binding and its walker take for an item; nothing for one whose answer differs."""
        expected = (0, "".join(f"{len(item)}\n" for item, _ in self.drawn).encode())
        changed = [answer([*program, self.name, self.sources["changed"], "1"], b"") for program in programs]
        counts = []
        for program in programs:
            words = [*program, self.name, self.sources["items"]]
            if answer([*words, "1"], b"") != expected or changed[0] != changed[1]:
                print(f"the answer differs: {' '.join(words)}, or of {self.sources['changed']}", file=sys.stderr)
                counts.append(None)
            else:
                twice, once = (instructions([*words, count], os.devnull) for count in "21")
                counts.append((twice - once) / len(self.drawn))
        return counts

    def answers(self, command, lines):
        """What the program, the plain decoder and the bare one answer to lines of JSON."""
        return [answer(call(program, command, self.name, "json"), lines) for program in self.programs]

    def is_accepted(self, line):
        """Whether the plain decoder accepts a changed line; nothing if the program ought to have answered otherwise."""
        program, plain, bare = self.answers("json", line)
        if bare != plain or (plain != program if plain[0] == 0 else program == (0, line)):
            print(f"the answers to a changed line differ, {self.name}: {line.decode().rstrip()}", file=sys.stderr)
            return None
        return plain[0] == 0

    def differing_edits(self, pool):
        """How many answers to changed lines differ."""
        accepted = list(pool.map(self.is_accepted, self.edited))
        lines = b"".join(line for line, is_accepted in zip(self.edited, accepted) if is_accepted)
        differing = [command for command in COMMANDS if len(set(self.answers(command, lines))) > 1]
        for command in differing:
            print(f"the answers to changed lines differ: {command}, {self.name}", file=sys.stderr)
        print(f"{len(self.edited)} changed lines of {self.name}, of which {accepted.count(True)} are accepted")
        return accepted.count(None) + len(differing)

    def is_same_item(self, item):
        """Whether the plain decoder and the bare one answer alike to a changed item."""
        plain, bare = (answer(call(program, "json", self.name, "bin"), item) for program in self.programs[1:])
        if plain != bare:
            print(f"the answers to a changed item differ, {self.name}: {item.hex()}", file=sys.stderr)
        return plain == bare


# ---- The table.


def measured(words, kinds, pool):
    """Yields the rows: names, and each count by its column, which is nothing if an answer differs."""
    rows, at_bindings = [], {}
    if set(BINDINGS) & set(words.forms):
        try:
            at_bindings = bindings.programs(words.bindings, FOLDER)
        except (OSError, subprocess.CalledProcessError) as fault:
            raise Unrunnable(f"the bindings: {fault}") from fault
    for kind in kinds:
        for form in words.forms:
            for command in words.commands:
                if form in mix.FORMS:
                    rows.append(([kind.name, form, command], pool.submit(kind.count, command, form)))
                elif command == "check":
                    rows.append(([kind.name, form, command], pool.submit(kind.count_in_memory, at_bindings[form])))
    for names, counts in rows:
        columns = ["program", "bare"] if names[1] in BINDINGS else ["program", "plain", "bare"]
        yield names, dict(zip(columns, counts.result()))


def cells(row):
    """What is in the columns of a row."""
    names, counts = row
    program = counts["program"]
    texts = [*names, "differs" if program is None else f"{program:,.0f}"]
    for column in ("plain", "bare"):
        count = counts.get(column)
        differs = "differs" if column in counts else ""
        texts.append(differs if count is None else f"{count:,.0f}")
        texts.append("" if None in (program, count) else f"{program / count:.2f}")
    return texts


def line(row):
    """A line of the table."""
    return "| " + " | ".join(f"{cell:<{width}}" for cell, width in zip(row, WIDTHS)) + " |"


HEAD = [line(COLUMNS), "|---" * len(COLUMNS) + "|"]


def drawn(words):
    """What was counted."""
    return f"{words.items:,} items of each kind and seed {words.seed}"


def about(words):
    """The line before the table: what was measured, and with what."""
    commit = said(["git", "rev-parse", "--short=8", "HEAD"]).strip()
    if said(["git", "status", "--porcelain", "crates", "bindings", "bench/*.py", "bench/*.c", "bench/plain"]):
        commit += " with changes"
    rustc = " ".join(said(["rustc", "--version"]).split()[:2])
    kit = said([shutil.which("rt") or "/opt/rattle/bin/rt", "--version"]).split()[0]
    named = [] if words.program == PROGRAM else ["a program"]
    named += [] if words.bindings == bindings.LIBRARIES else ["a library"]
    of = f", of {' and '.join(named)} named on the command line" if named else ""
    return f"Instructions an item, measured at {commit}{of}, over {drawn(words)}, with {rustc} and {kit}:\n"


def part_of(text):
    """The part of the document that is made here."""
    found = PART.search(text)
    if found is None:
        raise Unrunnable(f"{README}: the marks of the table aren't there")
    return found


def write(words, rows):
    """Puts the table into the document."""
    lines = [about(words), *HEAD, *(line(cells(row)) for row in rows), ""]
    with open(README, encoding="utf-8") as file:
        text = file.read()
    found = part_of(text)
    with open(README, "w", encoding="utf-8") as file:
        file.write(text[: found.start(2)] + "\n".join(lines) + text[found.end(2) :])


def is_near(old, new):
    """Whether two cells are the same, or counts that are at most 1 percent of the old one apart."""
    if old == new:
        return True
    if not all(re.fullmatch(r"[\d,]+", count) for count in (old, new)):
        return False
    old, new = (int(count.replace(",", "")) for count in (old, new))
    return abs(new - old) <= old / 100


def differing_rows(words, rows):
    """How many rows differ from those of the document, which are named."""
    with open(README, encoding="utf-8") as file:
        part = part_of(file.read())[2]
    if drawn(words) not in part:
        raise Unrunnable(f"{README}: its table isn't of {drawn(words)}")
    written = {}
    for text in part.splitlines():
        row = [cell.strip() for cell in text.split("|")[1:-1]]
        if len(row) == len(COLUMNS):
            written[tuple(row[:3])] = [row[place] for place in COUNTS]
    differing = 0
    for row in rows:
        names, new = row[0], [cells(row)[place] for place in COUNTS]
        had = written.get(tuple(names))
        if had is None or not all(is_near(*pair) for pair in zip(had, new)):
            was = ", ".join(count or "none" for count in had) if had else "no such row"
            print(f"{' '.join(names)}: README.md has {was}; counted were {', '.join(count or 'none' for count in new)}")
            differing += 1
    print(f"{len(rows)} rows compared with README.md, of which {differing} differ")
    return differing


def main():
    words = parsed()
    plain = built()
    kinds = [Kind(name, words, plain) for name in words.kinds]
    rows = []
    with ThreadPoolExecutor(words.jobs) as pool:
        differing = sum(kind.differing_edits(pool) for kind in kinds if kind.edited)
        differing += sum(list(pool.map(kind.is_same_item, kind.changed)).count(False) for kind in kinds)
        print("\n".join(HEAD), flush=True)
        for row in measured(words, kinds, pool):
            rows.append(row)
            print(line(cells(row)), flush=True)
    counts = [count for _, row in rows for count in row.values()]
    differing += counts.count(None)
    print(f"{len(counts)} answers over {drawn(words)}, of which {differing} differ")
    if words.check:
        differing += differing_rows(words, rows)
    elif words.write and not differing:
        write(words, rows)
    return 1 if differing else 0


if __name__ == "__main__":
    try:
        sys.exit(main())
    except Unrunnable as fault:
        print(f"measure: {fault}", file=sys.stderr)
        sys.exit(2)
