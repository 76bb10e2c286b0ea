#!/usr/bin/env python3
"""Compares what `etcs log` finds in a log as people have them with what docs/FORMAT.md says of each line.

    tests/log_test.py [--lines N] [--seed N] PROGRAM

PROGRAM is `etcs`. A log is made of items of bench/mix.py of all kinds, in many styles, bare and as bits; with hashes, ids,
addresses and times before and after them; several in a line; cut, with a bit turned and with a digit lost; of balise groups that
are passed several times, with telegrams that clash; and of lines of text and of anything else. tests/log_lines.py judges each line,
and has to find what the log was made with. Then `log` is run with several kinds and options, and each report, good line, count,
group and passage is compared, in text, JSON and CSV. `explain` has to guess the kind of each whole item.

The log has N lines (3,000). The same seed (1) gives the same log. Each difference is written with its line, at most 20 of them; the
last line has the counts. What the help of PROGRAM doesn't name is skipped: passages, CSV, reports of clashes, and kinds that `explain`
guesses. The status is 0, 1 if there is a difference, and 2 for a usage error or if the program can't be run.
"""

import argparse
import base64
import csv
import io
import json
import random
import re
import subprocess
import sys
import time
from collections import Counter, defaultdict, namedtuple
from os.path import dirname, realpath

sys.dont_write_bytecode = True
TOP = dirname(dirname(realpath(__file__)))
sys.path += [f"{TOP}/tests", f"{TOP}/bench"]
import log_lines
import mix
from log_lines import BAD, ITEM, KINDS, PASSED, SIZES, TEXT, Account, Tables, sentence

DRAWN = 300  # items of a kind
EXPLAINED = 400  # items whose kind `explain` guesses
SHOWN, WIDTH = 20, 400  # differences that are written, and characters of a line in them
LIMIT = 600  # seconds for a call of the program
CSV_HEAD = ["line", "front", "kind", "packet", "entry", "variable", "number", "meaning"]
NOTE = re.compile(r"line (\d+): ")
PASSAGE = re.compile(r"line (\d+)(?: (.*))? (group \d+ \d+ (?:complete|empty|missing(?: \d)+))")
COUNT = re.compile(r"refused (\w+) (\d+) \((.*)\)")
HEADING = re.compile(r"line (\d+): (?:telegram, (\w+)|message to the (\w+)),", re.M)
# The bits of a telegram's header that are changed: where they begin, and how many there are.
HEADER = {"N_PIG": (9, 3), "N_TOTAL": (12, 3), "M_DUP": (15, 2), "M_MCOUNT": (17, 8), "NID_C": (25, 10), "NID_BG": (35, 14)}

# What may be skipped: the command, and what its help says of it.
NAMED = {
    "passages": ("log", "--passages"), "CSV": ("log", "csv"), "reports of clashes": ("log", "Each clash is reported"),
    "kinds that explain guesses": ("explain", "auto"),
}

# A line that was made: its text, what it is where all kinds are requested, and the kind and the bytes of its item, if it is known.
Made = namedtuple("Made", "text what item", defaults=(None, None))

# How items are written, each with the name of its digits: H without blanks, P in pairs, Q in fours, E in eights, X as 0x.., and
# so on (`spellings`). The digits of all kinds are found in these.
STYLES = (
    "%(H)s", "%(h)s", "%(P)s", "%(p)s", "%(Q)s", "%(E)s", "%(S)s", "0x%(H)s", "%(X)s", "%(D)s", "%(t)s %(C)s", "%(t)s %(dot)s",
    "Nov 30 %(t)s btm[412]: telegram %(h)s", "<13>1 2026-11-30T%(t)sZ host btm - - - rx=%(H)s", "2026-11-30,%(t)s,%(H)s,OK", "7;512;%(H)s",
    '{"t":"%(t)s","data":"%(H)s"}', '{"t":"%(t)s","data":"%(P)s","level":-63}', '{"n":3,"data":["%(J)s"]}', "12\t0.031\t%(h)s",
    'Hex stream: "%(h)s"', "static const uint8_t T[] = {%(X)s};", "let t: [u8; N] = [%(X)s];", "var t = new byte[] { %(X)s };",
    'constant T : std_logic_vector := X"%(H)s";', "T : constant := 16#%(H)s#;", "$ETCS,%(H)s*7F", "<telegram>%(H)s</telegram>",
    '<telegram data="%(P)s"/>', "INSERT INTO t VALUES (7, X'%(H)s');", "Ger\xe4t 7: %(H)s", "%(H)s # seen at %(t)s", "%(H)s ; balise 1",
    "%(t)s RX %(H)s // good", "etcs://log/%(H)s?n=1", "%(H)s|-63|ok", "%(t)s|rx|%(U)s", "(%(P)s)", "[%(P)s] ok", "<%(H)s>",
    "'%(P)s'", "%(t)s  data = %(Q)s", "rx #7 %(H)s", "\x7f\u200b\u202e%(t)s\u00ad %(H)s", "\ufeff%(t)s \u2066 %(P)s", "%(B)s",
    "%(t)s INFO  [main] c.example.Btm -- received %(H)s", "%(t)s: %(H)s (%(n)s bytes)", "%(H)s,%(n)s,0", "key=%(h)s&n=1",
)
# In these, those of telegrams: a number of two digits is before pairs.
TELEGRAM_STYLES = ("len=%(n)s %(P)s", "balise 01 %(P)s", "0x%(n)s, %(X)s", "%(n)s-%(D)s", "%(t)s:%(C)s", "id 7F%(H)s")
# In these, they may not be found.
OTHER_STYLES = (
    "00000000  %(P)s  |.@..'|", "00000000: %(Q)s  .@.'", "\t0x0000:  %(Q)s  .@.'", "can0  123   [8]  %(P)s", "b'%(x)s'", "[%(java)s]",
    "[]byte{%(go)s}", "%(go)s", "%(b64)s", "\\x%(H)s", "0x%(H)sUL", "\x1b[32m%(H)s\x1b[0m", "%(nibbles)s", "%(h)sh", "%(bytes)s",
)
TEXTS = (
    "state machine: idle", "%(t)s.031 state machine: idle", "retry 17", "retry 175", "---", "closed session 3ceb", "T=25 C, 3 V", "link up",
    "%(t)s ERROR: timeout after 30 s", "== odometry ==", "Ger\xe4t bereit", "rx queue 8 bad", "version 2.1 build 20261130", "\u200b", "0x", "?",
    "time,speed,position", "</log>", "{", "%(t)s user 'abc' logged in", "antenna #7: ok // warm", "next balise in 1180 m",
)
PASSED_OVER = ("", " ", "\t", "# a comment", "  # 0123456789abcdef01234567", "#%(H)s")
FRAGMENTS = (
    "%(H)s", "%(P)s", "%(h)s", "%(X)s", "%(C)s", "%(hash)s", "%(t)s", "%(n)s", "A1", "13", "A113", "A113140C", "0x", "0x7F", "x", "rx", "abc",
    "#", ";", "//", "-", ":", ",", "=", "[", "]", '"', "\t", "\r", " ", "\u200b", "\xe4", "0", "F", "face", "1180", "data=", "20261130091203123456",
)
HASHES = (
    "sha256=%(sha)s", "md5 %(hash)s", '"traceId":"%(hash)s"', "id=%(uuid)s", "ipv6=%(ip)s", "[2001:db8::1]:%(n)s", "time=20261130091203123456",
    "%(hash)s", "%(sha)s", "20261130091203123456",
)


def spellings(chance, data):
    """Returns the digits of some bytes in many spellings, and other words for a line."""
    high = data.hex().upper()
    pairs, hexes = data.hex(" ").upper(), chance.randbytes(32).hex()
    ip = ":".join(hexes[at : at + 4] for at in range(0, 32, 4))
    return {
        "H": high, "h": data.hex(), "P": pairs, "p": data.hex(" "), "Q": cut(high, 4), "E": cut(high, 8), "S": cut(high, 16),
        "X": ", ".join(f"0x{it:02X}" for it in data), "D": pairs.replace(" ", "-"), "C": pairs.replace(" ", ":"), "U": pairs.replace(" ", "_"),
        "dot": pairs.replace(" ", "."), "J": pairs.replace(" ", '", "'), "B": pairs.replace(" ", "|"), "n": str(len(data)),
        "t": f"{chance.randrange(24):02}:{chance.randrange(60):02}:{chance.randrange(60):02}",
        "x": "".join(f"\\x{it:02x}" for it in data), "java": ", ".join(str((it ^ 128) - 128) for it in data), "go": ", ".join(map(str, data)),
        "b64": base64.b64encode(data).decode(), "nibbles": " ".join(high), "bytes": " ".join(f"{it:08b}" for it in data),
        "hash": hexes[:32], "sha": hexes, "ip": ip,
        "uuid": "-".join((hexes[:8], hexes[8:12], hexes[12:16], hexes[16:20], hexes[20:32])),
    }


def cut(digits, width):
    """Returns digits in groups of one size, of which the last may be smaller."""
    return " ".join(digits[at : at + width] for at in range(0, len(digits), width))


def with_header(data, **numbers):
    """Returns a telegram with other numbers in its header."""
    bits = f"{int.from_bytes(data, 'big'):0{8 * len(data)}b}"
    for name, number in numbers.items():
        at, width = HEADER[name]
        bits = bits[:at] + f"{number:0{width}b}" + bits[at + width :]
    return int(bits, 2).to_bytes(len(data), "big")


def bits_of(kind, data):
    """Returns the bits of a telegram, without PAD."""
    return f"{int.from_bytes(data, 'big'):0{8 * len(data)}b}"[: log_lines.BIT_COUNTS[kind]]


class Maker:
    """Makes the lines of a log."""

    def __init__(self, seed):
        self.chance = random.Random(seed)
        self.drawn = {kind: mix.items(kind, DRAWN, seed) for kind in KINDS}
        self.trees = {(kind, data): tree for kind, drawn in self.drawn.items() for data, tree in drawn}

    def kind(self):
        return self.chance.choice(KINDS)

    def data(self, kind):
        return self.chance.choice(self.drawn[kind])[0]

    def written(self, styles, data):
        """Returns bytes in one of these styles."""
        return encoded(self.chance.choice(styles) % spellings(self.chance, data))

    def item(self):
        """Makes a line with an item."""
        kind = self.kind()
        data = self.data(kind)
        styles = STYLES + TELEGRAM_STYLES if kind in SIZES else STYLES
        return Made(self.written(styles, data), ITEM, (kind, data))

    def plain(self):
        """Makes a line of nothing but an item's digits."""
        kind = self.kind()
        data = self.data(kind)
        return Made(data.hex().upper().encode(), ITEM, (kind, data))

    def other_style(self):
        """Makes a line with an item that may not be found."""
        return Made(self.written(OTHER_STYLES, self.data(self.kind())))

    def beside_hash(self):
        """Makes a line with an item and further long numbers."""
        kind = self.kind()
        data = self.data(kind)
        words = [self.written(("%(H)s", "data=%(P)s", '"%(h)s"', "%(C)s"), data)]
        for _ in range(self.chance.randint(1, 3)):
            words.insert(self.chance.choice((0, len(words))), self.written(HASHES, data))
        return Made(self.chance.choice((b" ", b", ", b"; ", b" | ")).join(words), ITEM, (kind, data))

    def two_items(self):
        """Makes a line with two items; the last one counts."""
        kinds = self.kind(), self.kind()
        first, last = map(self.data, kinds)
        styles = ("%(H)s", "%(P)s", "len=%(n)s %(P)s") if kinds[0] in SIZES else ("%(H)s", "%(P)s")
        text = b"rx " + self.written(styles, first) + b" tx " + self.written(("%(H)s", "%(P)s"), last)
        return Made(text, ITEM, (kinds[1], last))

    def bits(self):
        """Makes a line with the bits of a telegram."""
        kind = self.chance.choice(log_lines.TELEGRAMS)
        data = self.data(kind)
        bits = bits_of(kind, data)
        front = self.chance.choice(("", "bits ", "12:00:03 "))
        turned = self.chance.random() < 0.2
        if turned:
            return Made((front + bits[:8] + "1" + bits[9:]).encode(), BAD)
        return Made((front + bits).encode(), ITEM, (kind, data))

    def broken(self):
        """Makes a line with an item that is cut, or has a digit less, a bit turned or a byte more."""
        kind = self.kind()
        data, how = self.data(kind), self.chance.randrange(4)
        front = self.chance.choice((b"", b"12:00:03 ", b"data="))
        if how == 0:
            least = 66 if kind == "long" else 10
            return Made(front + data[: self.chance.randrange(least, len(data))].hex().encode() if len(data) > least else b"A113", BAD)
        if how == 1:
            return Made(front + data.hex()[:-1].encode(), BAD if len(data) > 10 else None)
        if how == 2:
            turned = int.from_bytes(data, "big") ^ 1 << self.chance.randrange(8 * len(data))
            return Made(front + turned.to_bytes(len(data), "big").hex().encode())
        return Made(front + data.hex().encode() + self.chance.randbytes(self.chance.randint(1, 3)).hex().encode())

    def text(self):
        """Makes a line of text."""
        return Made(self.written(TEXTS, b"\x13"), TEXT)

    def passed_over(self):
        """Makes a line that is blank or a comment."""
        return Made(self.written(PASSED_OVER, self.data("short")), PASSED)

    def fragments(self):
        """Makes a line of anything."""
        some = self.chance.choices(FRAGMENTS, k=self.chance.randint(1, 9))
        data = self.data(self.chance.choice(("short", "short", "train")))
        gap = self.chance.choice(("", " ", " ", "-"))
        return Made(encoded(gap.join(some) % spellings(self.chance, data)))

    def passages(self):
        """Makes the lines of a balise group that is passed three times, some with a telegram that clashes or that is missing."""
        kind, total = self.chance.choice(log_lines.TELEGRAMS), self.chance.randrange(4)
        group = {"NID_C": self.chance.randrange(3), "NID_BG": self.chance.randrange(40), "N_TOTAL": total}
        made = []
        for counter in (255, 7, 8):
            duplicates = self.chance.random() < 0.2 and total > 0
            for place in range(total + 1):
                duplicate = (1 if place == 0 else 2 if place == 1 else 0) if duplicates else 0
                numbers = {**group, "N_PIG": place, "M_MCOUNT": counter, "M_DUP": duplicate}
                made += self.telegram(kind, numbers)
        return made

    def telegram(self, kind, numbers):
        """Makes the lines of a telegram of a passage: one, or none, or another before it."""
        chance, made = self.chance.randrange(16), []
        if chance == 0:
            return []
        if chance == 1:
            made.append({**numbers, "N_PIG": 7})
        if chance == 2:
            made.append({**numbers, "M_DUP": 2 if numbers["N_PIG"] == 0 else 1, "N_PIG": numbers["N_TOTAL"] * (numbers["N_PIG"] > 0)})
        if chance == 3:
            made.append({**numbers, "N_TOTAL": (numbers["N_TOTAL"] + 1) % 8})
        if chance == 4:
            made.append({**numbers, "M_MCOUNT": self.chance.choice((254, 9))})
        if chance == 5:
            kind = "long" if kind == "short" else "short"
        data = [with_header(self.data(kind), **it) for it in [*made, numbers]]
        lines = [Made(self.written(STYLES, it), ITEM, (kind, it)) for it in data]
        return lines + lines[-1:] * (chance == 6) + [self.text()] * (chance == 7)

    def log(self, count):
        """Makes a log: its lines."""
        makers = {
            self.plain: 8, self.item: 30, self.other_style: 5, self.beside_hash: 8, self.two_items: 3, self.bits: 3, self.broken: 10,
            self.text: 12, self.passed_over: 2, self.fragments: 12, self.passages: 1,
        }
        longest = self.data("short").hex().encode().rjust(log_lines.LONGEST)
        made = [Made(b"\xef\xbb\xbfbtm.log", TEXT), Made(longest, ITEM), Made(b" " + longest, BAD)]
        while len(made) < count:
            maker = self.chance.choices([*makers], weights=[*makers.values()])[0]
            lines = maker()
            made += lines if isinstance(lines, list) else [lines]
        return [it._replace(text=it.text + b"\r") if len(it.text) < log_lines.LONGEST and self.chance.random() < 0.1 else it for it in made]


def encoded(text):
    """Returns text as UTF-8; in Latin-1 what a log of that has."""
    return text.encode("latin-1" if "\xe4" in text and text.isascii() is False and max(text) <= "\xff" else "utf-8")


# ---- What the program writes.


# A run of the program: its words, its status, the lines of both outputs, and those of the log that it read.
Ran = namedtuple("Ran", "words status output reports log")


def lines_of(data):
    """Returns the lines that a program wrote."""
    return data.decode("utf-8", "replace").split("\n")[:-1]


class Comparison:
    """Compares what a program writes of a log."""

    def __init__(self, program, tables, made):
        self.program, self.tables, self.made = program, tables, made
        self.log = [it.text for it in made]
        self.counts, self.faults, self.seconds = Counter(), [], Counter()
        helps = {it: " ".join(self.run("--help", command=it).output) for it in ("log", "explain")}
        self.skipped = [name for name, (command, text) in NAMED.items() if text not in helps[command]]

    def run(self, *words, command="log", log=None):
        """Runs a command over the log."""
        begun = time.monotonic()
        given = self.log if log is None else log
        done = subprocess.run([self.program, command, *words], input=b"\n".join(given), capture_output=True, timeout=LIMIT)
        self.seconds["program"] += time.monotonic() - begun
        return Ran(" ".join([command, *words]), done.returncode, *map(lines_of, (done.stdout, done.stderr)), given)

    def same(self, ran, what, found, expected, line=None):
        """Compares two values, and notes a difference, with the line that it is about."""
        self.counts["values"] += 1
        if found != expected:
            text = f": {ran.log[line - 1][:WIDTH]!r}" if line and len(self.faults) < SHOWN else ""
            self.faults.append(f"{ran.words}: {what}: {str(found)[:WIDTH]}, and by the format {str(expected)[:WIDTH]}{text}")

    def same_list(self, ran, what, found, expected):
        """Compares lists, and notes their first difference."""
        at = next((at for at, (here, there) in enumerate(zip(found, expected)) if here != there), min(len(found), len(expected)))
        self.same(ran, f"{what} after {at}", found[at : at + 1], expected[at : at + 1])

    def same_by_line(self, ran, what, found, expected):
        """Compares values with the numbers of their lines."""
        by_line = defaultdict(lambda: ([], []))
        for side, values in enumerate((found, expected)):
            for line, value in values:
                by_line[line][side].append(value)
        self.same(ran, f"the order of {what}", [it for it, _ in found], sorted(it for it, _ in found))
        for line, (here, there) in sorted(by_line.items()):
            self.same(ran, f"{what} of line {line}", here, there, line)

    # ---- One run.

    def compare_text(self, account, lines, *words):
        """Compares a run that writes text."""
        if "passages" in self.skipped:
            words = [it for it in words if it != "--passages"]
        options = {it for it in words if it.startswith("--")}
        if "--strict" in options:
            lines = [it._replace(what=BAD) if it.what == TEXT else it for it in lines]
        ran = self.run("--kind", ",".join(account.kinds), *words)
        said = ran.output if "--good" not in options else ran.reports
        group_lines, clashes = log_lines.groups(lines)
        if "reports of clashes" in self.skipped:
            clashes = []
        notes = reported(lines, clashes * ("--groups" in options)) if "--quiet" not in options else []
        reports = [it for it in said if NOTE.match(it)]
        found = sorted(((int(NOTE.match(it)[1]), it) for it in reports), key=lambda it: it)
        self.same(ran, "the order of reports", [int(NOTE.match(it)[1]) for it in reports], [it for it, _ in found])
        self.same_by_line(ran, "the report", found, sorted((it["line"], sentence(it)) for it in notes))
        rest = [it for it in said if not NOTE.match(it)]
        ended = [it for it in rest if it.startswith("line ")]
        if "--good" in options:
            self.same_list(ran, "the good lines", ran.output, good_lines(account, lines, words))
        self.compare_passages(ran, ended, log_lines.passages(lines) if "--passages" in options else [])
        counts = [it for it in rest if it not in ended]
        self.compare_counts(ran, account, lines, counts, "--summary" in options, group_lines * ("--groups" in options))
        self.same(ran, "the status", ran.status, int(any(it.what == BAD for it in lines)))
        return ran

    def compare_passages(self, ran, ended, expected):
        """Compares passages."""
        found = []
        for it in ended:
            match = PASSAGE.fullmatch(it)
            found.append((int(match[1]), (unescaped(match[2] or ""), match[3])) if match else (0, it))
        self.same_by_line(ran, "the passage", found, [(line, (shown(front), text)) for line, front, text in expected])

    def compare_counts(self, ran, account, lines, said, has_summary, group_lines):
        """Compares counts and groups."""
        refused = [it for it in said if COUNT.fullmatch(it)]
        others = [it for it in said if not COUNT.fullmatch(it)]
        expected = (log_lines.summary(account, lines) if has_summary else []) + group_lines
        self.same_list(ran, "the counts", others, expected)
        found = {}
        for match in map(COUNT.fullmatch, refused):
            causes = {cause: int(count) for count, cause in (it.split() for it in match[3].split(", "))}
            found.update({(match[1], cause): count for cause, count in causes.items()})
            self.same(ran, f"the refusals of {match[1]}", int(match[2]), sum(causes.values()))
        self.same(ran, "the refusals", found, dict(log_lines.refusals(lines)) if has_summary else {})

    def compare_json(self, account, lines, trees):
        """Compares good lines and reports in JSON."""
        ran = self.run("--kind", ",".join(account.kinds), "--to", "json", "--groups")
        good = [it for it in lines if it.item]
        found = self.objects(ran, ran.output, "front", "item")
        self.same_by_line(
            ran, "the good line", [(it["line"], (it["front"], it["item"]["kind"])) for it in found],
            [(it.number, (shown(it.front), it.item.kind)) for it in good],
        )
        for it, line in zip(found, good):
            if tree := trees.get(line.item[:2]):
                self.same(ran, f"the item of line {line.number}", it["item"], tree, line.number)
        group_lines, clashes = log_lines.groups(lines)
        expected = reported(lines, clashes if "reports of clashes" not in self.skipped else [])
        said = self.objects(ran, [it for it in ran.reports if it.startswith("{")], "cause")
        members = {(it["line"], it["cause"]): {*it} for it in expected if "bit" in it}
        said = [{name: it[name] for name in it if name in members.get((it["line"], it["cause"]), it)} for it in said]
        objects = [sorted(((it["line"], it) for it in some), key=str) for some in (said, expected)]
        self.same_by_line(ran, "the object", *(sorted(it, key=lambda it: it[0]) for it in objects))
        self.same_list(ran, "the groups", [it for it in ran.reports if not it.startswith("{")], group_lines)

    def objects(self, ran, texts, *members):
        """Returns the objects of some lines, each with these members and the number of its line."""
        found = []
        for text in texts:
            try:
                it = json.loads(text)
                is_whole = {"line", *members} <= {*it}
            except (ValueError, TypeError):
                is_whole = False
            if is_whole:
                found.append(it)
            self.same(ran, "whether this is an object: " + text[:WIDTH], is_whole, True)
        return found

    def compare_csv(self, account, lines):
        """Compares the rows of CSV: line, kind and variable of each."""
        if "CSV" in self.skipped:
            return
        ran = self.run("--kind", ",".join(account.kinds), "--to", "csv", "--quiet")
        head, *rows = csv.reader(io.StringIO("\n".join(ran.output)))
        self.same(ran, "the head", head, CSV_HEAD)
        expected = [(it.number, (it.item.kind, name)) for it in lines if it.item for name, _ in log_lines.rows(it.item)]
        self.same(ran, "rows of another width", [it for it in rows if len(it) != len(CSV_HEAD) or not it[0].isdigit()][:1], [])
        self.same_by_line(ran, "the row", [(int(it[0]), (it[2], it[5])) for it in rows if it[0].isdigit() and it[5:]], expected)

    def compare_kinds(self, kinds, trees):
        """Compares all runs in which these kinds are requested."""
        begun = time.monotonic()
        account = Account(self.tables, kinds)
        lines = account.lines(self.log)
        self.seconds["account"] += time.monotonic() - begun
        self.counts["lines"] = len(lines)
        if len(kinds) == len(KINDS):
            self.compare_made(lines)
        self.compare_text(account, lines)
        self.compare_text(account, lines, "--summary", "--groups", "--passages")
        self.compare_text(account, lines, "--good", "--summary", "--groups")
        self.compare_json(account, lines, trees)
        self.compare_text(account, lines, "--strict", "--summary")
        if len(kinds) != 1:
            self.compare_text(account, lines, "--quiet", "--summary", "--passages")
            self.compare_text(account, lines, "--good", "--packet", "5,137")
            self.compare_text(account, lines, "--good", "--message", "24,136", "--passages")
            self.compare_text(account, lines, "--good", "--quiet", "--packet", "12", "--message", "136")
            self.compare_csv(account, lines)
        if len(kinds) == len(KINDS):
            plain, auto = self.run(), self.run("--kind", "auto")
            self.same_list(plain, "the reports", plain.output, [sentence(it) for it in reported(lines, [])])
            self.same(auto, "what it writes", auto[1:] == plain[1:], True)

    def compare_made(self, lines):
        """Compares what the log was made with and what the account finds."""
        ran = Ran("the account", 0, [], [], self.log)
        for made, line in zip(self.made, lines):
            if made.what:
                self.counts[made.what] += 1
                self.same(ran, "the line", line.what, made.what, line.number)
            if made.item:
                self.same(ran, "the item", line.item and line.item[:2], made.item, line.number)

    def compare_explained(self, maker):
        """Compares the kinds that `explain` guesses."""
        some = [(kind, *maker.chance.choice(maker.drawn[kind])) for kind in maker.chance.choices(KINDS, k=EXPLAINED)]
        digits = [bits_of(kind, data) if kind in SIZES and at % 8 == 0 else data.hex() for at, (kind, data, _) in enumerate(some)]
        for form, texts in (("hex", digits), ("json", [json.dumps(tree) for _, _, tree in some])):
            for words in ((), ("--kind", "auto")):
                ran = self.run(*words, "--from", form, command="explain", log=[it.encode() for it in texts])
                headings = HEADING.findall("\n".join(ran.output))
                found = [(int(line), size or {"train": "radio", "track": "train"}[way]) for line, size, way in headings]
                self.same_by_line(ran, "the kind", found, [(index, kind) for index, (kind, *_) in enumerate(some, 1)])
                self.same(ran, "the status", ran.status, 0)


def unescaped(text):
    """Returns the characters of text that is written as in JSON."""
    try:
        return json.loads(f'"{text}"')
    except ValueError:
        return text


def shown(front):
    """Returns the text before an item's digits as JSON has it."""
    return front.decode("utf-8", "replace")


def reported(lines, clashes):
    """Returns what is reported of lines, in their order."""
    notes = [note for it in lines if it.what != TEXT for note in it.notes]
    return sorted(notes + clashes, key=lambda it: it["line"])


def good_lines(account, lines, words):
    """Returns the good lines that are written with these options."""
    wanted = {it: numbers(words, it) for it in ("--packet", "--message")}
    kinds = len(account.kinds) > 1
    return [
        f"{it.item.kind} " * kinds + it.item.data.hex().upper() for it in lines
        if it.item and (not any(wanted.values()) or is_wanted(it.item, wanted["--packet"], wanted["--message"]))
    ]


def numbers(words, option):
    """Returns the numbers of an option."""
    return {int(it) for at, word in enumerate(words) if word == option for it in words[at + 1].split(",")}


def is_wanted(item, packets, messages):
    """Returns whether an item has one of these packets, or is one of these messages."""
    is_message = item.kind in log_lines.MESSAGES and log_lines.number(item, "NID_MESSAGE") in messages
    return is_message or bool(packets & {*log_lines.packets(item)})


def compare_all(program, count, seed):
    """Makes a log and compares all runs."""
    with open(f"{TOP}/share/etcs.tables.json", encoding="utf-8") as file:
        tables = Tables(json.load(file))
    maker = Maker(seed)
    done = Comparison(program, tables, maker.log(count))
    for kinds in (KINDS, *((it,) for it in KINDS), log_lines.TELEGRAMS, log_lines.MESSAGES, ("long", "radio"), ("short", "train")):
        done.compare_kinds(kinds, maker.trees)
    if "kinds that explain guesses" not in done.skipped:
        done.compare_explained(maker)
    return done


def main(words):
    reader = argparse.ArgumentParser(usage=__doc__, add_help=False)
    reader.add_argument("--lines", type=int, default=3_000)
    reader.add_argument("--seed", type=int, default=1)
    reader.add_argument("program")
    asked = reader.parse_args(words)
    try:
        done = compare_all(asked.program, asked.lines, asked.seed)
    except OSError as error:
        print(f"{asked.program}: {error.strerror}", file=sys.stderr)
        return 2
    print(*(f"skipped: {it}" for it in done.skipped), *done.faults[:SHOWN], sep="\n", end="\n" * bool(done.skipped or done.faults))
    counts = [f"{name} {count}" for name, count in done.counts.items()]
    print(*counts, *(f"{name} {it:.1f} s" for name, it in done.seconds.items()), sep=", ")
    print(f"{done.counts['lines']} lines, {len(done.faults)} differences")
    return 1 if done.faults else 0


if __name__ == "__main__":
    sys.exit(main(sys.argv[1:]))
