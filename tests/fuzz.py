#!/usr/bin/env python3
"""Runs the program over random inputs, and checks what needs no second codec.

    tests/fuzz.py [--seconds N] [--seed N] [PROGRAM [WORD ..]]

PROGRAM is `etcs`, by default the one that `./etcs build` has built; the WORDs go before those of each
call. An input is a sequence of items of crates/etcs_vectors/stdin, some of them changed or cut, or random
bytes: of each kind, as bytes, as digits or as JSON. Each command is run over it:

- A call ends within 20 seconds, with the status 0 or 1, and takes at most 64 MiB.
- After 0 nothing is on standard error; after 1 there is the line of a fault that this form can have, about
  the item after those that were written, or no line for a group that isn't whole or has a clash.
- All commands end alike and write as many items.
- What is written as bytes begins the input, and stays the same through each form.
- Items of the vectors are accepted, each with its bits.
- The same bytes end alike as bytes, as one line of digits and as lines that are cut anywhere.
- Accepted items with an input after them give the items, and then what the input gives.
- Lines that have an item each, spelled as people do, are good lines of a log.
- `log` with each of its options and `explain`, as text and as a page, write no control but LF, and write the same whether
  they read a file or a pipe in pieces of any size. Both read random lines of a log; `explain` reads the input too.
- The first fault of `explain` is that of `check`, of bytes, of JSON and of one line of digits.
- If the bit at which an item is refused is turned, it is refused at a later bit or not at all, and so
  on: so some item begins with the bits before.

It ends after N seconds (60) or 20 findings. Each is written with its call and the input in hexadecimal;
at the end are the counts, and the seed that gives the same inputs again. The status is 0 if nothing was
found, 1 if something was, and 2 if the words are wrong or the program can't be run. tests/fuzz_test.py
has wrong programs, each of which this has to find.
"""

import collections
import fcntl
import os
import random
import re
import select
import subprocess
import sys
import tempfile
import termios
import threading
import time
from contextlib import suppress

TOP = os.path.dirname(os.path.dirname(os.path.realpath(__file__)))
CALL_SECONDS = 20
CALL_KIBIBYTES = 64 * 1024
MOST_DIGITS = 4096  # in a line
FAULTS = {
    "refused": re.compile(rb"etcs: item (\d+) refused at bit (\d+), [A-Z][A-Z_]*\n"),
    "truncated": re.compile(rb"etcs: item (\d+) truncated after (\d+) bits\n"),
    "bad hexadecimal": re.compile(rb"etcs: line (\d+): bad hexadecimal at (\d+)\n"),
    "bad JSON": re.compile(rb"etcs: line (\d+): bad JSON\n"),
}
# An input of the vectors, and if it is an item how many bits it has.
SHEET_ITEM = re.compile(r"^(short|long|radio|train) ([0-9A-F]+) =(?:\n item 1 \w+ (\d+) bits$)?", re.MULTILINE)
BIN_FAULTS = ["refused", "truncated"]
FORM_FAULTS = {"bin": BIN_FAULTS, "hex": [*BIN_FAULTS, "bad hexadecimal"], "json": ["refused", "bad JSON"]}
KINDS = ("short", "long", "radio", "train")
CONTROL = re.compile(rb"[\x00-\x09\x0B-\x1F\x7F]")
LOG_OPTIONS = ("", "--good", "--to hex", "--to json", "--summary", "--groups", "--to json --summary --groups")
# What may be around the digits of a line: blanks, comments, signs of JSON and pages; then marks, controls, and no UTF-8.
ODD = (
    *(b"", b" \t", b"#", b" # seen", b" // A1", b" ; 99", b"0x", b"12:00:03,", b'{"a":"', b"<b>&", b"\\u0007"),
    *(b"\xEF\xBB\xBF", b"\xE2\x80\xAE", b"\xC2\x85", b"\r", b"\0", b"\x0B\x0C", b"\x1B[31m", b"\x7F", b"\xE2\x80", b"\xFF"),
)
WAYS = [("bin", "json"), ("json", "bin"), ("json", "hex"), ("hex", "bin"), ("json", "json")]


class Finding(Exception):
    """What is wrong with a call over an input."""


def expect(right, what, words, given):
    """Raises the finding if something isn't right."""
    if not right:
        raise Finding(f"{what}: {' '.join(words)} < {given.hex().upper()}")


def write_pieces(pipe, given, size_of):
    """Writes bytes into a pipe in pieces, each when the one before has been read, until nobody reads any more."""
    closed, at = select.poll(), 0
    closed.register(pipe, 0)
    with suppress(BrokenPipeError), pipe:
        while at < len(given):
            at += pipe.write(given[at : at + size_of()])
            while any(fcntl.ioctl(pipe, termios.FIONREAD, bytes(4))) and not closed.poll(0):
                time.sleep(0)


class Program:
    """The program, with the words that go before those of each call."""

    def __init__(self, words):
        self.words = words
        self.counts = collections.Counter()

    def run(self, words, given, size_of=None):
        """The status, output and faults of a call over these bytes, which has to end as each call must.

        They come from a file, or through a pipe in pieces of the sizes that `size_of` gives.
        """
        file = tempfile.TemporaryFile
        with file() as start, file() as output, file() as faults:
            start.write(given)
            start.seek(0)
            how = {"stdin": subprocess.PIPE if size_of else start, "stdout": output, "stderr": faults, "bufsize": 0}
            call = subprocess.Popen([*self.words, *words], **how)
            clock = threading.Timer(CALL_SECONDS, call.kill)
            clock.start()
            if size_of:
                write_pieces(call.stdin, given, size_of)
            _, status, used = os.wait4(call.pid, 0)
            clock.cancel()
            call.returncode = os.waitstatus_to_exitcode(status)
            output.seek(0)
            faults.seek(0)
            answer = call.returncode, output.read(), faults.read()
        self.counts["calls"] += 1
        expect(answer[0] in (0, 1), f"status {answer[0]}, where signals are below 0", words, given)
        expect(used.ru_maxrss <= CALL_KIBIBYTES, f"{used.ru_maxrss} KiB of memory", words, given)
        return answer


def fault_of(form, words, given, answer):
    """The name and the numbers of a call's fault; nothing if it has none."""
    status, _, line = answer
    for name in FORM_FAULTS[form]:
        if status == 1 and (found := FAULTS[name].fullmatch(line)):
            return name, *map(int, found.groups())
    expect(not line and (status == 0 or words[0] == "group"), f"status {status}, {line!r}", words, given)
    return ()


def count_items(words, given, output):
    """How many items a call has written, which it numbers one after another."""
    if words[0] == "convert":
        return output.count(b"\n")
    numbers = [int(number) for number in re.findall(rb"^item (\d+) ", output, re.MULTILINE)]
    expect(numbers == list(range(1, len(numbers) + 1)), "items out of order", words, given)
    return len(numbers)


class Trial:
    """One input of a kind and a form."""

    def __init__(self, program, kind, form, given):
        self.program, self.kind, self.form, self.given = program, kind, form, given

    def call_of(self, form, given, *command):
        """The words of a call over these bytes, and its answer."""
        words = [command[0], "--kind", self.kind, "--from", form, *command[1:]]
        return words, self.program.run(words, given)

    def call(self, command, form, given):
        """The words of a call over these bytes, its answer and its fault."""
        words, answer = self.call_of(form, given, *command)
        return words, answer, fault_of(form, words, given, answer)

    def run(self, pick, whole):
        """Runs each command over the input, alone and after items that are whole."""
        words, answer, fault = self.call(["check"], self.form, self.given)
        count = count_items(words, self.given, answer[1])
        if fault and fault[0] in ("refused", "truncated"):
            expect(fault[1] == count + 1, "a fault of another item", words, self.given)
        self.program.counts.update({"items": count, fault[0] if fault else "no fault": 1})
        self.alike(fault, count, ["show"])
        if self.kind in ("short", "long"):
            self.alike(fault, count, ["group"])
        texts = {to: self.alike(fault, count, ["convert", "--to", to]) for to in ("bin", "hex", "json")}
        self.there_and_back(fault, texts)
        self.after(whole, answer[0], fault, texts["json"])
        self.in_a_log(pick, whole)
        if self.form == "bin":
            self.as_lines(pick, answer)
        if self.form == "bin" and fault and fault[0] == "refused":
            self.turn(pick, bytearray(self.given[len(texts["bin"]) :]), fault[2])

    def alike(self, fault, count, command):
        """What a command writes, if it ends as `check` did and writes as many items."""
        words, answer, found = self.call(command, self.form, self.given)
        expect(found == fault, "another end than check's", words, self.given)
        if command[-1] != "bin":
            expect(count_items(words, self.given, answer[1]) == count, "other items", words, self.given)
        if command == ["group"] and not fault:
            whole = b" complete\n" in answer[1] and b" clash " not in answer[1]
            expect(answer[0] == (0 if whole else 1), f"status {answer[0]}", words, self.given)
        return answer[1]

    def there_and_back(self, fault, texts):
        """Whether what was written begins the input, and stays the same through each form."""
        for start, end in WAYS:
            words, answer, _ = self.call(["convert", "--to", end], start, texts[start])
            expect(answer == (0, texts[end], b""), "another text", words, texts[start])
        given = self.given
        if self.form == "hex":
            given = texts["bin"] if fault else bytes.fromhex(given.decode())
        if self.form != "json":
            right = given.startswith(texts["bin"]) and (fault or given == texts["bin"])
            words = ["convert", "--kind", self.kind, "--from", self.form, "--to", "bin"]
            expect(right, "other bytes", words, self.given)

    def after(self, whole, status, fault, text):
        """Whether items of the vectors are accepted, and the input ends after them as it does alone."""
        given = b"".join(item for item, _ in whole)
        lines = b"".join(b"item %d ok %d bits\n" % (n, bits) for n, (_, bits) in enumerate(whole, 1))
        words, answer = self.call_of("bin", given, "check")
        expect(answer == (0, lines, b""), "items of the sheet aren't accepted", words, given)
        front = self.call_of("bin", given, "convert", "--to", "json")[1][1]
        given = {"bin": given, "hex": given.hex().encode() + b"\n", "json": front}[self.form] + self.given
        words, answer, found = self.call(["convert", "--to", "json"], self.form, given)
        if fault:
            more = len(whole) if fault[0] in ("refused", "truncated") or self.form == "json" else 1
            fault = fault[0], fault[1] + more, *fault[2:]
        right = (answer[0], answer[1], found) == (status, front + text, fault)
        expect(right, "another answer after items that are whole", words, given)

    def in_a_log(self, pick, whole):
        """Whether `log` finds the digits of items, one on each line."""
        items = [item.hex() for item, _ in whole]
        given = b"".join(spelled(pick, it).encode() + b"\n" for it in items)
        words = ["log", "--kind", self.kind, "--good"]
        wanted = "".join(it.upper() + "\n" for it in items).encode()
        expect(self.program.run(words, given) == (0, wanted, b""), "other digits of a log", words, given)

    def as_lines(self, pick, answer):
        """Whether the bytes end alike as digits, in one line and cut anywhere."""
        for most in (MOST_DIGITS // 2, 40):
            cuts, text = [0], b""
            while cuts[-1] < len(self.given):
                cuts.append(cuts[-1] + (most if most > 40 else pick.randrange(1, most)))
            for start, end in zip(cuts, cuts[1:]):
                text += self.given[start:end].hex().encode() + b"\n"
            words, found = self.call_of("hex", text, "check")
            expect(found == answer, "another end as lines of digits", words, text)

    def turn(self, pick, given, first):
        """Turns each bit at which the first item is refused, at most a hundred."""
        before = -1
        for _ in range(100):
            words, _, fault = self.call(["check"], "bin", bytes(given))
            if not fault or fault[1] > 1:
                self.program.counts["refused, then whole"] += 1
                return
            if fault[0] == "truncated":
                given += pick.randbytes(20)
                continue
            right = fault[2] > before if before >= 0 else fault[2] == first
            expect(right, f"refused after {before}, at first at {first}", words, bytes(given))
            before = fault[2]
            given[before // 8] ^= 0x80 >> before % 8


class Saying:
    """The calls that say in words what is wrong, `log` and `explain`."""

    def __init__(self, program, pick, kind):
        self.program, self.pick, self.kind = program, pick, kind

    def run(self, form, given, lines):
        """Runs them over an input, and over lines."""
        self.log(lines)
        self.explain("hex", lines, False)
        self.explain("json", lines, True)
        self.explain(form, given, form != "hex")
        if form == "bin":
            self.explain("hex", given[: MOST_DIGITS // 2].hex().encode(), True)

    def answer(self, words, given):
        """What a call answers, which has no controls, and is the same through a pipe."""
        answer = self.program.run(words, given)
        expect(not CONTROL.search(answer[1] + answer[2]), "a control is written", words, given)
        # at most 2,000 pieces; how many are written depends on the program, so that their sizes have a seed of their own
        sizes, least, most = random.Random(self.pick.random()), len(given) // 2000, self.pick.choice((1, 40, 5000))
        piped = self.program.run(words, given, lambda: least + sizes.randrange(1, most + 1))
        expect(piped == answer, "another answer through a pipe", words, given)
        return answer

    def log(self, lines):
        """Whether `log` ends alike with any option, whatever kinds it looks for."""
        kinds = self.pick.sample(KINDS, self.pick.randrange(1, 5))
        words = ["log", "--kind", ",".join(kinds)]
        status = self.program.run(words, lines)[0]
        words += self.pick.choice(LOG_OPTIONS).split()
        expect(self.answer(words, lines)[0] == status, f"a status other than {status}", words, lines)

    def explain(self, form, given, is_checked):
        """Whether `explain` has the first fault of `check`, where these are the same items."""
        words = ["explain", "--kind", self.kind, "--from", form, "--to", self.pick.choice(("text", "html"))]
        answer = self.answer(words, given)
        if is_checked and not given.endswith(b"\r"):  # which is a character to `check` alone
            wanted = self.program.run(["check", *words[1:5]], given)
            expect(answer[::2] == wanted[::2], "another fault than check's", words, given)


def spelled(pick, digits):
    """Digits of an item as people write them: in groups, with something around them."""
    size = pick.choice((2, 4, 8, 16, len(digits)))
    groups = [digits[at : at + size] for at in range(0, len(digits), size)]
    if pick.random() < 0.3:
        groups = [f"0x{it}" for it in groups]
        text = pick.choice((" ", ", ", ",")).join(groups) if size < len(digits) else groups[0]
    else:
        text = pick.choice((" ", "\t", ":", "-", ".", "_", "|", ",", ";")).join(groups)
    after = [",", " ", "\r"]
    if len(digits) >= 20:  # fewer are taken at a line's end alone
        after += [" ; balise"] + [",OK", '"}'] * (len(text.split()) == 1)
    return pick.choice(("", "", "12:00:03 ", "t=120 ", "RX\t", "line 1: ")) + text + pick.choice(("", *after))


def changed_bytes(pick, given):
    """The bytes with some places changed."""
    changed = bytearray(given)
    for _ in range(pick.randrange(4)):
        at, what = pick.randrange(len(changed) + 1), pick.randrange(6)
        if what < 3 and at < len(changed):
            changed[at] ^= 1 << pick.randrange(8)
        elif what == 3:
            changed[at:at] = pick.randbytes(2)
        else:
            del changed[at : len(changed) if what == 4 else at + pick.randrange(8)]
    return bytes(changed)


def changed_line(pick, line):
    """A line of JSON with one number, text or sign changed, or with kept bits of another packet."""
    text = line.decode()
    if pick.random() < 0.3:
        nid = pick.choice((0, 1, 4, 5, 12, 49, 57, 58, 63, 68, 80, 131, 137))
        return re.sub(r'("data":"[01]*",(?:"dir":\d,)?"nid":)\d+', rf"\g<1>{nid}", text).encode()
    token = pick.choice(list(re.finditer(r'"[^"]*"|\d+|[^"\d]', text)))
    number = str(pick.getrandbits(pick.randrange(1, 65)))
    other = pick.choice(("", number, f'"{number}"', 2 * token[0], token[0][:1] + token[0][2:]))
    return (text[: token.start()] + other + text[token.end() :]).encode()


class Inputs:
    """Makes inputs from the items of the vectors."""

    def __init__(self, pick, program, sheet):
        self.pick, self.program = pick, program
        self.items, self.whole = collections.defaultdict(list), collections.defaultdict(list)
        for kind, digits, bits in SHEET_ITEM.findall(sheet):
            self.items[kind].append(bytes.fromhex(digits))
            if bits:
                self.whole[kind].append((bytes.fromhex(digits), int(bits)))

    def make_whole(self, kind):
        """One or two items of the vectors, with the number of their bits."""
        return self.pick.choices(self.whole[kind], k=self.pick.randrange(1, 3))

    def make(self, kind, form):
        """An input of the kind in the form."""
        if form == "json":
            return b"\n".join(self.line(kind) for _ in range(self.pick.randrange(1, 4)))
        given = b"".join(self.item(kind) for _ in range(self.pick.randrange(1, 5)))
        return given if form == "bin" else self.digits(given)

    def item(self, kind):
        """An item of the vectors, as it is, changed or with other bytes after its first ones."""
        item, what = self.pick.choice(self.items[kind]), self.pick.randrange(4)
        if what == 0:
            return item[: self.pick.randrange(16)] + self.pick.randbytes(self.pick.randrange(120))
        return item if what == 1 else changed_bytes(self.pick, item)

    def digits(self, given):
        """Lines of digits of these bytes, one in four of which is changed."""
        text = b""
        for at in range(0, len(given), 29):
            digits = given[at : at + 29].hex()
            text += (digits.upper() if self.pick.random() < 0.5 else digits).encode()
            text += self.pick.choice((b"\n", b"\r\n", b"", b"\n\n"))
        return changed_bytes(self.pick, text) if self.pick.random() < 0.25 else text

    def lines(self, kind):
        """Lines of a log."""
        ends = (b"\n", b"\n", b"\r\n", b"\r", b"")
        return b"".join(self.log_line(kind) + self.pick.choice(ends) for _ in range(self.pick.randrange(1, 7)))

    def log_line(self, kind):
        """A line with an item, mostly of the kind, and something around it; or something else that a log may have."""
        pick, what = self.pick, self.pick.randrange(40)
        item = self.item(kind if what % 4 else pick.choice(KINDS)) or b"\0"
        if what == 0:
            return pick.choice((b" ", b"0", b"A1", b"[", b"\xFF")) * pick.choice((5000, 70_000))
        if what < 4:
            return pick.randbytes(pick.randrange(60))
        if what < 8:
            return self.line(kind)
        if what < 12:
            return "".join(f"{it:08b}" for it in item)[: pick.choice((210, 216, 830, 832))].encode()
        text = spelled(pick, item.hex()).encode()
        if what < 30:
            text = pick.choice(ODD) + text + pick.choice(ODD)
        return changed_bytes(pick, text) if what < 20 else text

    def line(self, kind):
        """A line of JSON that the program writes for an item, as it is or changed."""
        words = ["convert", "--kind", kind, "--from", "bin", "--to", "json"]
        line = self.program.run(words, self.pick.choice(self.items[kind]))[1].strip() or b"{}"
        what = self.pick.randrange(4)
        if what == 0:
            return line
        return changed_bytes(self.pick, line) if what == 1 else changed_line(self.pick, line)


def fuzz(program, pick, sheet, seconds, most=20):
    """Tries inputs until the time is over or there are this many findings; returns how many there are."""
    end, findings = time.monotonic() + seconds, 0
    inputs = Inputs(pick, program, sheet)
    while time.monotonic() < end and findings < most:
        kind, form = pick.choice(KINDS), pick.choice(("bin", "hex", "json"))
        program.counts[f"inputs {kind} {form}"] += 1
        try:
            given = inputs.make(kind, form)
            Trial(program, kind, form, given).run(pick, inputs.make_whole(kind))
            Saying(program, pick, kind).run(form, given, inputs.lines(kind))
        except Finding as finding:
            findings += 1
            print(finding, flush=True)
    return findings


def sheet_text():
    """The file of the vectors."""
    with open(f"{TOP}/crates/etcs_vectors/stdin", encoding="utf-8") as text:
        return text.read()


def main(words):
    options = {"--seconds": 60, "--seed": random.getrandbits(32)}
    while len(words) > 1 and words[0] in options and words[1].isdecimal():
        options[words[0]] = int(words[1])
        words = words[2:]
    if words and words[0].startswith("-"):
        print(__doc__, file=sys.stderr)
        return 2
    seconds, seed = options.values()
    program = Program(words or [f"{TOP}/crates/etcs/out/etcs"])
    try:
        findings = fuzz(program, random.Random(seed), sheet_text(), seconds)
    except OSError as error:
        print(f"{program.words[0]}: {error.strerror}", file=sys.stderr)
        return 2
    for name, count in sorted(program.counts.items()):
        print(f"{name} {count}")
    print(f"seed {seed}, findings {findings}")
    return 1 if findings else 0


if __name__ == "__main__":
    sys.exit(main(sys.argv[1:]))
