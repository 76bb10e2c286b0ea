#!/usr/bin/env python3
"""Tries a program over streams that a vector can't give it: that fail, that are long, or that don't end.

    tests/stream_test.py PROGRAM

PROGRAM is the built `etcs`. It is run over outputs of little room, inputs that can't be read, a million items and more,
long lines, JSON that is deeply nested or not UTF-8, logs that aren't UTF-8, and with few addresses; its own JSON has to be
read far sooner than the same with a blank; pages have their words, and what explains a refused item doesn't depend on how
reads were cut; files are read one after another, and forms that aren't hexadecimal are named. Expected answers come from docs/FORMAT.md and from counting. Each answer that isn't as expected is written; the
last line says how many there were. The status is 1 if one differs.
"""

import glob
import gzip
import os
import resource
import shlex
import signal
import subprocess
import sys
import tempfile
import threading
from concurrent.futures import ThreadPoolExecutor
from itertools import groupby

sys.dont_write_bytecode = True
from fuzz import write_pieces

TOP = os.path.dirname(os.path.dirname(os.path.realpath(__file__)))
MOST = 1_048_576  # the bytes of the longest line of JSON
LIMIT = 600  # seconds that a call may take
ENDLESS = (3, b"etcs: input without end\n")
WELL = (0, b"")

# two messages, and what `check` and `convert --to json` write of them
TWO = b"0F00FF\n1002800000000008002A\n"
CHECKED = b"item 1 ok 24 bits\nitem 2 ok 80 bits\n"
KEPT = b'{"data":"111111","kind":"radio","nid":15}'
TYPED = (
    b'{"fields":[["NID_EM",5]],"header":[["T_TRAIN",0],["M_ACK",0],["NID_LRBG",16385]],'
    b'"kind":"radio","nid":16,"packets":[],"padding":"0"}'
)
TO_JSON = KEPT + b"\n" + TYPED + b"\n"

# a form, a message in it, what may come after a million of them, and what may not
MILLIONS = (
    ("hex", b"0F00FF\n", (b"\r\n\n",), (b"0F00FF",)),
    ("bin", b"\x0f\x00\xff", (b"",), (b"\x0f\x00\xff", b"\x18\x02\x00")),
    ("json", KEPT + b"\n", (b"\r\n\n",), (b"x\n", KEPT, b" " * (MOST + 1))),
)

# how many bytes a last line has, its end, and whether it is read
LONG_LINES = (
    *((MOST, end, True) for end in (b"\n", b"\r\n", b"")),
    *((MOST - 1, end, True) for end in (b"\r", b"\r\r\n")),
    *((MOST, end, False) for end in (b"\r", b"\r\r\n")),
    *((MOST + 1, end, False) for end in (b"\n", b"\r\n", b"", b"\r")),
    *((MOST + 2, end, False) for end in (b"\n", b"")),
    (MOST + 9000, b"\n", False),
)

# lines that are no items: n of one byte, and n of another
NO_ITEMS = (
    *((b" " * n) for n in (1, 4096, MOST - 1, MOST, MOST + 1, MOST + 2)),
    *((b"[" * n) for n in (100, 127, 128, 129, 100_000, MOST)),
    *((b"[" * n + b"]" * n) for n in (100, 127, 128, 129, 100_000, 500_000)),
)

# what may be in a text, and what may not: bytes that are no UTF-8, half of a pair of surrogates, control characters
IN_TEXTS = (
    b"\x7f \xc2\x80 \xdf\xbf \xe0\xa0\x80 \xed\x9f\xbf \xef\xbf\xbf \xf0\x90\x80\x80 \xf4\x8f\xbf\xbf "
    rb"\u0000\/\b\f \ud83d\uDE00"
).split(b" ")
NOT_IN_TEXTS = (
    b"\xff \xfe \x80 \xbf \xc3 \xe2\x82 \xf0\x9f\x98 \xc0\xaf \xc1\xbf \xe0\x80\xaf \xe0\x9f\xbf \xf0\x80\x80\xaf \xf0\x8f\xbf\xbf "
    b"\xed\xa0\x80 \xed\xbf\xbf \xed\xa0\xbd\xed\xb8\x80 \xf4\x90\x80\x80 \xf5\x80\x80\x80 \xf8\x88\x80\x80\x80 "
    rb"\ud83d \ude00 \ud83dx \x41 \u12g4 " + b"\x00 \x1f \t"
).split(b" ")

# what may be around an item, and what may not; the second of these is a mark of the order of bytes
AROUND = (b" \t\r \t",)
NOT_AROUND = (b"\xef\xbb\xbf", b"\xff", b"\x80", b"\x00", b"\x0b", b"\x0c", b"\xc2\xa0")


# bytes that aren't UTF-8, and how many characters U+FFFD they become: one for what begins a character, else one for each byte
NO_UTF8 = (
    (b"\xff", 1),
    (b"\xff\xfe", 2),
    (b"\xe2\x82", 1),
    (b"\xf0\x9f\x98", 1),
    (b"\xc0\xaf", 2),
    (b"\xed\xa0\x80", 3),
    (b"\xf8\x88\x80\x80\x80", 5),
)

# a telegram with the text <&>, one that is refused, messages of either way, JSON of no item: words of their pages
PAGES = (
    ("--kind short", b"A0007F802000D2103A280050200280F0200CF098FBFFFFFFFFFFC0", ("header of a telegram", 'text "&lt;&amp;&gt;"', "'&amp;'")),
    ("--kind short", b"9000", ("Why: M_VERSION admits 32 and 33, not 16", "Often: a telegram of version 1.0 or 1.1")),
    ("--kind radio", b"18034000000000080031280620", ("header of a message to the train", "Stop if in Staff Responsible")),
    ("--kind train", b"8400FF", ("header of a message to the track", "all ones")),
    ("--kind short --from json", b'{"<q>":1}', ('.["&lt;q&gt;"]: unexpected member',)),
)

# a telegram, and one that is refused at bit 72
GOOD = b"A113140C40FFC14027A12723184008C07FFFFFFFFFFFFFFFFFFFC0\n"
BAD = b"A100040C412C4B104CACACACACACACACACACACACACACACACACAC80\n"

# command lines that are run with few addresses, what they are given, and their status
SAYING = ("log --kind short", "explain --kind short", "explain --kind short --to html")
ADDRESSED = (
    ("show --kind short", b"", 0),
    ("help", b"", 0),
    ("show", b"", 2),
    *((words, given, status) for words in SAYING for given, status in ((GOOD, 0), (BAD, 1))),
)


# an input that isn't hexadecimal, and what log and explain write of its form
TRY = b"etcs: this looks like "
FORMS = (
    (gzip.compress(GOOD), b"gzip: try zcat FILE | etcs ..\n", b"gzip: try zcat FILE | etcs ..\n"),
    (GOOD.decode().encode("utf-16"), b"UTF-16: try iconv -f utf-16 -t utf-8 FILE | etcs ..\n", b"UTF-16: try iconv -f utf-16 -t utf-8 FILE | etcs ..\n"),
    (bytes.fromhex(GOOD.decode()), b"bytes: try etcs explain --from bin\n", b"bytes: try --from bin\n"),
)


class Program:
    """The program, and what it was found to do wrong."""

    def __init__(self, path):
        self.path, self.faults, self.count = os.path.realpath(path), [], 0

    def call(self, words, given=b"", **how):
        """Returns the status, the output and the faults of a command line."""
        how = {"stdout": subprocess.PIPE, "stderr": subprocess.PIPE, **how}
        if "stdin" not in how:
            how["input"] = given
        done = subprocess.run([self.path, *words.split()], timeout=LIMIT, **how)
        return done.returncode, done.stdout, done.stderr

    def check(self, what, found, wanted):
        """Notes an answer that isn't as it should be."""
        self.count += 1
        if found != wanted:
            self.faults.append(f"{what}: {shortened(found)}, wanted {shortened(wanted)}")


def shortened(answer):
    """Returns an answer with the front of long texts."""
    return tuple(it[:60] if isinstance(it, bytes) else it for it in answer)


def check_writes(program):
    """Checks that an output with room for n bytes has the first n, and that the fault says so."""
    for words, text in (("check --kind radio", CHECKED), ("convert --kind radio --to json", TO_JSON)):
        for room in range(len(text)):
            with tempfile.TemporaryFile() as output:
                limit = lambda: resource.setrlimit(resource.RLIMIT_FSIZE, (room, room))
                # Python ignores the signal of a file that is too large, and so does the program then
                how = {"stdout": output, "preexec_fn": limit, "restore_signals": False}
                status, _, faults = program.call(words, TWO, **how)
                output.seek(0)
                wanted = (3, text[:room], b"etcs: write fault after %d bytes\n" % room)
                program.check(f"{words}, room for {room} bytes", (status, output.read(), faults), wanted)


def check_full(program):
    """What can't be written changes the status of a run, and not that of help or of wrong words."""
    with open("/dev/full", "wb") as full:
        for words, status in (("help", 0), ("--version", 0), ("show --help", 0), ("check --kind radio", 3)):
            program.check(f"{words} > /dev/full", program.call(words, TWO, stdout=full)[0:1], (status,))
        for words, status in (("", 2), ("show", 2), ("show --kind short", 1)):
            program.check(f"{words} 2> /dev/full", program.call(words, b"x", stderr=full)[0:1], (status,))


def check_reads(program):
    """An input that can't be read is a fault of reading."""
    folder = os.open("/", os.O_RDONLY)
    for words in ("show --kind short", "group --kind long --from bin", "log --kind radio", "explain --kind train"):
        program.check(f"{words} < /", program.call(words, stdin=folder), (3, b"", b"etcs: read fault\n"))
    os.close(folder)


def check_millions(program):
    """A million items are read, and one more isn't: the numbers of the lines have 9 + 180 + .. + 7 digits."""
    written = 17 * 1_000_000 + 9 + 180 + 2_700 + 36_000 + 450_000 + 5_400_000 + 7
    runs = [(form, item, then, WELL) for form, item, good, _ in MILLIONS for then in good]
    runs += [(form, item, then, ENDLESS) for form, item, _, bad in MILLIONS for then in bad]

    def run(form, item, then, wanted):
        status, output, faults = program.call(f"check --kind radio --from {form}", item * 1_000_000 + then)
        found = (status, faults, len(output), output.count(b"\n"))
        program.check(f"a million items from {form}, then {then[:20]}", found, (*wanted, written, 1_000_000))

    with ThreadPoolExecutor(os.cpu_count()) as pool:
        list(pool.map(lambda it: run(*it), runs))


def check_json(program, text, line, items, is_read):
    """Checks that all lines of a text are items, or that this line is the first that isn't."""
    status, output, faults = program.call("check --kind radio --from json", text)
    good = items if is_read else line - 1
    wanted = b"".join(b"item %d ok 24 bits\n" % (n + 1) for n in range(good))
    # why a line is bad may come before the line of the fault
    fault = [] if is_read else [b"etcs: line %d: bad JSON" % line]
    found = (status, output, faults.splitlines()[-1:])
    program.check(f"{text[-60:]}, {len(text)} bytes", found, (int(not is_read), wanted, fault))


def check_lines(program):
    """Lines of JSON by their length, alone and after another, and lines that are no items between two good ones."""
    for count, end, is_read in LONG_LINES:
        line = KEPT.rjust(count) + end
        check_json(program, line, 1, 1, is_read)
        check_json(program, KEPT + b"\n" + line, 2, 2, is_read)
    for line in NO_ITEMS:
        check_between(program, line, False)


def check_between(program, line, is_read):
    """Checks a line between two good ones."""
    check_json(program, b"\n".join((KEPT, line, KEPT)), 2, 3, is_read)


def check_bytes(program):
    """Bytes in a text and around an item, and lists in one another in a member that another of its name replaces."""
    replaced = b',"data":"111111","kind":"radio","nid":15}'
    for it in (*IN_TEXTS, *NOT_IN_TEXTS):
        check_between(program, b'{"data":"' + it + b'"' + replaced, it in IN_TEXTS)
    for it in (*AROUND, *NOT_AROUND):
        check_between(program, it + KEPT, it in AROUND)
        check_between(program, KEPT + it, it in AROUND)
    for depth in (1, 126, 127, 128, 100_000):
        check_between(program, b'{"data":' + b"[" * depth + b"]" * depth + replaced, depth < 127)


def check_long_lines(program):
    """What `log` and `explain` say about lines that no vector has, and that the next line is read."""
    too_long = "line longer than 1,048,576 bytes"
    for words, count, said, fault in (
        ("log --kind radio --strict", MOST + 1, "line longer than 1,048,576 characters", b""),
        ("explain --kind radio", MOST + 1, too_long, b"etcs: line 1: bad hexadecimal at 1048576\n"),
        ("explain --kind radio --from json", MOST + 1, too_long, b"etcs: line 1: bad JSON\n"),
        ("explain --kind radio --from json", 65_537, "65537 bytes: the reason is only looked for in up to 65,536", b"etcs: line 1: bad JSON\n"),
    ):
        status, output, faults = program.call(words, b" " * count + b"\n!\n")
        lines = output.decode().split("\n")
        found = status, lines[0], lines[1].split(":")[0], faults
        program.check(f"{words}, {count} bytes", found, (1, f"line 1: {said}", "line 2", fault))
    note = b'{"line":1,"cause":"too long","reason":"line longer than 1,048,576 characters"}'
    status, output, notes = program.call("log --kind radio --to json", b" " * (MOST + 1) + b"\n!\n")
    program.check("log --to json of a long line", (status, output, notes.split(b"\n")[0]), (1, b"", note))


def check_fronts(program):
    """What isn't UTF-8 before the digits of a line is written as U+FFFD in JSON, and the rest as it is."""
    for it, count in NO_UTF8:
        front = "caf\u00e9 ".encode()
        wanted = b'{"line":1,"front":"' + front + "\ufffd".encode() * count + b'","item":' + KEPT + b"}\n"
        found = program.call("log --kind radio --to json", front + it + b" 0F00FF\n")
        program.check(f"{it} before the digits", found, (0, wanted, b""))


def check_pages(program):
    """A page has its words, and no part of the input raw; its foot says the version, and proved or unproved."""
    version = program.call("--version")[1].decode().split(" (")[0]
    foot = f"<footer>{version.removesuffix(' unproved')} {'un' * version.endswith(' unproved')}proved</footer>"
    for words, given, said in PAGES:
        page = program.call(f"explain --to html {words}", given)[1].decode()
        program.check(f"a page of {given[:30]}", [it for it in (*said, foot, "</script>") if it not in page], [])
        program.check(f"a page of {given[:30]}, raw", [it for it in ("<&>", "<q>") if it in page], [])


def check_endless_line(program):
    """A line of JSON that doesn't end is refused before twice as many bytes are read as a line may have."""
    words = [program.path, "check", "--kind", "radio", "--from", "json"]
    with subprocess.Popen(words, stdin=subprocess.PIPE, stdout=subprocess.PIPE, stderr=subprocess.PIPE, bufsize=0) as run:
        guard = threading.Timer(LIMIT, run.kill)
        guard.start()
        given = 0
        try:
            while given < 16 * MOST:
                given += run.stdin.write(b" " * 4096)
        except BrokenPipeError:
            pass
        found = (run.stdout.read(), run.stderr.read().split(b"\n")[-2], run.wait(), given < 2 * MOST)
        guard.cancel()
    program.check("a line without end", found, (b"", b"etcs: line 1: bad JSON", 1, True))


def seconds(program, words, given):
    """Returns the status of a command line, and the least of its seconds of processor time in five runs."""
    found = []
    with tempfile.TemporaryFile() as source:
        source.write(given)
        for _ in range(5):
            source.seek(0)
            run = subprocess.Popen([program.path, *words.split()], stdin=source, stdout=subprocess.DEVNULL)
            _, status, usage = os.wait4(run.pid, 0)
            run.returncode = os.waitstatus_to_exitcode(status)
            found.append((run.returncode, usage.ru_utime + usage.ru_stime))
    return max(status for status, _ in found), min(time for _, time in found)


def check_written(program):
    """A line that the program wrote is read without a tree: with a blank in it, it takes more than three times as long."""
    for name in sorted(glob.glob(f"{TOP}/examples/*_*.hex")):
        kind = os.path.basename(name).partition("_")[0]
        with open(name, "rb") as file:
            status, lines, _ = program.call(f"convert --kind {kind} --to json", file.read())
        if status:
            continue
        lines *= 4_000_000 // len(lines)
        words = f"check --kind {kind} --from json"
        (first, quick), (second, slow) = (seconds(program, words, it) for it in (lines, lines.replace(b'{"', b'{ "')))
        what = f"JSON of {os.path.basename(name)}: {quick:.3f} s as it is written, {slow:.3f} s with blanks"
        program.check(what, (first, second, 3 * quick < slow), (0, 0, True))


def piped(program, words, given, size):
    """Returns the answer of a command line to bytes that come through a pipe, this many a write."""
    with tempfile.TemporaryFile() as output, tempfile.TemporaryFile() as faults:
        how = {"stdin": subprocess.PIPE, "stdout": output, "stderr": faults, "bufsize": 0}
        run = subprocess.Popen([program.path, *words.split()], **how)
        guard = threading.Timer(LIMIT, run.kill)
        guard.start()
        write_pieces(run.stdin, given, lambda: size)
        status = run.wait()
        guard.cancel()
        output.seek(0)
        faults.seek(0)
        return status, output.read(), faults.read()


def check_cuts(program):
    """What is said about a refused item of bytes is the same, however many bytes after it each read gives."""
    given = bytes.fromhex(BAD.decode()) + 16 * bytes(range(256))
    for words in ("explain --kind short --from bin", "explain --kind short --from bin --to html"):
        with tempfile.TemporaryFile() as source:
            source.write(given)
            source.seek(0)
            wanted = program.call(words, stdin=source)
        program.check(f"{words} of a file", wanted[::2], (1, b"etcs: item 1 refused at bit 72, L_PACKET\n"))
        for size in (1, 28, 200, 1000):
            program.check(f"{words}, {size} bytes a write", piped(program, words, given, size), wanted)


def state_of(status, faults, answer):
    """Returns how far a call with few addresses came: the loader ends with 127, and says what it has no room for."""
    if (status, faults) == (3, b"etcs: out of memory\n"):
        return "refused"
    names = {answer: "answered", 127: "not loaded"}
    return names.get(status, f"status {status}")


def check_addresses(program):
    """With ever more addresses the program can't be loaded, then says that memory was refused, then answers."""
    for words, given, answer in ADDRESSED:
        states = []
        for kilobytes in range(2048, 40960, 32):
            limit = lambda: resource.setrlimit(resource.RLIMIT_AS, (1024 * kilobytes, 1024 * kilobytes))
            status, _, faults = program.call(words, given, preexec_fn=limit)
            states.append(state_of(status, faults, answer))
            if states[-8:] == ["answered"] * 8:
                break
        seen = [it for it, _ in groupby(states)]
        # a program that can't even be mapped is ended by the kernel's signal, before the loader begins
        if seen[0] == f"status {-signal.SIGSEGV}":
            del seen[0]
        what = f"{words} with few addresses, {given[:30]}"
        program.check(what, tuple(seen), ("not loaded", "refused", "answered"))


def check_forms(program):
    """Where nothing was accepted, the last line says what an input looks like that isn't hexadecimal."""
    for given, of_log, of_explain in FORMS:
        program.check(f"log of {given[:4]}", program.call("log", given)[2], TRY + of_log)
        program.check(f"log of {given[:4]} and a telegram", program.call("log", given + b"\n" + GOOD)[2], b"")
        program.check(f"explain of {given[:4]}", program.call("explain --kind short", given)[2].splitlines(True)[1:], [TRY + of_explain])


def check_files(program):
    """Files are read one after another, each to the end of a line, and a folder or a missing file ends the run."""
    with tempfile.TemporaryDirectory() as folder:
        for name, given in (("one", GOOD[:-1]), ("two", GOOD), ("bytes", bytes.fromhex(GOOD.decode()))):
            with open(os.path.join(folder, name), "wb") as file:
                file.write(given)
        good = b"short " + GOOD
        for names, wanted in (
            ("one two", (0, 2 * good, b"")),
            ("two one", (0, 2 * good, b"")),
            ("one - two", (0, 3 * good, b"")),
            ("one . two", (3, good, b"etcs: .: is a directory\n")),
            ("two nothing one", (3, good, b"etcs: nothing: no such file\n")),
        ):
            program.check(f"log of {names}", program.call(f"log --good {names}", GOOD, cwd=folder), wanted)
        explained = program.call("explain --kind short --from bin bytes bytes", cwd=folder)[::2]
        program.check("explain of bytes", explained, (0, b""))


CHECKS = (
    check_forms,
    check_files,
    check_millions,
    check_writes,
    check_full,
    check_reads,
    check_lines,
    check_bytes,
    check_long_lines,
    check_fronts,
    check_endless_line,
    check_pages,
    check_written,
    check_cuts,
    check_addresses,
)


def run_check(check, program):
    """Makes a check, and notes a call in it that takes too long."""
    try:
        check(program)
    except subprocess.TimeoutExpired as fault:
        program.check(f"{check.__name__}: {shlex.join(map(str, fault.cmd[1:]))}", ("no end in", fault.timeout), ("an end",))


def main(words):
    if len(words) != 1 or words[0].startswith("-"):
        sys.exit(__doc__)
    program = Program(words[0])
    with ThreadPoolExecutor(os.cpu_count()) as pool:
        list(pool.map(lambda check: run_check(check, program), CHECKS))
    print("\n".join(program.faults) or "all streams are as they should be")
    print(f"{program.count} answers, {len(program.faults)} wrong")
    return 1 if program.faults else 0


if __name__ == "__main__":
    sys.exit(main(sys.argv[1:]))
