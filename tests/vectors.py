#!/usr/bin/env python3
"""Runs a program over the vectors that a command line can answer.

    tests/vectors.py [--kinds KIND,KIND] [--seconds N] [--jobs N] PROGRAM [WORD ..]

PROGRAM is `etcs`, or another codec with its command line; the WORDs go before those of each vector, as
in `tests/vectors.py python3 my_wrapper.py`. The vectors are those of crates/etcs_vectors/stdin, and two
of a kind `padded`, whose lines are too long for that file; docs/TEST-VECTORS.md has their form. Kinds that
are only about the library's calls are passed over. If PROGRAM says in its version that it is unproved, its version is expected so.
Each vector that isn't answered as expected is
written with what was answered, and at the end how many there were of each kind. A call has N seconds
(60), and N jobs make calls in parallel, by default one for each core. The status is 0 if none differs,
1 if one does, and 2 if the words here are wrong or the program can't be run.
"""

import os
import re
import subprocess
import sys
import tempfile
from concurrent.futures import ThreadPoolExecutor
from contextlib import contextmanager

REFUSED = re.compile(rb"etcs: item 1 refused at bit (\d+), (.+)\n")
TRUNCATED = re.compile(rb"etcs: item 1 truncated after (\d+) bits\n")
# A file that command lines may name, without a LF at its end.
TELEGRAM = ("telegram.hex", b"A113140C40FFC14027A12723184008C07FFFFFFFFFFFFFFFFFFFC0")
# Lines of a mebibyte, and of a byte more.
KEPT = '{"data":"111111","kind":"radio","nid":15}'
PADDED = (
    ("padded", f"1048576 etcs check --kind radio --from json < {KEPT}", "0\nitem 1 ok 24 bits"),
    ("padded", f"1048577 etcs check --kind radio --from json < {KEPT}", "1\netcs: line 1: bad JSON"),
)
# The version in a text, which a program that isn't proved writes with a mark.
VERSION = re.compile(r"^( ?etcs [\d.]+)( \()", re.M)
OK_LINE = re.compile(rb"item 1 ok (\d+) bits\n")


class Program:
    """The program, with the words that go before those of each vector, in a folder."""

    def __init__(self, words, seconds, folder):
        # a word such as `etcs` of `python3 -m etcs` is no path, though the folder has such a file
        self.words = [os.path.abspath(it) if "/" in it and os.path.exists(it) else it for it in words]
        self.seconds = seconds
        self.folder = folder

    def run(self, words, given):
        """Returns the status, the output and the faults of a command line over these bytes."""
        done = subprocess.run(
            [*self.words, *words], input=given, capture_output=True, timeout=self.seconds, cwd=self.folder
        )
        return done.returncode, done.stdout, done.stderr


@contextmanager
def telegram_folder():
    """A folder with the file that command lines may name."""
    with tempfile.TemporaryDirectory() as folder:
        with open(os.path.join(folder, TELEGRAM[0]), "wb") as file:
            file.write(TELEGRAM[1])
        yield folder


def vectors_of(text):
    """Yields each vector: where its first line is there, its kind, its words, what is expected."""
    vector = None
    for number, line in enumerate(text.split("\n"), 1):
        if line.startswith(" "):
            if vector:
                vector[3] += ("\n" if vector[3] else "") + line[1:]
            continue
        if vector:
            yield tuple(vector)
        vector = None
        if line and not line.startswith("#"):
            head, _, expected = line.partition(" =")
            kind, _, words = head.partition(" ")
            vector = [number, kind, words, expected.removeprefix(" ")]
    if vector:
        yield tuple(vector)


def as_unproved(text):
    """Returns a text with the version as a program writes it that isn't proved."""
    return VERSION.sub(r"\1 unproved\2", text)


def is_unproved(program):
    """Returns whether the version that the program writes says so."""
    try:
        return b" unproved (" in program.run(["--version"], b"")[1]
    except subprocess.TimeoutExpired:
        return False


def text_bytes(text):
    """The bytes of a text in which \\n is a LF and \\r a CR."""
    return text.replace("\\n", "\n").replace("\\r", "\r").encode()


def number(count):
    """The bytes of a number."""
    return str(count).encode()


def after_lf(text):
    """A text after a LF, without the LF at its end; nothing if there is no text."""
    return b"\n" + text.removesuffix(b"\n") if text else b""


def whole(status, output, faults):
    """All that a call answered."""
    return number(status) + after_lf(output) + after_lf(faults)


def shown(program, kind, given):
    """What is said about the bytes of one item: its text, what is refused, or that more are wanted."""
    status, output, faults = program.run(["show", "--kind", kind], given.hex().upper().encode())
    if status == 0 and not faults:
        return output.removesuffix(b"\n") if given else b"wants more" + after_lf(output)
    refused = REFUSED.fullmatch(faults)
    truncated = TRUNCATED.fullmatch(faults)
    if (status, output) == (1, b"") and refused:
        return b"refused %b %b" % refused.groups()
    if (status, output) == (1, b"") and truncated and int(truncated[1]) == 8 * len(given):
        return b"wants more"
    return whole(status, output, faults)


def answer_item(program, kind, words):
    """`short HEX`, `long HEX`, `radio HEX`, `train HEX`."""
    return shown(program, kind, bytes.fromhex(words))


def answer_message(program, kind, words):
    """`message HEX`, `train_message HEX`: how many bits and packets it has."""
    kind = "radio" if kind == "message" else "train"
    lines = shown(program, kind, bytes.fromhex(words)).split(b"\n")
    packets = sum(line.startswith(b"packet ") for line in lines)
    return lines[0].removeprefix(b"item 1 %b " % kind.encode()) + b", packets " + number(packets)


def answer_turned(program, _, words):
    """`turned KIND HEX`: a line for each bit that can't be turned, with what is answered then."""
    kind, _, digits = words.partition(" ")
    lines = []
    given = bytes.fromhex(digits)
    for bit in range(8 * len(given)):
        turned = bytearray(given)
        turned[bit // 8] ^= 0x80 >> bit % 8
        said = said_turned(program, kind, bytes(turned))
        if said:
            lines.append(number(bit) + b" " + said)
    return b"\n".join(lines)


def said_turned(program, kind, given):
    """What is said about turned bytes; nothing if they are an item."""
    _, output, _ = program.run(["check", "--kind", kind], given.hex().upper().encode())
    found = OK_LINE.match(output)
    if not found:
        return shown(program, kind, given)
    if kind in ("short", "long") or int(found[1]) == 8 * len(given):
        return b""
    return b"done " + number(int(found[1]) // 8)


def answer_text(program, size, given):
    """What a run over a text answers, and what it writes."""
    status, output, faults = program.run(["show", "--kind", size], given)
    if (status, faults) == (0, b""):
        items = len(re.findall(rb"^item ", output, re.MULTILINE))
        return b"ok " + number(items) + after_lf(output)
    if status in (1, 3):
        return faults.removesuffix(b"\n") + after_lf(output)
    return whole(status, output, faults)


def answer_run(program, _, words):
    """`run SIZE TEXT`."""
    size, _, text = words.partition(" ")
    return answer_text(program, size, text_bytes(text))


def answer_zeros(program, _, words):
    """`zeros SIZE COUNT TEXT`: as `run`, with this many zeros before the text."""
    size, count, text = [*words.split(" ", 2), ""][:3]
    return answer_text(program, size, b"0" * int(count) + text_bytes(text))


def answer_repeated(program, _, words):
    """`repeated COUNT SIZE HEX`: the text of item 1, where all items have it with their numbers."""
    count, size, digits = words.split(" ")
    _, one, _ = program.run(["show", "--kind", size], digits.encode())
    given = (digits.encode() + b"\n") * int(count)
    status, output, faults = program.run(["show", "--kind", size], given)
    rest = one.removeprefix(b"item 1")
    wanted = b"".join(b"item " + number(item) + rest for item in range(1, int(count) + 1))
    if (status, output, faults) != (0, wanted, b""):
        return whole(status, output, faults)
    return b"ok " + count.encode() + after_lf(one)


def shape(text):
    """Whether a text is nothing, or whole lines."""
    if not text:
        return "none"
    return "lines" if text.endswith(b"\n") else "more than lines"


def answer_status(program, _, words):
    """`status LINE`: what a command line over an empty input answers; nothing for one without words."""
    if not words:
        return None
    status, output, faults = program.run(words.split(" ")[1:], b"")
    return f"{status}, output {shape(output)}, faults {shape(faults)}".encode()


def answer_help(program, _, words):
    """`help LINE, LINE ..`: what each of these command lines answers over an empty input."""
    lines = [line.split(" ")[1:] for line in words.split(", ")]
    answers = {whole(*program.run(line, b"")) for line in lines}
    return answers.pop() if len(answers) == 1 else b"not each so"


def answer_program(program, _, words):
    """`program LINE < TEXT`."""
    line, _, text = words.partition(" < ")
    return whole(*program.run(line.split(" ")[1:], text_bytes(text)))


def answer_padded(program, _, words):
    """`padded COUNT LINE < TEXT`: as `program`, with as many blanks before the text as make COUNT bytes."""
    count, _, rest = words.partition(" ")
    line, _, text = rest.partition(" < ")
    return whole(*program.run(line.split(" ")[1:], text_bytes(text).rjust(int(count))))


def answer_bytes(program, _, words):
    """`bytes LINE < HEX`: status and output."""
    line, _, digits = words.partition(" < ")
    status, output, _ = program.run(line.split(" ")[1:], bytes.fromhex(digits))
    return number(status) + after_lf(output.hex().upper().encode())


ANSWERS = {
    "short": answer_item,
    "long": answer_item,
    "radio": answer_item,
    "train": answer_item,
    "message": answer_message,
    "train_message": answer_message,
    "turned": answer_turned,
    "run": answer_run,
    "zeros": answer_zeros,
    "repeated": answer_repeated,
    "help": answer_help,
    "status": answer_status,
    "program": answer_program,
    "bytes": answer_bytes,
    "padded": answer_padded,
}


def answer(program, vector):
    """Returns what the program answers to a vector; nothing if no command line can answer it."""
    _, kind, words, _ = vector
    try:
        return ANSWERS[kind](program, kind, words)
    except subprocess.TimeoutExpired:
        return b"no answer in time"


def check(program, vectors, kinds, jobs):
    """Writes each vector that differs, and the counts; returns whether none differs."""
    counts = dict.fromkeys(kinds, 0)
    wrong = 0
    with ThreadPoolExecutor(jobs) as pool:
        answers = pool.map(lambda it: answer(program, it), vectors)
        for (line, kind, words, expected), found in zip(vectors, answers):
            counts[kind] += found is not None
            if found not in (None, expected.encode()):
                wrong += 1
                print(f"line {line}: {kind} {words} =\n{found.decode(errors='replace')}")
    for kind, count in counts.items():
        print(f"{kind} {count}")
    print(f"{sum(counts.values())} vectors, {wrong} wrong")
    return wrong == 0


def main(words):
    options = {"--kinds": ",".join(ANSWERS), "--seconds": "60", "--jobs": str(os.cpu_count())}
    while len(words) > 1 and words[0] in options:
        options[words[0]] = words[1]
        words = words[2:]
    kinds = options["--kinds"].split(",")
    if missing := {*kinds} - {*ANSWERS}:
        print(f"no command line answers: {' '.join(sorted(missing))}", file=sys.stderr)
        return 2
    seconds, jobs = (int(options[it]) if options[it].isdecimal() else 0 for it in ("--seconds", "--jobs"))
    if not words or words[0].startswith("-") or not seconds or not jobs:
        print(__doc__, file=sys.stderr)
        return 2
    top = os.path.dirname(os.path.dirname(os.path.realpath(__file__)))
    with open(f"{top}/crates/etcs_vectors/stdin", encoding="utf-8", newline="") as sheet:
        vectors = [it for it in (*vectors_of(sheet.read()), *((0, *it) for it in PADDED)) if it[1] in kinds]
    try:
        with telegram_folder() as folder:
            program = Program(words, seconds, folder)
            if is_unproved(program):
                vectors = [(*rest, as_unproved(expected)) for *rest, expected in vectors]
            return 0 if check(program, vectors, kinds, jobs) else 1
    except OSError as error:
        print(f"{words[0]}: {error.strerror}", file=sys.stderr)
        return 2


if __name__ == "__main__":
    sys.exit(main(sys.argv[1:]))
