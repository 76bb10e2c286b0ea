#!/usr/bin/env python3
"""Runs the examples of the documents, and writes the parts of documents that show an item's bits or a file.

    tools/doc_examples.py [--check] PROGRAM [DOCUMENT ..]

PROGRAM is the built `etcs`. If no document is named, they are README.md, examples/README.md and those of docs/.

- Each block ```console is run by bash in a folder for its document, in which `./etcs` is PROGRAM, and `docs`
  and `examples` are the repository's folders. After each command, a line that begins with `$ ` with those that begin with `> `, comes all that it
  writes, standard error too. A line `..` stands for any number of lines, and `..` at a line's end for any rest of it.
  If a tool that a block needs isn't installed, what it writes isn't compared, and a line `skipped: ..` says so.
- After `<!-- lines: PATH .. -->` each line of the block, except comments and empty ones, is a line of one of these files.
  `{ .. }` at its end stands for a block of any length.
- After `<!-- .. skeletons of packets to the WAY -->` each line of the block is a packet that an item of the way may have.
- Each row of examples/README.md is run, a file with its kind or its command: the status, and the line `etcs: ..` or none,
  have to be those that it says.
- After `<!-- bits: KIND FILE -->` the block is the first item of a file of examples/, bit by bit: its variables and
  numbers are those that PROGRAM shows, its widths those of the sources, and its bits those of the file, in which the
  numbers have to be. `<!-- bits: KIND FILE 50..128 -->` is of these bits alone.
- After `<!-- file: PATH -->` the block is the file; after `<!-- file: PATH NAME .. -->` its lines between `// NAME` and
  `// end`, of one name after another, and for a name `NAME()` the function with the comment above it, after a blank line.

Blocks of the last two kinds are rewritten; with --check they are compared. The status is 1 if an output or a block
differs.
"""

import glob
import json
import os
import re
import shlex
import shutil
import subprocess
import sys
import tempfile
import textwrap
from collections import namedtuple

sys.dont_write_bytecode = True
import sources
from sources import TESTS, TOP, One, When

Piece = namedtuple("Piece", "at width name number note")
MARKED = re.compile(r"(<!-- (bits|file): ([^\n]*?) -->\n```\w*\n)(.*?)(^```\n)", re.S | re.M)
LINES = re.compile(r"<!-- lines: ([^\n]*?) -->\n```\w*\n(.*?)^```\n", re.S | re.M)
SKELETONS = re.compile(r"skeletons of packets to the (train|track) -->\n```json\n(.*?)^```\n", re.S | re.M)
CONSOLE = re.compile(r"^```console\n(.*?)\n```$", re.S | re.M)
END = "-- the end of a command --"
LIMIT = 120  # seconds for a block of commands
TOOLS = ("cc", "jq", "jsonschema", "parallel", "perl", "python3", "xxd")  # what commands need that not every machine has


def widths():
    """Returns the widths of the variables by their printed names."""
    return {it.name: it.width for it in sources.variables()}


# ---- Items bit by bit.


def shown(program, kind, path):
    """Yields name, number and text of each variable of a file's first item, as the program shows it; kept bits as a text."""
    given = open(f"{TOP}/{path}", "rb").read()
    done = subprocess.run([program, "show", "--kind", kind], input=given, capture_output=True, check=True)
    text = done.stdout.decode().split("\nitem 2 ")[0]
    for line in text.strip().split("\n")[1:]:
        name, *more = line.split(maxsplit=2)
        if name == "packet":
            yield "NID_PACKET", more[0], ""
        elif name in ("FILL", "OTHER_DATA", "PADDING"):
            yield name, "".join(more[1:]), ""
        elif name != "end":
            yield name, more[0], "".join(more[1:]).strip("()")


def number_of(name, text):
    """Returns the number that a text of `show` says: hexadecimal of NID_RADIO, with a sign of D_REF."""
    return int(text, 16) if name == "NID_RADIO" else int(text) % 2 ** widths()[name]


def notes(way, names):
    """Returns what follows a variable that is a count or a flag, by its name and number, of the packet or message read."""
    found = {}
    rows = [it.row for it in (*sources.packets(way).values(), *sources.messages(way).values())]
    while rows:
        for item in rows.pop():
            if not isinstance(item, One):
                rows.append(item.items)
            if isinstance(item, When):
                for number in sources.numbers_of(item.var):
                    if TESTS[item.test][1](number):
                        found[item.var, number] = "then " + ", ".join(it.var for it in item.items if isinstance(it, One))
    return {it: text for it, text in found.items() if it[0] in names}


def pieces(program, kind, path):
    """Yields the variables of an item with their places and notes."""
    items = list(shown(program, kind, path))
    followed, at, packet = notes("track" if kind == "train" else "train", {it[0] for it in items}), 0, 0
    for name, text, special in items:
        if name in ("FILL", "OTHER_DATA", "PADDING"):
            yield Piece(at, len(text), name, text, "")
            at += len(text)
            continue
        number, width = number_of(name, text), widths()[name]
        packet = at if name == "NID_PACKET" else packet
        note = special or followed.get((name, number), "")
        if name == "L_PACKET":
            note = f"the packet ends with bit {packet + number - 1}"
        elif name == "L_MESSAGE":
            note = f"the message ends with bit {8 * number - 1}"
        elif name in ("N_ITER", "L_TEXT"):
            note = "no entries" if number == 0 else "1 entry" if number == 1 else f"{number} entries"
        elif name == "NID_PACKET" and number == 255 and kind in ("short", "long"):
            note = "the end of the packets"
        yield Piece(at, width, name, number, note)
        at += width
    if at % 8:
        yield Piece(at, 8 - at % 8, "PAD", 0, "")


def byte_lines(hexed, most):
    """Returns the first bytes of an item and their bits, four a line."""
    lines = []
    for at in range(0, min(len(hexed) // 2, most), 4):
        group = [hexed[2 * i : 2 * i + 2] for i in range(at, min(at + 4, len(hexed) // 2))]
        bits = " ".join(f"{int(it, 16):08b}" for it in group)
        lines.append(f"byte {at:>3}, bit {8 * at:>3}:  {' '.join(group):<11}  {bits}")
    return lines + [".."] * (len(hexed) // 2 > most)


def item_lines(program, words):
    """Returns the lines of an item, or of some of its bits, bit by bit; each number has to be in the file's bits."""
    kind, path, *part = words.split()
    rows, read = [("bits", "sent", "variable", "number", "")], list(pieces(program, kind, path))
    first, last = map(int, part[0].split("..")) if part else (0, 0)
    end = read[-1].at + read[-1].width
    hexed = "".join(open(f"{TOP}/{path}", encoding="ascii").read().split())[: end // 4]
    bits = f"{int(hexed, 16):0{4 * len(hexed)}b}"
    for at, width, name, number, note in read:
        sent = bits[at : at + width]
        if sent != (number if isinstance(number, str) else f"{number:0{width}b}"):
            raise LookupError(f"{path}: {name} isn't at bit {at}")
        if isinstance(number, str):
            number = f"{width} bits" if width != 1 else "1 bit"
        if width > 32 and len(set(sent)) == 1:
            sent = sent[:8] + ".." + sent[-8:]
        if not part or first <= at <= last:
            rows.append((str(at) if width == 1 else f"{at}..{at + width - 1}", sent, name, str(number), note))
    sizes = [max(len(row[i]) for row in rows) for i in range(4)]
    lines = ["  ".join(it.ljust(size) for it, size in zip(row, [*sizes, 0])).rstrip() for row in rows]
    fill = next((it.at for it in read if it.name == "FILL"), len(bits))
    return lines if part else [*byte_lines(hexed, fill // 8 + 2), "", *lines]


def file_lines(words):
    """Returns the lines of a file, or of parts of it, without the blanks that all lines of a part begin with."""
    path, *names = words.split()
    text = open(f"{TOP}/{path}", encoding="utf-8").read()
    parts = [part_of(text, it) for it in names]
    return "\n".join(textwrap.dedent(it) for it in parts or [text]).rstrip("\n").split("\n")


def part_of(text, name):
    """Returns the lines of a part of a file, or those of a function `NAME()` with the comment above it."""
    if name.endswith("()"):
        return re.search(rf"^(?:///[^\n]*\n)*(?:pub )?fn {re.escape(name[:-2])}\b.*?^\}}\n", text, re.S | re.M)[0]
    return re.search(rf"^ *// {re.escape(name)}\n(.*?)^ *// end$", text, re.S | re.M)[1]


def remade(text, program):
    """Returns a document with its marked blocks rewritten."""

    def block(found):
        lines = item_lines(program, found[3]) if found[2] == "bits" else file_lines(found[3])
        return found[1] + "".join(f"{it}\n" for it in lines) + found[5]

    return MARKED.sub(block, text)


# ---- Commands and what they write.


def commands(block):
    """Yields each command of a block with the lines that it has to write."""
    command, wanted = None, []
    for line in block.split("\n"):
        if line.startswith("$ "):
            if command:
                yield command, wanted
            command, wanted = line[2:], []
        elif line.startswith("> ") and command and not wanted:
            command += "\n" + line[2:]
        else:
            wanted.append(line)
    if command:
        yield command, wanted


def written(block, folder):
    """Returns what each command of a block writes."""
    script = "".join(f"{it}\n__s=$?; printf '%s\\n' '{END}'; (exit $__s)\n" for it, _ in commands(block))
    done = subprocess.run(
        ["bash", "-c", script], cwd=folder, stdin=subprocess.DEVNULL, stdout=subprocess.PIPE, stderr=subprocess.STDOUT, timeout=LIMIT
    )
    return done.stdout.decode("utf-8", "replace").split(END + "\n")


def agrees(lines, wanted):
    """Returns whether lines are the wanted ones, in which `..` stands for any lines or for the rest of one."""
    if not wanted:
        return not lines
    first, rest = wanted[0], wanted[1:]
    if first.strip() == "..":
        return any(agrees(lines[i:], rest) for i in range(len(lines) + 1))
    if not lines:
        return False
    same = lines[0].startswith(first[:-2]) if first.endswith("..") else lines[0] == first
    return same and agrees(lines[1:], rest)


def tools_missing(block):
    """Returns the tools that commands of a block need and that aren't installed."""
    words = {word for command, _ in commands(block) for word in re.findall(r"[\w-]+", command)}
    return [it for it in TOOLS if it in words and not shutil.which(it)]


def skipped(text, path):
    """Yields a line for each console block of a document that isn't compared."""
    for found in CONSOLE.finditer(text):
        if missing := tools_missing(found[1]):
            yield f"skipped: {path}:{line_of(text, found)} needs {', '.join(missing)}"


def line_of(text, found):
    """Returns the line of a document at which a block's first command is."""
    return text.count("\n", 0, found.start()) + 2


def differences(text, path, program):
    """Yields what is wrong with the console blocks of a document."""
    with tempfile.TemporaryDirectory(prefix="etcs-examples-") as folder:
        os.symlink(os.path.realpath(program), f"{folder}/etcs")
        for name in ("docs", "examples"):
            os.symlink(f"{TOP}/{name}", f"{folder}/{name}")
        for found in CONSOLE.finditer(text):
            try:
                outputs = written(found[1], folder)
            except subprocess.TimeoutExpired:
                yield f"{path}:{line_of(text, found)} took more than {LIMIT} s"
                continue
            if tools_missing(found[1]):
                continue
            for (command, wanted), output in zip(commands(found[1]), outputs):
                if not agrees(output.removesuffix("\n").split("\n") if output else [], wanted):
                    yield f"{path}:{line_of(text, found)}: $ {command}\n{output}"


def line_differences(text, path):
    """Yields the lines of quoted blocks that are in none of their files."""
    for paths, block in LINES.findall(text):
        sources = [f"{TOP}/{it}" for it in paths.split()]
        there = {line.strip() for it in sources if os.path.exists(it) for line in open(it, encoding="utf-8")}
        for line in block.split("\n"):
            line = re.sub(r"\{ \.\. \}$", "{", line.strip())
            if line and not line.startswith("//") and line not in there:
                yield f"{path}: no source has the line {line}"


def items_with(way, packet):
    """Yields JSON of items with a packet, one of which has the bits that are left: FILL if it may be in no message, else PADDING."""
    message = {"fields": [], "packets": [packet]}
    if way == "track":
        message |= {"header": [["T_TRAIN", 0], ["NID_ENGINE", 1]], "kind": "train", "nid": 136}
    else:
        message |= {"header": [["T_TRAIN", 0], ["M_ACK", 0], ["NID_LRBG", 1]], "kind": "radio", "nid": 24}
    if (way, packet["nid"]) != ("train", 0):
        yield from ({**message, "padding": "0" * count} for count in range(8))
        return
    names = "Q_UPDOWN M_VERSION Q_MEDIA N_PIG N_TOTAL M_DUP M_MCOUNT NID_C NID_BG Q_LINK".split()
    header = [[name, {"Q_UPDOWN": 1, "M_VERSION": 33}.get(name, 0)] for name in names]
    yield {"fill": "1" * 138, "header": header, "kind": "short", "packets": [packet]}


def skeleton_differences(text, path, program):
    """Yields the skeletons of packets that no item has."""
    for way, block in SKELETONS.findall(text):
        for line in block.splitlines():
            given = list(items_with(way, json.loads(line)))
            words = [program, "check", "--from", "json", "--kind", given[0]["kind"]]
            answers = (subprocess.run(words, input=json.dumps(it).encode(), capture_output=True).returncode for it in given)
            if 0 not in answers:
                yield f"{path}: no item has {line}"


def row_differences(text, path, program):
    """Yields what is wrong with the rows of examples/README.md, which have a file, its kind or a command, and what it writes."""
    for name, given, answer in re.findall(r"^\| `(\w+\.\w+)` \| (.*?) \| (.*) \|$", text, re.M):
        command = given.strip("`") if "etcs" in given else f"./etcs show --kind {given} < examples/{name}"
        command += " --from json" * name.endswith(".json")
        command = command.replace("./etcs", shlex.quote(program))
        try:
            done = subprocess.run(["bash", "-c", command], cwd=TOP, capture_output=True, timeout=LIMIT)
        except subprocess.TimeoutExpired:
            yield f"{path}: {name} took more than {LIMIT} s"
            continue
        status, fault = re.search(r"status (\d)$", answer)[1], re.search(r"`(etcs: [^`]*)`", answer)
        if str(done.returncode) != status or done.stderr.decode() != (fault[1] + "\n" if fault else ""):
            yield f"{path}: {name} answers {done.returncode}\n{done.stderr.decode()}"


def main(words):
    check = "--check" in words
    words = [it for it in words if it != "--check"]
    if not words or words[0].startswith("-"):
        sys.exit(__doc__)
    program, *paths = words
    paths = paths or ["README.md", "examples/README.md", *sorted(os.path.relpath(it, TOP) for it in glob.glob(f"{TOP}/docs/*.md"))]
    faults = []
    for path in paths:
        old = open(f"{TOP}/{path}", encoding="utf-8").read()
        new = remade(old, program)
        if new != old and check:
            faults.append(f"{path}: a block has parted from its source: run tools/doc_examples.py")
        elif new != old:
            open(f"{TOP}/{path}", "w", encoding="utf-8").write(new)
        sys.stdout.writelines(f"{it}\n" for it in skipped(new, path))
        faults += [*differences(new, path, program), *line_differences(new, path)]
        faults += skeleton_differences(new, path, os.path.realpath(program))
        if path == "examples/README.md":
            faults += row_differences(new, path, os.path.realpath(program))
    print("\n".join(faults) or f"{len(paths)} documents, no difference")
    return 1 if faults else 0


if __name__ == "__main__":
    sys.exit(main(sys.argv[1:]))
