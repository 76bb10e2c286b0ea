#!/usr/bin/env python3
"""Writes the tables of docs/FORMAT.md, docs/SUPPORTED.md, docs/USING.md, docs/ARCHITECTURE.md and docs/ASSESSMENT.md that come from
the sources (those of the last one: tools/assessment.py), and the files of tables for other tools (tools/machine_tables.py).

    tools/format_tables.py [--check]

A part between `<!-- made by tools/format_tables.py: NAME -->` and `<!-- end -->` is rewritten. With --check nothing is
written: the status is 1 if a document or a file no longer matches the sources. The sources are the tables of crates/etcs_vars and
crates/etcs_tables, the enums of packets and bodies with their comments, and crates.txt. Variables are compared with their
definitions, and lengths with the vectors `lengths`, before anything is written.
"""

import json
import re
import sys
import textwrap

sys.dont_write_bytecode = True
import assessment
import machine_tables
import sources
from guarantees import intro
from sources import FRAMES, MOST_LENGTH, TESTS, TOP, Many, One, When, crates, crates_below, message_names, messages, packet_names, packets, variable, variables

KEPT = "\u00a0"  # a blank at which no line is broken
DOCUMENTS = ["docs/FORMAT.md", "docs/SUPPORTED.md", "docs/USING.md", "docs/ARCHITECTURE.md", "docs/ASSESSMENT.md"]
PART = re.compile(r"(<!-- made by tools/format_tables.py: ([\w ]+) -->\n)(.*?)(<!-- end -->)", re.S)

# What the line of a variable says about its unit.
UNITS = {
    "in steps of 5 km/h": "5 km/h",
    "in seconds": "1 s",
    "in metres": "1 m",
    "in bits": "1 bit",
    "in bytes": "1 byte",
    "in per mille": "1 ‰",
    "in steps of 10 ms": "10 ms",
    "by Q_SCALE": "Q_SCALE",
}


def thousands(number):
    """Returns a number with commas."""
    return f"{number:,}"


def spans(numbers):
    """Returns numbers as text, consecutive ones as a range."""
    groups = []
    for n in sorted(numbers):
        if groups and groups[-1][1] == n - 1:
            groups[-1][1] = n
        else:
            groups.append([n, n])
    return ", ".join(map(span, groups))


def span(ends):
    """Returns a range as text: both numbers where there are only two."""
    low, high = map(thousands, ends)
    return low if ends[0] == ends[1] else f"{low}, {high}" if ends[0] + 1 == ends[1] else f"{low} to {high}"


# ---- Variables.


def every_row():
    """Returns the rows of all packets and messages."""
    return [it.row for way in FRAMES for table in (packets(way), messages(way)) for it in table.values()]


def flat_vars(row):
    """Yields the variables of a row, those of groups too."""
    for item in row:
        if isinstance(item, One):
            yield item.var
        else:
            yield from flat_vars(item.items)


def is_scaled(var):
    """Returns whether a variable is a distance or length of rows that have Q_SCALE, all of them."""
    rows = [list(flat_vars(it)) for it in every_row()]
    rows = [it for it in rows if var in it]
    return var[:2] in ("D_", "L_") and var != "L_TEXT" and bool(rows) and all("Q_SCALE" in it for it in rows)


def unit_of(var):
    """Returns the unit of a variable's numbers, or nothing."""
    said = next((unit for words, unit in UNITS.items() if words in var.text), None)
    return said or ("Q_SCALE" if is_scaled(var.var) else "")


def meaning_of(var):
    """Returns what a variable means: its comment without its unit, and its special texts."""
    text = var.text.removesuffix(".")
    for words in UNITS:
        text = text.replace(f", {words}", "")
    text = text[0].upper() + text[1:]
    return text + "".join(f"; {n} is {it}" for n, it in var.special)


def admitted(var):
    """Returns the numbers that a variable admits, as text."""
    if var.ranges == [(0, 2**var.width - 1)]:
        return "all"
    return ", ".join(map(span, var.ranges))


def table_of_variables():
    """Returns the tables of variables, one for each group of the sources."""
    lines = []
    for var in variables():
        if not lines or var.group != group:
            group = var.group
            lines += [f"**{group}**", "", "| variable | bits | admits | unit | meaning |", "|---|---|---|---|---|"]
        lines.append(f"| {var.name} | {var.width} | {admitted(var)} | {unit_of(var)} | {meaning_of(var)} |")
        following = variables()[variables().index(var) + 1 :]
        if following and following[0].group != group:
            lines.append("")
    return lines


# ---- Rows.


def row_text(row):
    """Returns a row as text: a variable and its bits; `(..) if V is 1`; `[..] V times`. KEPT is a blank within a line."""
    return ", ".join(map(item_text, row))


def item_text(item):
    """Returns an item of a row as text."""
    if isinstance(item, One):
        return f"{variable(item.var).name}{KEPT}{variable(item.var).width}"
    if isinstance(item, Many):
        return f"[{row_text(item.items)}]{KEPT}{item.var}{KEPT}times"
    test = TESTS[item.test][0].replace(" ", KEPT)
    return f"({row_text(item.items)}){KEPT}if{KEPT}{item.var}{KEPT}{test}"


def row_lines(row):
    """Returns a row as indented lines."""
    lines = textwrap.wrap(row_text(row) or "nothing", 104, break_long_words=False, break_on_hyphens=False)
    return ["    " + it.replace(KEPT, " ") for it in lines]


def packet_blocks(way):
    """Returns the rows of the packets of a way."""
    lines = ["```text"]
    for packet in packets(way).values():
        name = packet_names(way)[packet.nid]
        lines += [f"{packet.nid} {name} ({packet.variant}): {packet.text}", *row_lines(packet.row)]
    return [*lines, "```"]


def message_blocks(way):
    """Returns the rows of the messages of a way."""
    lines = ["| message | name | variables after the header |", "|---|---|---|"]
    for it in messages(way).values():
        row = row_text(it.row).replace(KEPT, " ")
        lines.append(f"| {it.nid} | {message_names(way)[it.nid]} | {row or 'none'} |")
    return lines


# ---- Coverage.


def bits_of(packet, way):
    """Returns the least and the largest number of bits of a packet, its frame among them."""
    least, most = packet.lengths[0] + FRAMES[way], packet.lengths[-1] + FRAMES[way]
    return f"{thousands(least)} | {thousands(most)}"


def coverage_of_packets(way):
    """Returns the table of the packets of a way: typed ones and those that have a name by their numbers, then all others."""
    enum, names = {"train": "Packet", "track": "TrainPacket"}[way], packet_names(way)
    other = {"train": "Other", "track": "TrainOther"}[way]
    kept = f"kept as bits | `{enum}::Other({other})` | {FRAMES[way]} | {thousands(MOST_LENGTH)}"
    rows = {it: kept for it in names}
    for it in packets(way).values():
        rows[it.nid] = f"{it.text} | `{enum}::{it.variant}({it.type})` | {bits_of(it, way)}"
    if way == "train":
        bits = 8 + variable("NID_VBCMK").width
        rows[0] = f"the marker of a virtual balise cover | `{enum}::VbcMarker(Marker)` | {bits} | {bits}"
        rows[255] = "the end of a telegram's packets | none: it isn't in the list of packets | 8 | 8"
    lines = ["| NID_PACKET | name | what it is | Rust value | least bits | largest bits |", "|---|---|---|---|---|---|"]
    lines += [f"| {nid} | {names[nid]} | {rows[nid]} |" for nid in sorted(rows)]
    return [*lines, f"| {spans(set(range(256)) - set(rows))} | | {kept} |"]


def coverage_of_messages(way):
    """Returns the table of the messages of a way."""
    made, names = {"train": "Message", "track": "TrainMessage"}[way], message_names(way)
    kept = f"none: `{made}::kept(nid, bits)` | kept as bits | 18 | 3 to 1,023"
    header = {"train": 75, "track": 74}[way]
    rows = {it: kept for it in names}
    for it in messages(way).values():
        row, lengths = row_text(it.row).replace(KEPT, " "), ", ".join(map(span, it.lengths))
        rows[it.nid] = f"`{it.variant}` | {row or 'none'} | {header + it.bits} | {lengths}"
    lines = ["| NID_MESSAGE | name | Rust value of the body | variables | bits before the packets | bytes, L_MESSAGE |"]
    lines += ["|---|---|---|---|---|---|", *(f"| {nid} | {names[nid]} | {rows[nid]} |" for nid in sorted(rows))]
    return [*lines, f"| {spans(set(range(256)) - set(rows))} | | {kept} |"]


# ---- Skeletons.


def pairs(row):
    """Yields the pairs of a row with the least numbers, and Q_SCALE 1: no group after a count, and those that a flag of 0 has."""
    number = 0
    for item in row:
        if isinstance(item, One):
            name, number = variable(item.var).name, 1 if item.var == "Q_SCALE" else variable(item.var).ranges[0][0]
            yield [name, f"{number:016x}" if name == "NID_RADIO" else number]
        elif isinstance(item, When) and TESTS[item.test][1](number):
            yield from pairs(item.items)


def skeletons(way):
    """Returns the JSON of a packet of each number of a way, with the least numbers, a line each."""
    found = [{"fields": list(pairs(it.row)), "nid": it.nid} for it in packets(way).values()]
    found.append({"data": "", "nid": 44})
    if way == "train":
        found = [{"dir": 1, **it} for it in found]
        found.insert(0, {"fields": [["NID_VBCMK", 0]], "nid": 0})
    return ["```json", *(json.dumps(it, separators=(",", ":"), sort_keys=True) for it in found), "```"]


# ---- Crates.


def table_of_crates():
    """Returns what has to be copied for each use of the library: the crates, or how they differ from those of an earlier use."""
    uses = [
        ("telegrams: reading, building, viewing", "etcs_telegram"),
        ("balise groups", "etcs_group"),
        ("radio messages to the train", "etcs_radio"),
        ("radio messages to the track", "etcs_train"),
        ("text of items", "etcs_text"),
        ("JSON of items", "etcs_json"),
        ("runs over streams, as the program's commands", "etcs_stream"),
        ("all of it", "etcs_codec"),
        ("why bytes are refused", "etcs_reasons"),
        ("why an input is refused", "etcs_explain"),
        ("logs", "etcs_log"),
    ]
    lines = ["| for | crate | folders to copy, with their lines of crates.txt | crates of the kit |", "|---|---|---|---|"]
    above = {}
    for use, name in uses:
        own, kit = crates_below([name])
        near = min(above, key=lambda it: len(set(above[it]) ^ set(own)), default=None)
        text = ", ".join(f"`{it}`" for it in own if it not in above.get(near, []))
        if near:
            less = ", ".join(f"`{it}`" for it in above[near] if it not in own)
            text = f"those of `{near}`" + (f" but {less}" if less else "") + f", and {text}"
        lines.append(f"| {use} | `{name}` | {len(own)}: {text} | {', '.join(f'`{it}`' for it in kit)} |")
        above[name] = own
    return lines


def what_crates_are():
    """Returns the crates of crates.txt, each with the first paragraph of its lib.rt or main.rt."""
    return ["| crate | what it is |", "|---|---|", *(f"| `{it}` | {intro(it)} |" for it in crates())]


PARTS = {
    "variables": table_of_variables,
    "packets to the train": lambda: packet_blocks("train"),
    "packets to the track": lambda: packet_blocks("track"),
    "messages to the train": lambda: message_blocks("train"),
    "messages to the track": lambda: message_blocks("track"),
    "coverage of packets to the train": lambda: coverage_of_packets("train"),
    "coverage of packets to the track": lambda: coverage_of_packets("track"),
    "coverage of messages to the train": lambda: coverage_of_messages("train"),
    "coverage of messages to the track": lambda: coverage_of_messages("track"),
    "skeletons of packets to the train": lambda: skeletons("train"),
    "skeletons of packets to the track": lambda: skeletons("track"),
    "crates": table_of_crates,
    "what crates are": what_crates_are,
    **assessment.PARTS,
}


def text_of(path):
    """Returns the text of a file; nothing if there is no such file."""
    try:
        with open(f"{TOP}/{path}", encoding="utf-8") as file:
            return file.read()
    except FileNotFoundError:
        return ""


def remade(text):
    """Returns a document with its tables made anew."""
    return PART.sub(lambda it: it[1] + "\n".join(PARTS[it[2]]()) + "\n" + it[4], text)


def main(words):
    if words not in ([], ["--check"]):
        sys.exit(__doc__)
    sources.check_with_vectors()
    count = sum(len(PART.findall(text_of(it))) for it in DOCUMENTS)
    files = machine_tables.files()
    made = {path: remade(text_of(path)) for path in DOCUMENTS} | files
    parted = [path for path, text in made.items() if text_of(path) != text]
    for path in parted:
        if words:
            print(f"{path} has parted from the sources: run tools/format_tables.py", file=sys.stderr)
        else:
            with open(f"{TOP}/{path}", "w", encoding="utf-8") as file:
                file.write(made[path])
    is_wrong = bool(words and parted)
    print(f"{count} tables in {len(DOCUMENTS)} documents, and {len(files)} files" + ("" if is_wrong else ", no difference"))
    return 1 if is_wrong else 0


if __name__ == "__main__":
    try:
        sys.exit(main(sys.argv[1:]))
    except LookupError as error:
        sys.exit(f"tools/format_tables.py: {error}")
