"""The tables of docs/ASSESSMENT.md, which tools/format_tables.py writes: what SUBSET-026 has, where it is defined, the clauses of which
calls name it, and how many vectors do.

A section is the one that the first comment of a file of definitions names. Each call is one of docs/GUARANTEES.md, and its clauses
name the definition, directly or by others; the script fails if they don't. A vector of crates/etcs_vectors/stdin names

- a variable if its name, as it is printed or as it is in the sources, is a word of it;
- a packet by the name of its row (`p5`, `tp5`), by `packet 5`, `NID_PACKET 5`, or as JSON `"packet":5` or `"nid":5`; by the number
  that the first word, or the word after `typed` or `kept`, is in a vector about packets; or by its kind, if that is the
  packet's type;
- a message by the name of its row (`m24`, `tm24`), by `message 24`, `NID_MESSAGE 24`, or as JSON `"message":24` or `"nid":24`;
- a kind of items as `--kind radio`, `item 1 radio`, `"kind":"radio"`, by its first word, or by what its kind begins with; a balise group
  as `etcs group` or `--groups`;
- a header or a frame by a variable that each has: Q_UPDOWN, T_TRAIN, L_PACKET; and bits of numbers by the kinds `peek` and `poke`.

A vector with kinds of both ways isn't counted for packets.
"""

import os
import re
import sys
from collections import Counter
from functools import lru_cache

sys.dont_write_bytecode = True
sys.path.append(os.path.join(os.path.dirname(os.path.dirname(os.path.realpath(__file__))), "tests"))
from guarantees import calls_of, file_of, is_defined, named_by
from machine_tables import version
from sources import TOP, found_one, message_names, messages, packet_names, packets, source, variables
from vectors import vectors_of

HEAD = ["| SUBSET-026 | what | definition | calls | vectors |", "|---|---|---|---|---|"]
VARS, HEADERS, FRAMES, ROWS = (f"etcs_{it}.antt" for it in ("vars/specs/Vars", "tables/specs/Headers", "tables/specs/Frames", "tables/specs/Rows"))
BITS, CONTENTS, TELEGRAMS = (f"etcs_{it}.antt" for it in ("bits/specs/Bits", "sequence/specs/Contents", "telegram/specs/Telegrams"))
MESSAGES, GROUPS, GROUP_MESSAGES = (f"etcs_{it}.antt" for it in ("messages/specs/Messages", "group/specs/Groups", "group/specs/Messages"))
WAYS = {"train": "ToTrain", "track": "ToTrack"}
# The files that name the sections of a way: of typed packets, of kept ones, of messages.
SECTIONS = {
    "train": ("etcs_flat/specs/Flats.antt", "etcs_flat/specs/Others.antt", "etcs_radio/specs/Messages.antt"),
    "track": ("etcs_track/specs/TrainFlats.antt", "etcs_track/specs/TrainOthers.antt", "etcs_train/specs/Messages.antt"),
}
# The calls of typed packets of a way, of kept ones, and of all messages.
TYPED = {"train": ("etcs_packets", "parts::from_fields", "parts::from_bits"), "track": ("etcs_track", "TrainPacket::variables")}
KEPT = {"train": ("etcs_flat", "Other::new"), "track": ("etcs_track", "TrainOther::new")}
TELEGRAM_CALLS = "etcs_telegram", "TelegramReader::feed", "Telegram::encode"
MESSAGE_CALLS = "etcs_messages", "ReaderOf::feed", "MessageOf::encode"
# Kinds of vectors whose first word is the number of a packet.
NUMBERED = re.compile(r"(train_)?(packet|packet_numbers|packet_bits|flat|flat_bits|flat_packet|kept|kept_long|balise_list)")
# Kinds whose words look like a message, but mean a number of bits or bytes of it.
UNNAMED = ("number", "length", "message", "train_message")
PACKET = re.compile(r'\bt?p(\d+)\b|\bpacket (\d+)\b|\bNID_PACKET +(\d+)\b|"packet":(\d+)|(?<!"kind":"radio",)(?<!"kind":"train",)"nid":(\d+)|\b(?:typed|kept) (\d+)\b')
MESSAGE = re.compile(r'\bt?m(\d+)\b|\bmessage (\d+)\b|\bNID_MESSAGE +(\d+)\b|"message":(\d+)|"kind":"(?:radio|train)","nid":(\d+)')


# ---- Sections, definitions, calls.


@lru_cache(maxsize=None)
def section(path):
    """Returns the sections that the first comment of a file names."""
    head = re.match(r"(?:-- .*\n)+", source(path))[0].replace("\n-- ", " ")
    return ", ".join(re.findall(r"\d+(?:\.\d+)*", found_one(r"SUBSET-026([^;)]*)", head, f"the section of {path}")[1]))


@lru_cache(maxsize=None)
def reached(crate, name):
    """Returns the definitions that the clauses of a call name, directly or by others, each as its file and its name."""
    found = next((it for it in calls_of(crate) if it.name == name), None)
    if not found:
        raise LookupError(f"{crate} has no call {name} with a clause")
    waiting, seen = [*filter(is_defined, found.terms)], set()
    while waiting:
        item = waiting.pop()
        if item not in seen:
            seen.add(item)
            waiting += named_by(item)
    return {(it.path.removeprefix("crates/"), it.name) for it in seen}


def trace(sections, what, definition, calls, count, line=None):
    """Returns a line of a table. The clauses of each call have to name the definition; the line is its first one, or the given one."""
    (path, name), (crate, *names) = definition, calls
    if unrelated := [it for it in names if definition not in reached(crate, it)]:
        raise LookupError(f"the clauses of {crate}::{unrelated[0]} don't name {name}")
    line = line or file_of(f"crates/{path}").declared[name].line
    where = f"[{path}:{line}](../crates/{path}#L{line}) `{name}`"
    return f"| {sections} | {what} | {where} | [{crate}](GUARANTEES.md#{crate}) {', '.join(f'`{it}`' for it in names)} | {count} |"


def line_of(path, text):
    """Returns the number of the line that begins with a text."""
    return next(number for number, line in enumerate(source(path).split("\n"), 1) if line.startswith(text))


@lru_cache(maxsize=None)
def rows(table):
    """Returns the row of each way and number of a table of rows: what is beside the number, and its line."""
    item, way, found = file_of(f"crates/{ROWS}").declared[table], None, {}
    for number, line in enumerate(item.lines, item.line):
        way = next((it for it, name in WAYS.items() if line.startswith(f"{table} {name} =")), way)
        if entry := re.match(r"    \((\d+), (.*?)\) ∷", line):
            found[way, int(entry[1])] = entry[2], number
    return found


def row_of(table, way, nid):
    """Returns the definition of a row and its line: a definition of its own, or a line of the table."""
    text, line = rows(table)[way, nid]
    is_named = text != "whole" and text in file_of(f"crates/{ROWS}").declared
    return ((ROWS, text), None) if is_named else ((ROWS, table), line)


# ---- Vectors.


def kinds_of(words):
    """Returns the kinds of items that a command line requests."""
    return {it for text in re.findall(r"--kind ([\w,]+)", words) for it in text.split(",")}


def way_of(kind, words):
    """Returns the way of a vector's packets; nothing if it has kinds of both ways."""
    kinds = kinds_of(words)
    if "train" in kinds and len(kinds) > 1:
        return None
    return "track" if kind.startswith("train") or words.startswith("train ") or "train" in kinds or re.search(r"\bt[pm]\d", words) else "train"


def type_packets():
    """Returns the packet that a kind of vectors is named for, as `linking` is for Linking."""
    every = [(way, it) for way in WAYS for it in packets(way).values() if "<" not in it.type]
    return {re.sub(r"(?<!^)(?=[A-Z])", "_", it.type).lower(): (way, it.nid) for way, it in every} | {"marker": ("train", 0)}


def numbers(pattern, text):
    """Returns the numbers that matches of a pattern have in one of their groups."""
    return {int(nid) for it in pattern.findall(text) for nid in it if nid}


def named_packets(kind, words, text, types):
    """Yields the packets that a vector names, each as its way and its number; a number without a name as `other`."""
    way, found = way_of(kind, words), numbers(PACKET, text)
    if NUMBERED.fullmatch(kind) and words.split(" ")[0].isdigit():
        found.add(int(words.split(" ")[0]))
    yield from ((way, nid if nid in packet_names(way) else "other") for nid in found if way)
    yield from [types[kind]] if kind in types else []


def named_messages(kind, text):
    """Yields the messages that a vector names, as packets."""
    if kind not in UNNAMED:
        every = {nid: way for way in WAYS for nid in message_names(way)}
        yield from ((f"message to the {every.get(nid, way)}", nid if nid in every else "other")
                    for nid in numbers(MESSAGE, text) for way in [("train", "track")[nid > 127]])


def named_items(kind, words, text):
    """Yields the kinds of items and of calls that a vector names."""
    if re.search(r"--groups|etcs group", words):
        yield "group"
    kinds = {kind.split("_")[0], words.split(" ")[0], *kinds_of(words), *re.findall(r'(?:\bitem \d+ |"kind":")(\w+)', text)}
    yield from kinds & {"long", "short", "radio", "train", "peek", "poke"}


@lru_cache(maxsize=None)
def counts():
    """Returns how many vectors name each variable, each packet and message of a way, and each kind of items."""
    found, types, printed = Counter(), type_packets(), {it.var: it.name for it in variables()}
    with open(f"{TOP}/crates/etcs_vectors/stdin", encoding="utf-8", newline="") as file:
        vectors = list(vectors_of(file.read()))
    for _, kind, words, expected in vectors:
        text = f"{kind} {words}\n{expected}"
        found.update({printed.get(it, it) for it in re.findall(r"\b[A-Z][A-Z0-9_]+\b", text)} | {*named_items(kind, words, text)})
        found.update({*named_packets(kind, words, text, types), *named_messages(kind, text)})
    return found


# ---- Tables.


def table_of_items():
    """Returns the table of items and what they are made of."""
    found, views = counts(), (*TELEGRAM_CALLS, "TelegramView::new")
    return [
        *HEAD,
        trace(section(BITS), "bits of numbers", (BITS, "num"), ("etcs_bits", "peek", "poke"), found["peek"] + found["poke"]),
        *(trace(section(TELEGRAMS), f"{it} telegram", (TELEGRAMS, "TelegramReads"), views, found[it]) for it in ("short", "long")),
        trace(section(TELEGRAMS), "header of a telegram", (TELEGRAMS, "header_reading"), TELEGRAM_CALLS, found["Q_UPDOWN"]),
        *(trace(section(MESSAGES), f"message to the {way}", (MESSAGES, "MessageReads"), MESSAGE_CALLS, found[it]) for way, it in (("train", "radio"), ("track", "train"))),
        trace(section(HEADERS), "header of a message", (HEADERS, "head_row"), MESSAGE_CALLS, found["T_TRAIN"]),
        trace(section(FRAMES), "frame of a packet", (FRAMES, "frame_bits"), TELEGRAM_CALLS, found["L_PACKET"]),
        trace(section(GROUPS), "telegrams of a balise group", (GROUPS, "IsGroup"), ("etcs_group", "Assembly::add"), found["group"]),
        trace(section(GROUP_MESSAGES), "message of a balise group", (GROUP_MESSAGES, "IsGroupMessage"), ("etcs_group", "Assembly::message"), found["group"]),
    ]


def table_of_variables():
    """Returns the table of variables."""
    found, calls = counts(), ("etcs_vars", "Var::width", "Var::admits")
    lines = ((it, line_of(VARS, f"variable Var.{it.var} = ")) for it in variables())
    return [*HEAD, *(trace(section(VARS), it.name, (VARS, "variable"), calls, found[it.name], line) for it, line in lines)]


def table_of_packets(way):
    """Returns the table of the packets of a way that have a name, and all others."""
    found, (typed, kept, _) = counts(), map(section, SECTIONS[way])
    lines = {nid: (kept, (FRAMES, "is_kept"), KEPT[way], None) for nid in (*packet_names(way), "other")}
    for nid in packets(way):
        row, line = row_of("rows_to", way, nid)
        lines[nid] = typed, row, TYPED[way], line
    if way == "train":
        lines[0] = section(FRAMES), (FRAMES, "is_marker"), TELEGRAM_CALLS, None
        lines[255] = section(CONTENTS), (CONTENTS, "closing"), TELEGRAM_CALLS, None
    return [*HEAD, *lines_of(lines, packet_names(way), lambda nid: found[way, nid])]


def table_of_messages(way):
    """Returns the table of the messages of a way that have a name, and all others."""
    found, at = counts(), section(SECTIONS[way][2])
    lines = {nid: (at, (MESSAGES, "KeptReads"), MESSAGE_CALLS, None) for nid in (*message_names(way), "other")}
    for nid in messages(way):
        row, line = row_of("message_rows_to", way, nid)
        lines[nid] = at, row, MESSAGE_CALLS, line
    return [*HEAD, *lines_of(lines, message_names(way), lambda nid: found[f"message to the {way}", nid])]


def lines_of(lines, names, count):
    """Yields a line for each number, and the one of all others at the end."""
    for nid in sorted(lines, key=lambda it: (it == "other", it)):
        at, definition, calls, line = lines[nid]
        yield trace(at, f"{nid} {names[nid]}" if nid in names else "any other number", definition, calls, count(nid), line)


def version_lines():
    """Returns the version that the sources have."""
    with open(f"{TOP}/CHANGELOG.md", encoding="utf-8") as file:
        newest = found_one(r"^## ([\w.]+)", file.read(), "the newest version of CHANGELOG.md")[1]
    return [f"Version {version()}" + ", with the changes that [CHANGELOG.md](../CHANGELOG.md#unreleased) lists as unreleased." * (newest == "Unreleased")]


PARTS = {
    "version": version_lines,
    "traces of items": table_of_items,
    "traces of variables": table_of_variables,
    "traces of packets to the train": lambda: table_of_packets("train"),
    "traces of packets to the track": lambda: table_of_packets("track"),
    "traces of messages to the train": lambda: table_of_messages("train"),
    "traces of messages to the track": lambda: table_of_messages("track"),
}
