"""What the sources say about variables, packets, messages and crates, as values for other tools."""

import os
import re
from collections import namedtuple
from functools import lru_cache

TOP = os.path.dirname(os.path.dirname(os.path.realpath(__file__)))
MOST_LENGTH = 8191  # the largest L_PACKET

# a variable: its name in the sources and as it is printed, its group, its width, its ranges, its text, its special numbers
Var = namedtuple("Var", "var name group width ranges text special")
# a typed packet: its number, variant and type, what it is, its row, and the numbers of bits that the row can take
Packet = namedtuple("Packet", "nid variant type text row lengths")
# a typed message: its number, variant of the body, its row and bits, and the ranges of L_MESSAGE
Message = namedtuple("Message", "nid variant row bits lengths")
# items of a row, nested: a variable; items that are there where a test holds of a variable; items that are repeated
One = namedtuple("One", "var")
When = namedtuple("When", "var test items")
Many = namedtuple("Many", "var items")

FRAMES = {"train": 23, "track": 21}
TESTS = {
    "IsZero": ("is 0", lambda n: n == 0),
    "IsOne": ("is 1", lambda n: n == 1),
    "IsOneOrTwo": ("is 1 or 2", lambda n: n in (1, 2)),
    "IsNotZero": ("isn't 0", lambda n: n > 0),
}


@lru_cache(maxsize=None)
def source(path):
    """Returns the text of a file of crates/."""
    return open(f"{TOP}/crates/{path}", encoding="utf-8").read()


def found_one(pattern, text, what):
    """Returns the match of a pattern that has to be there."""
    found = re.search(pattern, text, re.S | re.M)
    if not found:
        raise LookupError(f"{what} isn't found")
    return found


# ---- Variables.


def code_variables():
    """Yields the group, variable, name, width and ranges of each line of the table in the code."""
    table = found_one(r"variables! \{ \$of:\n(.*?)\n        \}", source("etcs_vars/src/tables.rt"), "the table")[1]
    group = ""
    for line in table.split("\n"):
        if line.lstrip().startswith("//"):
            group = line.strip().removeprefix("// ").removesuffix(".")
            continue
        found = found_one(r"(\w+)(?: as (\w+))? (\d+)((?: \(\d+, \d+\))*),$", line, line)
        width = int(found[3])
        ranges = [(int(low), int(high)) for low, high in re.findall(r"\((\d+), (\d+)\)", found[4])]
        yield group, found[1], found[2] or found[1], width, ranges or [(0, 2**width - 1)]


def spec_variables():
    """Yields the variable, name, width and ranges of each line of the table in the definitions."""
    line = re.compile(r'^variable Var\.(\w+) = (?:all "(\w+)" (\d+)|only "(\w+)" (\d+) \((.*)\))$', re.M)
    for var, name, width, only, only_width, ranges in line.findall(source("etcs_vars/specs/Vars.antt")):
        pairs = [(int(low), int(high)) for low, high in re.findall(r"\((\d+), (\d+)\)", ranges)]
        width = int(width or only_width)
        yield var, name or only, width, pairs or [(0, 2**width - 1)]


def documented(text, name):
    """Returns the text above a name of an enum: its doc comment, on one line."""
    found = found_one(rf"((?:^    ///[^\n]*\n)+)    {name}\b", text, name)
    return " ".join(it.strip().removeprefix("///").strip() for it in found[1].strip().split("\n"))


@lru_cache(maxsize=None)
def variables():
    """Returns the variables in the order of the sources; code and definitions have to agree."""
    code = list(code_variables())
    if [it[1:] for it in code] != list(spec_variables()):
        raise LookupError("the variables of code and definitions differ")
    special = re.findall(r"^special (\w+) n = (.*)$", source("etcs_vars/specs/Vars.antt"), re.M)
    special = {var: re.findall(r'n == (\d+) then Some \(codes "([^"]*)"\)', text) for var, text in special}
    docs = source("etcs_vars/src/var.rt")
    return [
        Var(var, name, group, width, ranges, documented(docs, var), [(int(n), it) for n, it in special.get(var, [])])
        for group, var, name, width, ranges in code
    ]


@lru_cache(maxsize=None)
def variable(var):
    """Returns a variable by its name in the sources."""
    return next(it for it in variables() if it.var == var)


def numbers_of(var):
    """Returns the numbers that a variable admits."""
    return [n for low, high in variable(var).ranges for n in range(low, high + 1)]


# ---- Rows.


def nested(items):
    """Returns the items of a flat table nested: `(V TEST n)` and `[n]` take the next n items, those of groups counted."""
    row, at = [], 0
    while at < len(items):
        word = items[at]
        if word[0] not in "([":
            row.append(One(word))
            at += 1
            continue
        words = word.strip("()[]").split()
        inner = nested(items[at + 1 : at + 1 + int(words[-1])])
        row.append(When(words[0], words[1], inner) if word[0] == "(" else Many(row[-1].var, inner))
        at += 1 + int(words[-1])
    return tuple(row)


def row_of(text):
    """Returns the nested items of a table's text."""
    return nested(re.findall(r"\([^)]*\)|\[[^\]]*\]|\w+", text))


@lru_cache(maxsize=None)
def packet_rows():
    """Returns the rows of packets by the name of their constants."""
    rows = re.findall(r"^const (\w+): Row = row!\s*[({](.*?)[)}];$", source("etcs_tables/src/tables.rt"), re.S | re.M)
    return {name: row_of(text) for name, text in rows}


def by_number(function):
    """Yields each number of a match of the tables, with the name of its constant."""
    body = found_one(rf"^fn {function}\(.*?\n\}}", source("etcs_tables/src/tables.rt"), function)[0]
    for numbers, name in re.findall(r"^        ([\d |]+) => Some\(&?(\w+)\),$", body, re.M):
        for number in numbers.split(" | "):
            yield int(number), name


def summed(one, other):
    """Returns the sums of a number of each of two sets, as flags of an integer, up to the largest length."""
    total = 0
    for n in flags(other):
        total |= one << n
    return total & (1 << MOST_LENGTH + 1) - 1


def is_asked(var, items):
    """Returns whether a group of these items, at any depth, asks for the variable's number."""
    return any(not isinstance(it, One) and (it.var == var or is_asked(var, it.items)) for it in items)


def lengths(items, known=()):
    """Returns the numbers of bits that the items can take, as flags of an integer, where these numbers are known."""
    return lengths_of(items, tuple(it for it in known if is_asked(it[0], items)))


@lru_cache(maxsize=None)
def lengths_of(items, known):
    """The same, if all that is known is asked for."""
    if not items:
        return 1
    item, rest = items[0], items[1:]
    if isinstance(item, When):
        shown = TESTS[item.test][1](dict(known)[item.var])
        return summed(lengths(rest, known), lengths(item.items, known) if shown else 1)
    if isinstance(item, Many):
        return summed(lengths(rest, known), repeated(item.items, dict(known)[item.var]))
    width, others = variable(item.var).width, tuple(it for it in known if it[0] != item.var)
    total = 0
    for n in numbers_of(item.var) if is_asked(item.var, rest) else [0]:
        total |= lengths(rest, (*others, (item.var, n)))
    return total << width & (1 << MOST_LENGTH + 1) - 1


@lru_cache(maxsize=None)
def repeated(items, count):
    """Returns the numbers of bits that the items can take this many times."""
    return summed(repeated(items, count - 1), lengths(items)) if count else 1


def flags(total):
    """Returns the numbers of a set that is given by flags."""
    return [n for n, it in enumerate(reversed(f"{total:b}")) if it == "1"]


@lru_cache(maxsize=None)
def row_lengths(name):
    """Returns the numbers of bits that a packet's row can take."""
    return flags(lengths(packet_rows()[name]))


# ---- Packets and messages.


def variants(path, enum):
    """Yields the variants of an enum with the text above each, and what is in its parentheses."""
    body = found_one(rf"^pub enum {enum} \{{\n(.*?)\n\}}", source(path), enum)[1]
    line = r"^((?:    /// [^\n]*\n)+)    (\w+)(?:\(([^\n]*)\)| \{ ([^\n]*) \})?,$"
    for text, name, fields, named in re.findall(line, body, re.M):
        yield " ".join(re.findall(r"/// (.*)", text)), name, fields or named


@lru_cache(maxsize=None)
def packets(way):
    """Returns the typed packets of a way, `train` or `track`, by their numbers."""
    path, enum = ("etcs_packets/src/packet.rt", "Packet") if way == "train" else ("etcs_track/src/train_packet.rt", "TrainPacket")
    rows = dict(by_number(f"row_to_{way}"))
    found = {}
    for text, name, inside in variants(path, enum):
        head = re.match(r"Packet (\d+): (.*)\.$", text)
        if head and int(head[1]) in rows:
            row = rows.pop(int(head[1]))
            spans = [n for n in row_lengths(row) if n <= MOST_LENGTH - FRAMES[way]]
            found[int(head[1])] = Packet(int(head[1]), name, inside, head[2], packet_rows()[row], spans)
    if rows:
        raise LookupError(f"packets without a variant: {sorted(rows)}")
    return found


def body_variant(way, nid):
    """Returns the variant of a body that has a message's number."""
    path, enum = ("etcs_radio/src/body.rt", "Body") if way == "train" else ("etcs_train/src/body.rt", "TrainBody")
    for text, name, inside in variants(path, enum):
        numbers = re.match(r"Messages? ([\d, toand]+?)(?::|, which| have)", text)[1]
        spans = [tuple(map(int, it.split(" to "))) for it in re.split(r", | and ", numbers)]
        if any(it[0] <= nid <= it[-1] for it in spans):
            return f"{enum}::{name}" + (f" {{ {inside} }}" if inside else "")
    raise LookupError(f"message {nid} has no variant")


@lru_cache(maxsize=None)
def messages(way):
    """Returns the typed messages of a way by their numbers."""
    text = source("etcs_tables/src/tables.rt")
    tables = re.findall(r"^static (\w+): TypedMessage = message!\((\d+), \[(.*?)\]([^;]*)\);$", text, re.M)
    tables = {it[0]: it[1:] for it in tables}
    found = {}
    for nid, name in by_number(f"message_to_{way}"):
        bits, spans, row = tables[name]
        spans = [(int(low), int(high)) for low, high in re.findall(r"\((\d+), (\d+)\)", spans)]
        row = row_of(row)
        if flags(lengths(row)) != [int(bits)]:
            raise LookupError(f"message {nid}: its row hasn't {bits} bits")
        found[nid] = Message(nid, body_variant(way, nid), row, int(bits), spans)
    return dict(sorted(found.items()))


@lru_cache(maxsize=None)
def names(table):
    """Returns what the standard calls numbers, of packets (`TO_TRAIN`, `TO_TRACK`) or of messages (`MESSAGES`)."""
    text = found_one(rf"static {table}: .*?= &\[(.*?)\n\];", source("etcs_reasons/src/names.rt"), table)[1]
    return {int(nid): name for nid, name in re.findall(r'\((\d+), "([^"]*)"\)', text)}


def packet_names(way):
    """Returns what the standard calls the packets of a way."""
    return with_all(packets(way), names("TO_TRAIN" if way == "train" else "TO_TRACK"), "packet")


def message_names(way):
    """Returns what the standard calls the messages of a way: those to the track have the numbers from 128 on."""
    found = {nid: name for nid, name in names("MESSAGES").items() if (nid < 128) == (way == "train")}
    return with_all(messages(way), found, "message")


# ---- What numbers mean.


def lines_of(table):
    """Yields what is before the colon of each line of a table of meanings, and the words after it."""
    text = found_one(rf"static {table}: .*? = &\w+! \{{\n(.*?)\n\}};", source("etcs_reasons/src/meanings.rt"), table)[1]
    for head, tail in re.findall(r"([^:;]+?):\s+([^;]*);", re.sub(r'"[^"]*"', lambda it: it[0].replace(":", "\0"), text)):
        yield head.replace("\0", ":").strip(), tail.replace("\0", ":")


@lru_cache(maxsize=None)
def units():
    """Returns the unit of each variable that has one: the name of a `Unit`, or the text of `In`."""
    return {var: re.sub(r'^In\("(.*)"\)$', r"\1", unit) for unit, tail in lines_of("UNITS") for var in tail.split()}


@lru_cache(maxsize=None)
def number_texts():
    """Returns the texts of each variable's numbers that have one: those of `Var::special`, and those of the meanings."""
    found = {it.var: dict(it.special) for it in variables() if it.special}
    for head, tail in lines_of("SPECIALS"):
        number, text = re.match(r'(\d+) "(.*)"$', head).groups()
        for var in tail.split():
            found.setdefault(var, {}).setdefault(int(number), text)
    for head, tail in lines_of("TEXTS"):
        for var in head.split():
            texts = found.setdefault(var, {})
            for number, text in enumerate(re.findall(r'"([^"]*)"', tail)):
                texts.setdefault(number, text)
    return {var: dict(sorted(texts.items())) for var, texts in found.items()}


def with_all(typed, found, what):
    """Returns the names, which have to include those of all that is typed."""
    if missing := sorted(set(typed) - set(found)):
        raise LookupError(f"crates/etcs_reasons/src/names.rt has no name of {what} {missing[0]}")
    return found


# ---- Crates.


def crates():
    """Returns the crates of crates.txt with those that each names."""
    lines = (it.split("#")[0].partition(":") for it in open(f"{TOP}/crates.txt", encoding="utf-8"))
    return {head.split()[0]: uses.split() for head, _, uses in lines if head.strip()}


def crates_below(names):
    """Returns the crates of this repository that these names need, in the order of crates.txt, and those of the kit."""
    every, needed = crates(), set()
    waiting = list(names)
    while waiting:
        name = waiting.pop()
        if name not in needed:
            needed.add(name)
            waiting += every.get(name, [])
    return [it for it in every if it in needed], sorted(needed - set(every))


# ---- The vectors.


def check_with_vectors():
    """Compares the lengths of all rows with the vectors `lengths 200 ROW`, whose answers weren't computed here."""
    names = {"p": ("train", packets), "m": ("train", messages), "tp": ("track", packets), "tm": ("track", messages)}
    missing = {f"{prefix}{nid}" for prefix, (way, table) in names.items() for nid in table(way)}
    for prefix, nid, said in re.findall(r"^lengths 200 (p|m|tp|tm)(\d+) = (.*)$", source("etcs_vectors/stdin"), re.M):
        way, table = names[prefix]
        spans = [list(map(int, it.split("-"))) for it in said.split()]
        wanted = [n for it in spans for n in range(it[0], it[-1] + 1)]
        if flags(lengths(table(way)[int(nid)].row) & (1 << 201) - 1) != wanted:
            raise LookupError(f"lengths of {prefix}{nid} differ from those of the vectors")
        missing.discard(prefix + nid)
    if missing:
        raise LookupError(f"no vector `lengths 200` has {', '.join(sorted(missing))}")
