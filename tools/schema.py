#!/usr/bin/env python3
"""Writes docs/etcs.schema.json, the JSON Schema (2020-12) of the items that the program reads and writes as JSON.

    tools/schema.py
    tools/schema.py --check [PROGRAM]

It is made from the tables in the sources, which tools/sources.py reads. With --check nothing is written: the status is 1 if the
file no longer matches the tables, or if a line of JSON of a vector isn't judged as the vector says. A line that is an item has to
be valid; one that isn't has to be invalid, or wrong in what a schema can't say, which `unsaid` finds. If PROGRAM is given, what
it writes for the items of all vectors has to be valid too. This needs python3-jsonschema, and is skipped if it isn't installed.
"""

import json
import os
import re
import subprocess
import sys
from collections import Counter

sys.dont_write_bytecode = True
sys.path.append(os.path.join(os.path.dirname(os.path.dirname(os.path.realpath(__file__))), "tests"))
import vectors
from sources import FRAMES, MOST_LENGTH, TESTS, TOP, Many, One, When, message_names, messages, numbers_of, packet_names, packets, source, variable, variables

PATH = f"{TOP}/docs/etcs.schema.json"
HEADERS = {
    "telegram": "Q_UPDOWN M_VERSION_HEADER Q_MEDIA N_PIG N_TOTAL M_DUP M_MCOUNT NID_C NID_BG Q_LINK".split(),
    "train": "T_TRAIN M_ACK NID_LRBG".split(),
    "track": "T_TRAIN NID_ENGINE".split(),
}
KINDS = {"short": "train", "long": "train", "radio": "train", "train": "track"}
ROOM = {"short": 152, "long": 772}  # bits of packets and FILL
MOST_BITS = 8184  # of a message
LIMIT = 60  # seconds for a call of the program
KEPT_BITS = "kept bits of a typed packet"
CARRIED = (49, 57, 58, 63, 68, 80, 131)  # typed packets to the train that may be kept as bits
DESCRIPTION = (
    "A line of JSON is an item of one kind. What a schema can't say: that a group is there as often as its count says, that FILL and "
    "PADDING have exactly the bits that are left, that all fits into the telegram, the message or L_PACKET, that kept bits of packets "
    f"{', '.join(map(str, CARRIED))} are such a packet, that a number is written without fraction and exponent, and that of two members "
    "of one name the last counts."
)


# ---- Parts of the schema.


def ref(name):
    """A part of this schema."""
    return {"$ref": f"#/$defs/{name}"}


def object_of(**members):
    """An object with exactly these members."""
    return {"type": "object", "properties": members, "required": sorted(members), "additionalProperties": False}


def list_of(prefix, rest=False, more=0):
    """A list that begins with these, and has only these after them, at least as many as are asked for."""
    said = {"type": "array", "prefixItems": prefix, "items": rest, "minItems": len(prefix) + more}
    return said if prefix else {key: it for key, it in said.items() if key != "prefixItems"}


def digits(least, most):
    """A text of digits 0 and 1."""
    return {"type": "string", "pattern": "^[01]*$", "minLength": least, "maxLength": most}


def number_of(ranges):
    """A whole number of these ranges."""
    spans = [{"minimum": low, "maximum": high} for low, high in ranges]
    return {"type": "integer", **(spans[0] if len(spans) == 1 else {"anyOf": spans})}


def pair(var):
    """The pair of a variable."""
    number = number_of(var.ranges)
    if var.var == "NID_RADIO":
        number = {"type": "string", "pattern": "^[0-9a-fA-F]{16}$"}
    said = {"description": f"{var.text} ({var.width} bits)" if var.width > 1 else f"{var.text} (1 bit)"}
    return {**said, **list_of([{"const": var.name}, number])}


def pair_with(var, numbers):
    """The pair of a variable that has one of these numbers, or any number if none are given."""
    if not numbers:
        return ref(var)
    is_range = len(numbers) > 2 and numbers == list(range(numbers[0], numbers[-1] + 1))
    said = {"type": "integer", "minimum": numbers[0], "maximum": numbers[-1]} if is_range else {"enum": numbers}
    return {**ref(var), "contains": said}


def flat(items):
    """Yields the variables of a row."""
    for item in items:
        yield from [item.var] if isinstance(item, One) else flat(item.items)


def least(items):
    """The least number of pairs of items, without any group."""
    return sum(isinstance(it, One) for it in items)


def forms(items, front=()):
    """Yields the lists of pairs that a row may have, up to the first group that is repeated."""
    if not items:
        yield list_of([pair_with(*it) for it in front])
        return
    item, rest = items[0], items[1:]
    if isinstance(item, One):
        yield from forms(rest, (*front, (item.var, None)))
        return
    at = max(n for n, it in enumerate(front) if it[0] == item.var)
    known = front[at][1] or numbers_of(item.var)

    def front_with(numbers):
        return (*front[:at], (item.var, numbers), *front[at + 1 :])

    test = TESTS[item.test][1] if isinstance(item, When) else bool
    if there := [it for it in known if test(it)]:
        if isinstance(item, When):
            yield from forms((*item.items, *rest), front_with(there))
        else:
            names = dict.fromkeys(flat((*item.items, *rest)))
            prefix = [pair_with(*it) for it in front_with(there)]
            yield list_of(prefix, {"anyOf": list(map(ref, names))}, least(item.items) + least(rest))
    if absent := [it for it in known if not test(it)]:
        yield from forms(rest, front_with(absent))


def fields(row):
    """The pairs of a row."""
    said = list(forms(row))
    return said[0] if len(said) == 1 else {"anyOf": said}


def by_number(cases, other):
    """What holds of an object by its nid: what is said for each number, and for all others."""
    typed = {"required": ["nid"], "properties": {"nid": {"enum": list(cases)}}}
    said = [
        {"if": {"required": ["nid"], "properties": {"nid": {"const": nid}}}, "then": it} for nid, it in cases.items()
    ]
    return {"type": "object", "allOf": [*said, {"if": typed, "else": other}]}


def packet_of(way, packet):
    """A typed packet."""
    title = f"Packet {packet.nid}: {packet_names(way)[packet.nid]}"
    direction = {"dir": number_of([(0, 2)])} if way == "train" else {}
    return {"title": title, **object_of(nid={"const": packet.nid}, fields=fields(packet.row), **direction)}


def kept_packet(way):
    """A packet that is kept as bits."""
    direction = {"dir": number_of([(0, 2)])} if way == "train" else {}
    return object_of(nid=number_of([(0, 255)]), data=digits(0, MOST_LENGTH - FRAMES[way]), **direction)


def packets_of(way, more):
    """A packet of a way, in which these numbers have a form of their own."""
    cases = {nid: ref(f"packet_{way}_{nid}") for nid in packets(way)}
    if way == "train":
        cases |= {nid: {"anyOf": [cases[nid], ref("kept_train")]} for nid in CARRIED}
    return by_number(dict(sorted((cases | more).items())), ref(f"kept_{way}"))


def telegram(kind):
    """A telegram of a size."""
    members = {"header": list_of(list(map(ref, HEADERS["telegram"]))), "fill": digits(0, ROOM[kind])}
    packets = {"type": "array", "items": ref("packet_of_telegram")}
    return object_of(kind={"const": kind}, packets=packets, **members)


def message(kind):
    """A message of a way."""
    way, cases = KINDS[kind], {}
    packets = {"type": "array", "items": ref("packet_of_message" if way == "train" else "packet_to_track")}
    header = list_of(list(map(ref, HEADERS[way])))
    for it in messages(way).values():
        members = {"nid": {"const": it.nid}, "header": header, "fields": fields(it.row), "packets": packets, "padding": digits(0, 7)}
        cases[it.nid] = {"title": f"Message {it.nid}: {message_names(way)[it.nid]}", **object_of(kind={"const": kind}, **members)}
    data = {"type": "string", "pattern": "^([01]{8})*[01]{6}$", "maxLength": MOST_BITS - 18}
    return by_number(cases, object_of(kind={"const": kind}, nid=number_of([(0, 255)]), data=data))


def schema():
    """The whole schema."""
    marker = object_of(nid={"const": 0}, fields=list_of([ref("NID_VBCMK")]))
    used = {it for way in FRAMES for table in (packets(way), messages(way)) for row in table.values() for it in flat(row.row)}
    used |= {"NID_VBCMK", *(name for names in HEADERS.values() for name in names)}
    parts = {it.var: pair(it) for it in variables() if it.var in used}
    parts |= {f"packet_{way}_{nid}": packet_of(way, it) for way in FRAMES for nid, it in packets(way).items()}
    parts |= {f"kept_{way}": kept_packet(way) for way in FRAMES}
    parts["packet_of_telegram"] = packets_of("train", {0: marker, 255: False})
    parts["packet_of_message"] = packets_of("train", {0: False, 255: False})
    parts["packet_to_track"] = packets_of("track", {})
    parts |= {kind: telegram(kind) if kind in ROOM else message(kind) for kind in KINDS}
    kinds = [{"if": {"properties": {"kind": {"const": kind}}}, "then": ref(kind)} for kind in KINDS]
    return {
        "$schema": "https://json-schema.org/draft/2020-12/schema",
        "title": "ETCS balise telegrams and radio messages, as etcs writes and reads them",
        "description": DESCRIPTION,
        "type": "object",
        "properties": {"kind": {"enum": list(KINDS)}},
        "required": ["kind"],
        "allOf": kinds,
        "$defs": parts,
    }


def written(value, indent=""):
    """The text of a value: on one line where that is short."""
    line = json.dumps(value, ensure_ascii=False)
    if len(indent + line) <= 130 or not isinstance(value, (dict, list)):
        return line
    inner = indent + " "
    if isinstance(value, list):
        lines = [inner + written(value[0], inner)]
        for it in value[1:]:
            text = written(it, inner)
            if "\n" in lines[-1] + text or len(lines[-1] + text) > 126:
                lines.append(inner + text)
            else:
                lines[-1] += ", " + text
        return "[\n" + ",\n".join(lines) + f"\n{indent}]"
    members = (f"{inner}{json.dumps(name)}: {written(it, inner)}" for name, it in value.items())
    return "{\n" + ",\n".join(members) + f"\n{indent}}}"


# ---- What a schema can't say.


class Unsaid(Exception):
    """Something of an item that is valid is wrong."""


def no_fraction(text):
    raise Unsaid(f"the number {text}")


def whole(text):
    if text.startswith("-"):
        raise Unsaid(f"the number {text}")
    return int(text)


def once(members):
    """The members of an object, none of which may be there twice."""
    if len({name for name, _ in members}) < len(members):
        raise Unsaid("a member twice")
    return dict(members)


def taken(items, pairs, known):
    """How many bits the first pairs have, which are taken as a row needs them; `known` has the last number of each name."""
    bits = 0
    for item in items:
        if isinstance(item, One):
            var = variable(item.var)
            if not pairs or pairs[0][0] != var.name:
                raise Unsaid("a count or a flag")
            known[item.var] = pairs.pop(0)[1]
            bits += var.width
        else:
            times = known[item.var] if isinstance(item, Many) else int(TESTS[item.test][1](known[item.var]))
            for _ in range(times):
                bits += taken(item.items, pairs, known if isinstance(item, When) else dict(known))
    return bits


def bits_of(items, pairs):
    """How many bits pairs have that are a row's."""
    left = list(pairs)
    bits = taken(items, left, {})
    if left:
        raise Unsaid("a count or a flag")
    return bits


def packet_bits(way, packet):
    """How many bits a packet has."""
    if "data" in packet and way == "train" and packet["nid"] in CARRIED:
        raise Unsaid(KEPT_BITS)
    if "data" in packet:
        return FRAMES[way] + len(packet["data"])
    if way == "train" and packet["nid"] == 0:
        return 14
    return FRAMES[way] + bits_of(packets(way)[packet["nid"]].row, packet["fields"])


def unsaid(item):
    """Whether a valid item is one of the language; otherwise raises what is wrong."""
    way = KINDS[item["kind"]]
    if "data" in item:
        return
    bits = [packet_bits(way, it) for it in item["packets"]]
    if any(it > MOST_LENGTH for it in bits):
        raise Unsaid("a long packet")
    if "fill" in item:
        if sum(bits) + len(item["fill"]) != ROOM[item["kind"]]:
            raise Unsaid("FILL")
        return
    front = {"train": 75, "track": 74}[way] + bits_of(messages(way)[item["nid"]].row, item["fields"])
    total = front + sum(bits) + len(item["padding"])
    if total % 8 or total > MOST_BITS:
        raise Unsaid("PADDING")


# ---- The vectors.


def lines_of(sheet):
    """Yields lines of JSON of the vectors: the vector's line, its kind, the bytes, and whether they are an item."""
    for number, kind, words, expected in vectors.vectors_of(sheet):
        command, _, text = words.partition(" < ")
        if kind in ("program", "bytes") and " --from json" in command:
            options = command.split(" ")
            given = bytes.fromhex(text) if kind == "bytes" else vectors.text_bytes(text)
            lines = [it.removesuffix(b"\r") for it in given.split(b"\n")]
            yield from ((number, options[options.index("--kind") + 1], *it) for it in judged(lines, expected.split("\n")))


def judged(lines, expected):
    """Yields each line of an input of which the status and the fault say whether it is an item, and whether it is."""
    items = [it for it in lines if it]
    bad_line = re.fullmatch(r"etcs: line (\d+): bad JSON", expected[-1])
    refused = re.fullmatch(r"etcs: item (\d+) refused at bit .*", expected[-1])
    if bad_line:
        items = [it for it in lines[: int(bad_line[1])] if it]
    elif refused:
        items = items[: int(refused[1])]
    elif expected[0] != "0" and not expected[-1].startswith("group "):
        # for bytes the faults aren't said
        yield from [(it, False) for it in items] if len(items) == 1 else []
        return
    for at, line in enumerate(items, 1):
        yield line, at < len(items) or not (bad_line or refused)


def read(line, **how):
    """The value of a line of JSON; none if it isn't JSON."""
    try:
        return json.loads(line.decode(), parse_constant=int, **how)
    except (ValueError, RecursionError):
        return None


def lines_of_program(program, sheet):
    """Yields the line of JSON that a program writes for each item of the vectors, as `lines_of` does."""
    for number, kind, digits, expected in vectors.vectors_of(sheet):
        if kind in KINDS and expected.startswith("item 1 "):
            words = [program, "convert", "--kind", kind, "--to", "json"]
            try:
                done = subprocess.run(words, input=digits.encode(), capture_output=True, timeout=LIMIT)
            except subprocess.TimeoutExpired:
                sys.exit(f"crates/etcs_vectors/stdin:{number} took more than {LIMIT} s")
            yield number, kind, done.stdout.removesuffix(b"\n"), True


def is_explained(validator, kind, line):
    """Whether a line that is no item of a kind is found to be none."""
    try:
        item = read(line, object_pairs_hook=once, parse_float=no_fraction, parse_int=whole)
        if item is not None and validator.is_valid(item) and item["kind"] == kind:
            unsaid(item)
            return False
    except Unsaid:
        pass
    return True


def is_right(validator, kind, line, is_item):
    """Whether the schema, and what it can't say, judge a line rightly."""
    if not is_item:
        return is_explained(validator, kind, line)
    item = read(line)
    if not validator.is_valid(item):
        return False
    try:
        unsaid(item)
    except Unsaid as reason:
        return str(reason) == KEPT_BITS
    return True


def check_lines(validator, lines):
    """Says which lines are judged otherwise, and returns how many there are."""
    counts, wrong = Counter(), 0
    for number, kind, line, is_item in lines:
        counts[is_item] += 1
        if not is_right(validator, kind, line, is_item):
            wrong += 1
            print(f"line {number}: {'no ' * (not is_item)}item of kind {kind}: {line[:200]}")
    print(f"{counts[True]} lines of items and {counts[False]} others, {wrong} judged otherwise")
    return wrong


def main(words):
    if len(words) > 2 or words[:1] not in ([], ["--check"]):
        sys.exit(__doc__)
    text = written(schema()) + "\n"
    if not words:
        with open(PATH, "w", encoding="utf-8") as file:
            file.write(text)
        return 0
    with open(PATH, encoding="utf-8") as file:
        if file.read() != text:
            print("docs/etcs.schema.json has parted from the tables: run tools/schema.py")
            return 1
    try:
        import jsonschema
    except ImportError:
        print("skipped: lines of JSON against the schema need python3-jsonschema")
        print("docs/etcs.schema.json: no difference")
        return 0
    jsonschema.Draft202012Validator.check_schema(schema())
    lines = list(lines_of(source("etcs_vectors/stdin")))
    for program in words[1:]:
        lines += lines_of_program(program, source("etcs_vectors/stdin"))
    return 1 if check_lines(jsonschema.Draft202012Validator(schema()), lines) else 0


if __name__ == "__main__":
    sys.exit(main(sys.argv[1:]))
