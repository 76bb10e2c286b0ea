"""The tables of the sources for other tools: share/etcs.tables.json, and the same in Lua, bindings/wireshark/etcs_tables.lua.

tools/format_tables.py writes and compares both files. docs/BINDINGS.md describes the members.
"""

import json

from sources import FRAMES, MOST_LENGTH, TESTS, Many, One, found_one, message_names, messages, number_texts, numbers_of, packet_names, packets, source, units, variable, variables

LUA_HEAD = "-- The tables of share/etcs.tables.json in Lua, for etcs.lua. Made by tools/format_tables.py.\nreturn "
COLUMNS = 130
MOST_BYTES = 1023  # of a message
TELEGRAM = "Q_UPDOWN M_VERSION_HEADER Q_MEDIA N_PIG N_TOTAL M_DUP M_MCOUNT NID_C NID_BG Q_LINK".split()
# How numbers are measured, by the units of `sources.units`.
MEASURES = {
    "Distance": {"unit": "m", "step": "Q_SCALE"},
    "Shift": {"unit": "m", "step": "Q_SCALE", "signed": True},
    "Speed": {"unit": "km/h", "step": 5, "most": 120},
    "Hundredths": {"unit": "s", "step": 0.01},
    "Version": {"parts": [["X", 3], ["Y", 4]]},
    "Group": {"parts": [["NID_C", 10], ["NID_BG", 14]]},
    "Position": {"plus": 1},
    "Count": {"unit": "in the group", "plus": 1},
    "Letter": {"characters": "ISO 8859-1"},
}
STEPS = {"Q_SCALE": {"0": 0.1, "1": 1, "2": 10}}
# What comments of variables say that have no unit there.
SAID = {
    "in bits": {"unit": "bits", "step": 1},
    "in bytes": {"unit": "bytes", "step": 1},
    "sixteen digits": {"digits": 16},
    "six digits": {"digits": 6},
    "eight digits": {"digits": 8},
}


# ---- The tables.


def measure(var):
    """Returns how the numbers of a variable are measured; nothing if they are no measure."""
    unit = units().get(var.var)
    if unit:
        return MEASURES.get(unit) or {"unit": unit.strip(), "step": 1}
    return next((it for words, it in SAID.items() if words in var.text), {})


def variable_value(var):
    """Returns what a tool needs to know about a variable."""
    value = {"name": var.name, "bits": var.width, "admits": var.ranges, "text": var.text.removesuffix("."), **measure(var)}
    if var.var in STEPS:
        value["steps"] = STEPS[var.var]
    if texts := {str(number): text for number, text in number_texts().get(var.var, {}).items() if text}:
        value["meanings"] = texts
    return value


def spans(numbers):
    """Returns numbers as ranges."""
    found = []
    for number in numbers:
        if found and found[-1][1] == number - 1:
            found[-1][1] = number
        else:
            found.append([number, number])
    return found


def row_value(items):
    """Returns a row as a list of names and groups."""
    return [item_value(it) for it in items]


def item_value(item):
    """Returns an item of a row: a name, or a group with its condition or its count."""
    if isinstance(item, One):
        return item.var
    if isinstance(item, Many):
        return {"times": item.var, "row": row_value(item.items)}
    numbers = [it for it in numbers_of(item.var) if TESTS[item.test][1](it)]
    return {"when": item.var, "is": spans(numbers), "row": row_value(item.items)}


def packet_values(way):
    """Returns the packets of a way that have a name, by number; one without a row is kept as bits."""
    names, typed = packet_names(way), packets(way)
    found = {nid: {"nid": nid, "name": name} for nid, name in names.items()}
    for nid, it in typed.items():
        bits = [it.lengths[0] + FRAMES[way], it.lengths[-1] + FRAMES[way]]
        found[nid] |= {"text": it.text, "bits": bits, "row": row_value(it.row)}
    if way == "train":
        only = {"frame": ["NID_PACKET"], "only_in": ["short", "long"]}
        marker = 8 + variable("NID_VBCMK").width
        found[0] |= {**only, "text": "the marker of a virtual balise cover", "bits": [marker, marker], "row": ["NID_VBCMK"]}
        found[255] |= {**only, "text": "the end of a telegram's packets", "bits": [8, 8], "row": []}
    return [found[nid] for nid in sorted(found)]


def packets_value(way):
    """Returns the packets of a way, and how those are framed that don't have a frame of their own."""
    frame = ["NID_PACKET", "Q_DIR", "L_PACKET"] if way == "train" else ["NID_PACKET", "L_PACKET"]
    if sum(variable(it).width for it in frame) != FRAMES[way]:
        raise LookupError(f"the frame of packets to the {way} hasn't {FRAMES[way]} bits")
    return {"frame": frame, "kept": {"bits": [FRAMES[way], MOST_LENGTH], "rest": "OTHER_DATA"}, "list": packet_values(way)}


def telegram_value(name, count, bits):
    """Returns a size of telegrams."""
    fixed = {"name": name, "bytes": [count, count], "bits": bits}
    return {**fixed, "header": TELEGRAM, "packets": "to_train", "last_packet": 255, "rest": "FILL", "pad": "PAD"}


def message_value(name, way, header):
    """Returns the messages of a way that have a name; one without a row is kept as bits."""
    found = {nid: {"nid": nid, "name": it} for nid, it in message_names(way).items()}
    for nid, it in messages(way).items():
        found[nid] |= {"bytes": it.lengths, "row": row_value(it.row)}
    numbers = [found[nid] for nid in sorted(found)]
    frame, kept = ["NID_MESSAGE", "L_MESSAGE"], {"bytes": [3, MOST_BYTES], "rest": "OTHER_DATA"}
    rest = {"packets": f"to_{way}", "rest": "PADDING", "kept": kept, "list": numbers}
    return {"name": name, "bytes": [3, MOST_BYTES], "frame": frame, "header": header, **rest}


def version():
    """Returns the version of the library."""
    return found_one(r'VERSION: &\[u8\] = b"([\d.]+)\\0"', source("etcs_c/src/lib.rt"), "the version")[1]


def tables():
    """Returns all tables."""
    return {
        "title": "Balise telegrams and radio messages of ETCS (SUBSET-026 3.6.0, chapters 7 and 8)",
        "version": version(),
        "description": "made from the sources of etcs by tools/format_tables.py; docs/BINDINGS.md describes the members",
        "variables": {it.var: variable_value(it) for it in variables()},
        "kinds": {
            "short": telegram_value("short telegram", 27, 210),
            "long": telegram_value("long telegram", 104, 830),
            "radio": message_value("message to the train", "train", ["T_TRAIN", "M_ACK", "NID_LRBG"]),
            "train": message_value("message to the track", "track", ["T_TRAIN", "NID_ENGINE"]),
        },
        "packets": {"to_train": packets_value("train"), "to_track": packets_value("track")},
    }


# ---- The files.


def lua_key(name):
    """Returns a member's name in Lua: a number if it is one."""
    return f"[{name}]" if name.isdigit() else name


def as_json(value):
    return json.dumps(value, ensure_ascii=False)


def as_lua(value):
    """Returns a value in one line of Lua."""
    if isinstance(value, dict):
        return "{" + ", ".join(f"{lua_key(name)} = {as_lua(it)}" for name, it in value.items()) + "}"
    return "{" + ", ".join(map(as_lua, value)) + "}" if isinstance(value, (list, tuple)) else as_json(value)


# How a value is written in one line, the marks around a list, and a member before its value.
JSON = (as_json, "[]", lambda name: f"{as_json(name)}: ")
LUA = (as_lua, "{}", lambda name: f"{lua_key(name)} = ")


def written(value, notation, indent="", head=""):
    """Returns a value after the text `head`, on one line if that is short, otherwise with its parts on further lines."""
    in_line, marks, key = notation
    line = indent + head + in_line(value)
    if len(line) < COLUMNS or not isinstance(value, (dict, list)):
        return line
    inner = indent + "  "
    if isinstance(value, dict):
        marks, is_joined = "{}", not all(isinstance(it, dict) for it in value.values())
        parts = [(is_joined, written(it, notation, inner, key(name))) for name, it in value.items()]
    else:
        parts = [(not isinstance(it, dict), written(it, notation, inner)) for it in value]
    return f"{indent}{head}{marks[0]}\n" + ",\n".join(filled(parts)) + f"\n{indent}{marks[1]}"


def filled(parts):
    """Returns the lines of parts, of which consecutive ones share a line if they are to be joined."""
    lines, may_join = [], False
    for is_joined, text in parts:
        joined = f"{lines[-1]}, {text.strip()}" if may_join and is_joined else "\n"
        if "\n" not in joined and len(joined) < COLUMNS:
            lines[-1] = joined
        else:
            lines.append(text)
        may_join = is_joined
    return lines


def files():
    """Returns the text of each file by its path."""
    value = tables()
    lua = {name: value[name] for name in ("variables", "kinds", "packets")}
    return {
        "share/etcs.tables.json": written(value, JSON) + "\n",
        "bindings/wireshark/etcs_tables.lua": LUA_HEAD + written(lua, LUA) + "\n",
    }
