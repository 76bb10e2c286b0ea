#!/usr/bin/env python3
"""Compares etcs.h with the exports of crates/etcs_c/src (names, and types in order) and with the structs and the constants
there; the names in the map of symbols, in C++, Ada and Python with the exports; the tables of variables for C, Python and
Ada, and the packets to begin with, with the specs; and the versions of the bindings with the program's.

    bindings/header.py            the status is 0 if they agree; nothing else compares them
    bindings/header.py --write    rewrites the tables, and the version of etcs.h
"""
import json
import os
import re
import sys

TOP = os.path.join(os.path.dirname(os.path.abspath(__file__)), "..")
sys.dont_write_bytecode = True
sys.path.insert(0, os.path.join(TOP, "tools"))
from format_tables import skeletons
from schema import HEADERS, ROOM
from sources import variable

VARS_H, VARS_PY, VARS_ADS = "bindings/c/etcs_vars.h", "bindings/python/src/etcs/_variables.py", "bindings/ada/etcs-variables.ads"
BLANKS_PY = "bindings/python/src/etcs/_blanks.py"
HEADER_H, HEADER_HPP = "bindings/c/etcs.h", "bindings/c/etcs.hpp"
# Where else a version is given.
VERSIONS = {
    "crates/etcs_c/src/lib.rt": r'^const VERSION: &\[u8\] = b"(.*)\\0";$',
    "crates/etcs_reasons/src/page.rt": r"^<footer>etcs (.*) proved</footer>$",
    "bindings/python/pyproject.toml": r'^version = "(.*)"$',
    "bindings/python/src/etcs/__init__.py": r'^__version__ = "(.*)"$',
}
NAMES = {
    "bindings/c/libetcs.map": r"^ *(etcs_\w+);",
    "bindings/ada/etcs.ads": r'External_Name => "(etcs_\w+)"',
    "bindings/python/src/etcs/_library.py": r'^ *"(etcs_\w+)": \[',
}
C_TYPES = {
    "u32": ["uint32_t"], "u64": ["uint64_t"], "usize": ["size_t"], "Global": [],
    "&[u8]": ["const uint8_t *", "size_t"], "&mut [u8]": ["uint8_t *", "size_t"],
    "&mut EtcsAnswer": ["etcs_answer *"], "&mut [EtcsField]": ["etcs_field *", "size_t"], "&[EtcsField]": ["const etcs_field *", "size_t"], "&mut [EtcsPlace]": ["etcs_place *", "size_t"], "[u8; 32]": ["char", "[32]"],
    "&[EtcsTelegram]": ["const etcs_telegram *", "size_t"], "&mut EtcsGroup": ["etcs_group *"], "&mut EtcsReason": ["etcs_reason *"],
    "[u8; 104]": ["uint8_t", "[104]"], "[u8; 8]": ["uint8_t", "[8]"],
}


def source(name):
    with open(os.path.join(TOP, name), encoding="utf-8") as file:
        return re.sub(r"//.*|/\*.*?\*/", "", file.read(), flags=re.S if name.endswith((".h", ".hpp")) else 0)


def exports(text):
    """Each export's C types, its result first."""
    for name, args, result in re.findall(r'#\[unsafe\(no_mangle\)\]\s*pub extern "C" fn (\w+)\((.*?)\)\s*-> (\w+)', text, re.S):
        types = [arg.split(":", 1)[1].strip() for arg in args.split(",") if arg.strip()]
        yield name, C_TYPES[result] + [c for each in types for c in C_TYPES[each]]


def declared(text):
    """Each declaration's types, without the names of its arguments."""
    named = dict(re.findall(r"typedef (uint32_t) (\w+);", text) and [(b, a) for a, b in re.findall(r"typedef (uint32_t) (\w+);", text)])
    for result, name, args in re.findall(r"^(\w+) (etcs_\w+)\(([^;{]*)\);", text, re.M):
        types = [re.match(r"((?:const )?\w+ \*?)\s*\w+$", " ".join(arg.split())).group(1).strip() for arg in args.split(",")]
        yield name, [named.get(each, each) for each in [result, *types]]


def names():
    """Each variable's name as the standard prints it, and its width, by its name in code."""
    text = source("crates/etcs_vars/specs/Vars.antt")
    rows = re.findall(r'^variable Var\.(\w+) = (?:only|all) "(\w+)" (\d+)', text, re.M)
    return {var: (name, int(width)) for var, name, width in rows}


def vars_h(table):
    """etcs_vars.h."""
    known = names()
    rows = " \\\n".join(f'    X({number}, {var}, "{known[var][0]}")' for var, number in table.items())
    return f"""/* The variables: number, name in C, name as the standard prints it. Written by bindings/header.py from the specs. */
#ifndef ETCS_VARS_H
#define ETCS_VARS_H

#include <stdint.h>

#define ETCS_VARS(X) \\
{rows}

enum {{
#define ETCS_VAR(number, name, text) ETCS_VAR_##name = number,
    ETCS_VARS(ETCS_VAR)
#undef ETCS_VAR
    ETCS_VAR_COUNT
}};

/* A variable's name; "" if no variable has the number. */
static inline const char *etcs_var_name(uint32_t var)
{{
    static const char *const names[] = {{
#define ETCS_VAR(number, name, text) text,
        ETCS_VARS(ETCS_VAR)
#undef ETCS_VAR
    }};
    return var < ETCS_VAR_COUNT ? names[var] : "";
}}

#endif
"""


def vars_py(table):
    """_variables.py."""
    known = names()
    rows = "".join(f'    ("{known[var][0]}", {known[var][1]}),  # {number}\n' for var, number in table.items())
    return f"""# Written by bindings/header.py from the specs.
_TABLE = (
{rows})

#: the names of variables, by their numbers in the library
VARIABLES = tuple(name for name, _ in _TABLE)

#: how many bits each takes
WIDTHS = tuple(width for _, width in _TABLE)
"""


def blanks_py():
    """_blanks.py."""
    header = [variable(name) for name in HEADERS["telegram"]]
    pairs = "".join(f'    ("{it.name}", {it.ranges[0][0]}),\n' for it in header)
    ways = "".join(f'    "{way}": {{\n{blanks_of(way)}    }},\n' for way in ("train", "track"))
    return f"""# Written by bindings/header.py from the specs.
from typing import Dict, Tuple

#: the header of a telegram with the least numbers
HEADER: Tuple[Tuple[str, int], ...] = (
{pairs})

#: how many bits the packets and FILL of a telegram have
ROOM: Dict[str, int] = {ROOM}

#: the JSON of a packet of each number that is typed, to the train and to the track, as SUPPORTED.md has it
PACKETS: Dict[str, Dict[int, str]] = {{
{ways}}}
"""


def blanks_of(way):
    """The packets of a way to begin with, a line each."""
    lines = [it for it in skeletons(way) if it.startswith('{"')]
    return "".join(f"        {json.loads(it)['nid']}: '{it}',\n" for it in lines)


def vars_ads(table):
    """etcs-variables.ads."""
    rows = "".join(f"   {var} : constant Unsigned_32 := {number};\n" for var, number in table.items())
    return f"""--  The variables by their numbers. Written by bindings/header.py from the specs.
package Etcs.Variables is

{rows}
end Etcs.Variables;
"""


def with_version(text, version):
    """etcs.h with the version."""
    major, minor, patch = map(int, version.split("."))
    text = re.sub(r'(#define ETCS_VERSION ).*', rf'\g<1>"{version}"', text)
    return re.sub(r"(#define ETCS_VERSION_NUMBER ).*", rf"\g<1>{10000 * major + 100 * minor + patch}", text)


def main():
    rattle = source("crates/etcs_c/src/lib.rt")
    answer = source("crates/etcs_c/src/answer.rt")
    header = source("bindings/c/etcs.h")
    ours, theirs = dict(exports(rattle)), dict(declared(header))
    wrong = [f"{name}: {ours.get(name)} in the source, {theirs.get(name)} in the header" for name in sorted({*ours, *theirs}) if ours.get(name) != theirs.get(name)]
    for path, pattern in NAMES.items():
        found = re.findall(pattern, source(path), re.M)
        if sorted(found) != sorted(ours):
            wrong.append(f"{path} has {', '.join(sorted(found))}")
    wrong += [f"{HEADER_HPP} doesn't call {name}" for name in ours if f"::{name}(" not in source(HEADER_HPP)]
    groups, reason = source("crates/etcs_c/src/groups.rt"), source("crates/etcs_c/src/reason.rt")
    structs = [("etcs_answer", "EtcsAnswer", answer), ("etcs_field", "EtcsField", source("crates/etcs_c/src/fields.rt")), ("etcs_place", "EtcsPlace", source("crates/etcs_c/src/places.rt"))]
    structs += [("etcs_telegram", "EtcsTelegram", groups), ("etcs_group", "EtcsGroup", groups), ("etcs_reason", "EtcsReason", reason)]
    count = 0
    for c_name, name, text in structs:
        body = re.search(r"pub struct %s \{(.*?)\n\}" % name, text, re.S).group(1)
        members = re.search(r"typedef struct %s \{(.*?)\}" % c_name, header, re.S).group(1)
        fields = [(n, C_TYPES[t]) for n, t in re.findall(r"pub (\w+): ([^,]+),", body)]
        theirs_ = [(n, [t] + ([a] if a else [])) for t, n, a in re.findall(r"(\w+) (\w+)(\[\d+\])?;", members)]
        count += len(fields)
        if fields != theirs_:
            wrong.append(f"{c_name}: {fields} in the source, {theirs_} in the header")
    version = re.search(r'VERSION: &str = "([\d.]+) ', source("crates/etcs_cli/src/line.rt")).group(1)
    for path, pattern in VERSIONS.items():
        found = re.findall(pattern, source(path), re.M)
        if found != [version]:
            wrong.append(f"{path} has version {', '.join(found)}, the program {version}")
    with open(os.path.join(TOP, HEADER_H), encoding="utf-8") as file:
        header_text = with_version(file.read(), version)
    table = dict(re.findall(r"^var_number Var\.(\w+) = (\d+)", source("crates/etcs_c/specs/Fields.antt"), re.M))
    for path, text in ((VARS_H, vars_h(table)), (VARS_PY, vars_py(table)), (VARS_ADS, vars_ads(table)), (BLANKS_PY, blanks_py()), (HEADER_H, header_text)):
        if "--write" in sys.argv:
            with open(os.path.join(TOP, path), "w", encoding="utf-8") as file:
                file.write(text)
        elif not os.path.exists(os.path.join(TOP, path)) or open(os.path.join(TOP, path), encoding="utf-8").read() != text:
            wrong.append(f"{path} isn't what the specs say: bindings/header.py --write")
    renamed = {"WHOLE": "OK"}
    numbers = {renamed.get(n, n): int(v) for n, v in re.findall(r"pub const (\w+): u32 = (\d+);", answer + reason)}
    kinds = {n.upper(): int(v) for v, n in re.findall(r"(\d+) => Some\(Kind::(\w+)\)", source("crates/etcs_c/src/kind.rt"))}
    constants = {n: int(v) for n, v in re.findall(r"ETCS_(\w+) = (\d+)", header)}
    if {**numbers, **kinds} != constants:
        wrong.append(f"constants: { {**numbers, **kinds} } in the source, {constants} in the header")
    print("\n".join(wrong) or f"etcs.h agrees with {len(ours)} exports, {count} members, {len(constants)} constants and {len(table)} variables")
    return 1 if wrong else 0


if __name__ == "__main__":
    sys.exit(main())
