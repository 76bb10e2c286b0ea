"""What the build of a library read of those below it, so that it needn't be rebuilt if all of that is as it was.

A note beside the rlib says it: the checksum of the crate's own files, what others may read of the library, and what its
build read of each library below. From an rlib below it a build reads (`rattle build --help`, under --extern):

- the public interface, which is the folders interface and below and the file format. All of it counts, except the two
  lines of format that are checksums of the whole: types, constants, macros, bounds, and which functions are inlined.
- modules of its statements, specs and proofs. Those count that antt names at the head of one of the library's own
  checked modules, as imported or seen by way of an import; what counts of each is the text that it is made from.

It reads neither the code of functions (toolchain/mir.json) nor the private items (lang/src). The build of a program or of
a static library reads these, and it is repeated if any file changed. It also reads checked modules of all libraries,
and rattle refuses one that read anything other than what is there now ("something that it read has changed"): a clause,
a definition or a type that this file overlooked would make that build fail, and let nothing unproved pass. rattle doesn't
notice a changed constant or macro, whose value is in the code of the library above. Those are in the interface,
which is why all of it counts. If a note is missing or can't be read, or a module isn't in the form that is known
here, the library is rebuilt.
"""

import functools
import hashlib
import json
import os
import re

NOTE = "note.json"  # in out/rlib, which rt removes before each build
SUMS_OF_ALL = (b"checked ", b"sum ")
FIRST_LINE = b"--@ antt-checked 81\n"
BEYOND = b"\n--@ reaches "  # the lines that matter come before this one
SOURCE = re.compile(rb"^--@ source sha256:(\w+)$", re.M)
NAMED = re.compile(rb"^--@ (?:import|saw) (Rattle[-.]\S+) ", re.M)


def sum_of(*what):
    return hashlib.sha256(repr(what).encode()).hexdigest()


def files_of(rlib):
    """Returns the files of a library's public interface, each with what it holds."""
    walked = [it for part in ("interface", "below") for it in os.walk(f"{rlib}/{part}")]
    for file in sorted(f"{folder}/{name}" for folder, _, names in walked for name in names):
        with open(file, "rb") as it:
            yield os.path.relpath(file, rlib), it.read()


def interface_of(rlib):
    """Returns a checksum of what every library above may read of this one."""
    with open(f"{rlib}/format", "rb") as it:
        lines = [line for line in it if not line.startswith(SUMS_OF_ALL)]
    return sum_of(lines, [sum_of(*it) for it in files_of(rlib)])


def modules_of(rlib):
    """Returns, by the name of each module of a library, the checksum of its text and the modules that antt names at its head."""
    found = {}
    with open(f"{rlib}/toolchain/checked.json", encoding="utf-8") as names, open(f"{rlib}/toolchain/checked.a", "rb") as archive:
        for name, start, length in map(json.loads, names):
            archive.seek(start)
            head, ends, _ = archive.read(length).partition(BEYOND)
            if name.startswith("Rattle"):
                if not head.startswith(FIRST_LINE) or not ends:
                    raise ValueError(f"{rlib}: {name} is in another form")
                found[name] = SOURCE.search(head)[1].decode(), {it.decode() for it in NAMED.findall(head)}
    return found


def library_of(module):
    return re.match(r"Rattle[-.](\w+)", module)[1]


@functools.lru_cache(maxsize=None)
def parsed(file, _changed):
    with open(file, encoding="utf-8") as it:
        return json.load(it)


def note_of(crate):
    """Returns the note on a library, or None."""
    file = f"{os.path.dirname(crate.rlib)}/{NOTE}"
    try:
        return parsed(file, os.stat(file).st_mtime_ns)
    except (OSError, ValueError):
        return None


def view(note, modules):
    """Returns a checksum of what a build sees of a library if it reads these of its modules."""
    return sum_of(note["interface"], [(it, note["modules"].get(it)) for it in modules])


def take_note(crate):
    """Writes the note on a library that has just been built. It must be of the files that were built."""
    below = {it.name: note_of(it) for it in crate.below()}
    own = crate.own()
    if not all(below.values()) or not crate.is_built():
        return
    modules = modules_of(crate.rlib)
    named = sorted(set().union(*(named for _, named in modules.values())))
    reads = {name: [it for it in named if library_of(it) == name] for name in below}
    note = {
        "own": own,
        "interface": interface_of(crate.rlib),
        "modules": {name: source for name, (source, _) in modules.items()},
        "reads": reads,
        "saw": {name: view(below[name], reads[name]) for name in below},
    }
    file = f"{os.path.dirname(crate.rlib)}/{NOTE}"
    with open(f"{file}.new", "w", encoding="utf-8") as it:
        json.dump(note, it)
    os.replace(f"{file}.new", file)


def is_as_read(crate):
    """Whether a library's own files, and all that its build read of those below it, are as they were. Those must be built."""
    note, below = note_of(crate), {it.name: note_of(it) for it in crate.below()}
    if not note or not all(below.values()) or not os.path.isdir(crate.rlib):
        return False
    if note["own"] != crate.own() or {*note["reads"]} != {*below}:
        return False
    return all(note["saw"][name] == view(below[name], note["reads"][name]) for name in below)
