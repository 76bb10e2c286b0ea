#!/usr/bin/env python3
"""Tries mutants: edits that turn the meaning of a function, and that the prover has to refuse.

    tools/mutants.py [NAME | NAME/EDIT | PATH.edit ..]
    tools/mutants.py --gate [NAME ..]
    tools/mutants.py --check

A crate's mutants are in crates/NAME/mutants, in blocks with an empty line between them. A block begins with a line
`edit: EDIT`; its lines `file:`, `old:` and `new:` are those of an edit in must-fail/, which `rt ci` tries. A block with a
line `gate: FUNCTION` is tried by .ci/run: that is the function that has to be refused, by the end of its name.

Mutants of a crate are tried together: all that don't affect each other are put into one copy of the crate, and one check
proves the functions that they change and what these call. A mutant of a function that calls another one that is changed
waits for the next copy. A mutant is refused if a goal of its own function isn't proved; if only a proof names what the
edit took away, that is reported, since it says nothing of the contract.

Run this over a crate whose code or contracts changed. NAME is a crate, by default each of them; NAME/EDIT is one of its
mutants, or of its edits in must-fail/, and PATH.edit is the file of one of those. The crate must be proved (`rt check`),
here or in another checkout: its mutants are tried over what that check kept. A line for each mutant begins with its name
and `refused`, and ends with the goal that isn't proved. The status is 0 if the prover refused all of them.

With --gate all blocks with a line `gate:` are tried, or those of the crates that are named, from nothing, over the
libraries that `rt ci` has just proved. A line for each crate says how long that took; the last line is `N mutants
refused, N not`.

With --check nothing is proved: the status is 0 if each edit can be applied, those in must-fail/ too, and no two of a
crate have the same name.
"""

import os
import re
import shutil
import sys
import tempfile
import threading
import time
from collections import namedtuple
from concurrent.futures import ThreadPoolExecutor
from contextlib import contextmanager

sys.dont_write_bytecode = True
TOP = os.path.dirname(os.path.dirname(os.path.realpath(__file__)))
SAYING = threading.Lock()
MEMORY = 2_500_000_000  # that a check of a crate's mutants takes at most


def blocks_of(file):
    """Returns the blocks of a crate's mutants, each as its first line and all lines after that."""
    if not os.path.exists(file):
        return []
    with open(file, encoding="utf-8") as it:
        blocks = re.split(r"\n{2,}", it.read().strip("\n"))
    return [it.partition("\n")[::2] for it in blocks]


def edits_of(folder):
    """Returns the texts of the mutants of a crate, by their names."""
    return {head.removeprefix("edit: "): text for head, text in blocks_of(f"{folder}/mutants")}


def gate_of(text):
    """Returns the function that has to be refused, if .ci/run tries the edit."""
    return next((it.removeprefix("gate: ") for it in text.splitlines() if it.startswith("gate: ")), None)


# ---- Whether the edits can be applied.


def apply(folder, text):
    """Yields what keeps an edit from being applied to the crate's files."""
    path, old, texts, pairs = None, None, {}, 0
    for line in text.splitlines():
        if line.startswith("file: "):
            path = line.removeprefix("file: ")
            if path not in texts:
                if not path.startswith("src/") or not os.path.isfile(f"{folder}/{path}"):
                    yield f"there is no file {path} of code"
                    return
                with open(f"{folder}/{path}", encoding="utf-8") as it:
                    texts[path] = it.read()
        elif line.startswith("old: "):
            old = line.removeprefix("old: ")
        elif line.startswith("gate: "):
            continue
        elif line.startswith("new:") and path and old:
            if (found := texts[path].count(old)) != 1:
                yield f"an old text is {found} times in {path}, and not once: {old.strip()[:80]}"
                return
            new = line.removeprefix("new:").removeprefix(" ")
            if new == old:
                yield f"it changes nothing: {old.strip()[:80]}"
            texts[path], old, pairs = texts[path].replace(old, new), None, pairs + 1
        else:
            yield f"a line that isn't read: {line[:80]}"
    if not pairs or old:
        yield "it ends without a pair of old and new"


def faults_of(folder):
    """Yields what is wrong with the edits of a crate."""
    crate, seen = os.path.basename(folder), set()
    for head, text in blocks_of(f"{folder}/mutants"):
        if not re.fullmatch(r"edit: [a-z0-9_]+", head):
            yield f"{crate}/mutants: a block that begins with: {head[:80]}"
            continue
        name = head.removeprefix("edit: ")
        if name in seen:
            yield f"{crate}/{name}: two edits have this name"
        seen.add(name)
        yield from (f"{crate}/{name}: {why}" for why in apply(folder, text))
    for path in tried_by_gate(folder):
        name = os.path.basename(path).removesuffix(".edit")
        if name in seen:
            yield f"{crate}/{name}: an edit of must-fail/ has this name too"
        with open(path, encoding="utf-8") as it:
            yield from (f"{crate}/must-fail/{name}: {why}" for why in apply(folder, it.read()))


def tried_by_gate(folder):
    """Returns the paths of the edits that the gate tries."""
    names = sorted(os.listdir(f"{folder}/must-fail")) if os.path.isdir(f"{folder}/must-fail") else []
    return [f"{folder}/must-fail/{it}" for it in names if it.endswith(".edit")]


def check():
    """Says which edits can't be applied, and how many there are; returns the status."""
    folders = [f"{TOP}/crates/{it}" for it in sorted(os.listdir(f"{TOP}/crates"))]
    faults = [fault for folder in folders for fault in faults_of(folder)]
    print(*faults, sep="\n", end="\n" * bool(faults))
    inner, of_gate = (sum(len(found(it)) for it in folders) for found in (edits_of, tried_by_gate))
    print(f"{inner} edits in mutants, {of_gate} in must-fail/, {len(faults)} faults")
    return 1 if faults else 0


# ---- Trying them.

# A mutant: its crate's name and its own, its text, and the function that has to be refused, as a check prints it, or its end.
Mutant = namedtuple("Mutant", "name text function")
# What a check prints of a function, and the part of it that is about functions that it calls.
FUNCTION = re.compile(r"^fn (\S+): (proved|not proved|could not tell|no proof)(?:: (.*))?$", re.M)
CALLS = re.compile(r"it calls `[^`]*`,? which is not proved")
# A goal that isn't proved, in the code.
GOAL = re.compile(r"^note: src/\S+: it is not proved that .*$", re.M)
# What is said of a proof that names what an edit took away.
LOST = re.compile(r"^(?:note: )?(?:\./)?proofs/.*(?:has no field|is not in scope|has no `|was not admitted)", re.M)
HEAD = re.compile(r"( *)(?:pub(?:\([a-z ]+\))? )?(?:const |unsafe |extern \"C\" )*fn (\w+)")
OWNER = re.compile(r"(?:pub(?:\([a-z]+\))? )?(?:impl(?:<(?P<of>.*?)>)? (?:(?P<by>\w+)(?:<.*?>)? for )?|trait )(?P<type>[^{]*)")
NO_NAME = re.compile(r"error: (?:`\w+` has no function|several functions are named) `([^`]+)`")


def owner_of(head):
    """Returns the type that an implementation is of, as a check names it: with the types that it is of, and the trait."""
    of = re.findall(r"'?\w+", head["of"] or "")
    words = [it for it in re.findall(r"'?\w+", head["type"].split(" where ")[0].split(":")[0]) if it not in of and not it.startswith("'")]
    return "".join([*words, head["by"]]) if head["by"] else "+".join(words)


def function_of(folder, text):
    """Returns the function that an edit changes, as the end of what a check names it: its type or its module, and its name."""
    path = next(it.removeprefix("file: ") for it in text.splitlines() if it.startswith("file: "))
    old = next(it.removeprefix("old: ") for it in text.splitlines() if it.startswith("old: "))
    with open(f"{folder}/{path}", encoding="utf-8") as it:
        code = it.read()
    lines = code[: code.index(old) + len(old)].split("\n")
    head = next((it for it in map(HEAD.match, reversed(lines)) if it), None)
    if not head:
        return None
    owner = next((it for it in map(OWNER.match, reversed(lines)) if it), None) if head[1] else None
    # a method's module is that of its type, which may be in another file
    module = [it for it in path.removeprefix("src/").removesuffix(".rt").split("/") if it not in ("lib", "main", "mod")]
    return "::".join([*([owner_of(owner)] if owner else module), head[2]])


def changed(folder, text, texts):
    """Returns the files of a crate with an edit on top of others, or nothing if it doesn't fit beside them."""
    new = dict(texts)
    path = old = None
    for line in text.splitlines():
        if line.startswith("file: "):
            path = line.removeprefix("file: ")
            if path not in new:
                with open(f"{folder}/{path}", encoding="utf-8") as it:
                    new[path] = it.read()
        elif line.startswith("old: "):
            old = line.removeprefix("old: ")
        elif line.startswith("new:"):
            if new[path].count(old) != 1:
                return None
            new[path] = new[path].replace(old, line.removeprefix("new:").removeprefix(" "))
    return new


def together(folder, mutants):
    """Returns the mutants that fit into one copy of a crate, one for each function, and the files of that copy."""
    chosen, texts = [], {}
    for it in mutants:
        if it.function not in [other.function for other in chosen]:
            if new := changed(folder, it.text, texts):
                chosen, texts = [*chosen, it], new
    return chosen, texts


def verdict_of(said, function):
    """Returns whether the function is refused, is proved, waits for one that it calls, or is refused only for a lost name; and the reason."""
    found = [it for it in FUNCTION.finditer(said) if f"::{it[1]}".endswith(f"::{function}")]
    if len(found) != 1:
        return "unknown", f"{len(found)} functions have this name"
    name, how, why = found[0][1], found[0][2], found[0][3] or ""
    if how == "proved":
        return "proved", ""
    goals = [it for it in CALLS.sub("", why).split("; ") if it.strip(" ;,")]
    if how == "no proof" and not goals:
        return "waits", why
    place = "/".join(name.split("::")[1:])
    own = [it for it in said.splitlines() if re.match(rf"(?:\./)?proofs/{re.escape(place)}/\S+: error", it)]
    # what is said of a function's own goals is right before its line
    own += GOAL.findall(said[said.rfind("\nfn ", 0, found[0].start()) + 1 : found[0].start()])
    refused = [it for it in own if not LOST.match(it)]
    if own and not refused:
        return "lost", own[0]
    return "refused", (refused or goals or [how])[0]


def try_together(rt, crate, mutants, kept):
    """Yields each mutant with its verdict and the reason, after as many checks as are needed."""
    left, most = [*mutants], len(mutants)
    while left:
        chosen, texts = together(crate.folder, [it for it in left if it.function][:most])
        if not chosen:
            break
        words = [word for it in chosen for word in ("--only", it.function)]
        with kept() as folder:
            said = rt.checked(crate, texts, ["--jobs", "1", *words], folder).stdout
        if name := NO_NAME.search(said):
            left = [it._replace(function=None) if it.function == name[1] else it for it in left]
            continue
        found = [(it, *verdict_of(said, it.function)) for it in chosen]
        done = [it for it in found if it[1] in ("refused", "proved", "lost")]
        yield from done
        left = [it for it in left if it not in [mutant for mutant, _, _ in done]]
        if not done and len(chosen) == 1:
            yield chosen[0], found[0][1], next((it for it in said.splitlines() if "error" in it), found[0][2])
            left.remove(chosen[0])
        # one that doesn't compile keeps those beside it from being tried
        most = len(left) if done else max(1, len(chosen) // 2)
    for it in left:
        yield it, *try_alone(rt, crate, it, kept)


def try_alone(rt, crate, mutant, kept):
    """Returns the verdict on a mutant of no function that a check names, by a check of the whole crate, and the reason."""
    with tempfile.TemporaryDirectory(prefix="mutant-") as room, kept() as folder:
        with open(f"{room}/mutant.edit", "w", encoding="utf-8") as it:
            it.write(f"{mutant.text}\n")
        kind, said = rt.must_fail(crate, f"{room}/mutant.edit", ["--jobs", "1"], folder)
    why = said.partition(": ")[2]
    if "only because a proof file names" in why:
        return "lost", why
    # some kits say how it was refused, others only whether it was
    if kind in (getattr(rt, "REFUSED", True), getattr(rt, "AT_LIMIT", True)):
        return "refused", why
    return "proved" if "NOT REFUSED" in said else "unknown", why


def beside(folder):
    """Returns what gives the folder, in which each check keeps what the next one needs of it."""

    @contextmanager
    def kept():
        yield folder

    return kept


def over(rt, crate):
    """Returns what gives a copy of what the crate's own check kept."""

    @contextmanager
    def kept():
        with tempfile.TemporaryDirectory(prefix="mutants-", dir=f"{crate.folder}/out") as room:
            shutil.copytree(f"{crate.folder}/out/incremental", f"{room}/kept", copy_function=os.link)
            yield f"{room}/kept"

    return kept


def mutants_of(crate, words):
    """Returns the mutants of a crate that the words ask for, those of must-fail/ too."""
    edits = edits_of(crate.folder)
    names = [*edits] if not words or crate.name in words else [it for it in edits if f"{crate.name}/{it}" in words]
    paths = [os.path.realpath(it) for it in words if it.endswith(".edit")]
    texts = {it: edits[it] for it in names}
    for path in tried_by_gate(crate.folder):
        if name_of(path, crate) in words or os.path.realpath(path) in paths:
            with open(path, encoding="utf-8") as it:
                texts[os.path.basename(path).removesuffix(".edit")] = it.read()
    return [Mutant(f"{crate.name}/{it}", text, gate_of(text) or function_of(crate.folder, text)) for it, text in texts.items()]


def is_ready(rt, crate):
    """Returns whether the libraries below the crate are built, and a check of the crate has kept its work."""
    if any(it.build_rlib(["--jobs", "1"], anew=False) for it in crate.below()):
        return False
    if hasattr(rt, "adopt"):
        rt.adopt(crate, is_alone=False)
    if os.path.isdir(f"{crate.folder}/out/incremental"):
        return True
    print(f"{crate.name} isn't proved: run rt check there first", file=sys.stderr)
    return False


def name_of(path, crate):
    """Returns the word by which an edit of must-fail/ is asked for."""
    return f"{crate.name}/{os.path.basename(path).removesuffix('.edit')}"


def unknown(words, crates):
    """Returns the first word that asks for no edit."""
    known, paths = set(), set()
    for crate in crates:
        of_gate = tried_by_gate(crate.folder)
        known |= {crate.name, *(f"{crate.name}/{it}" for it in edits_of(crate.folder)), *(name_of(it, crate) for it in of_gate)}
        paths |= {os.path.realpath(it) for it in of_gate}
    return next((it for it in words if it not in known and os.path.realpath(it) not in paths), None)


def say_tried(mutant, verdict, why):
    """Writes how a mutant fared, and returns whether the prover refused it at a goal of its own."""
    texts = {
        "refused": "refused",
        "proved": "NOT REFUSED: the crate is still proved with it",
        "lost": "NOT REFUSED at a goal, only because a proof names what it took away: change a value and keep the names",
        "waits": "NOT TRIED: its function calls one that isn't proved",
        "unknown": "NOT TRIED",
    }
    with SAYING:
        print(f"{mutant.name}: {texts[verdict]}{': ' * bool(why)}{why[:200]}", flush=True)
    return verdict == "refused"


def toolchain():
    """Returns the module that rt is."""
    from build import module_of

    rt = module_of(os.path.realpath(shutil.which("rt") or "/opt/rattle/bin/rt"))
    rt.rtlib.guarded()
    return rt


def try_all(words):
    """Tries the mutants that the words ask for, and returns the status."""
    rt = toolchain()
    crates = rt.rtlib.crates_below(TOP)
    if lacking := unknown(words, crates):
        print(f"no crate and no edit: {lacking}", file=sys.stderr)
        return 2
    is_each_refused = True
    for crate in crates:
        mutants = mutants_of(crate, words)
        if mutants and not is_ready(rt, crate):
            return 1
        for tried in try_together(rt, crate, mutants, over(rt, crate)):
            is_each_refused = say_tried(*tried) and is_each_refused
    return 0 if is_each_refused else 1


# ---- The gate.


def try_gate(names):
    """Tries the mutants of the gate, of all crates or of these, as many crates at a time as there are cores and memory for, and returns the status."""
    from build import crates_over_statements

    rt = toolchain()
    # as under rt ci, which built the libraries: their statements
    crates = crates_over_statements(rt)
    every = [(it, [Mutant(f"{it.name}/{name}", text, gate_of(text)) for name, text in edits_of(it.folder).items() if gate_of(text)]) for it in crates]
    every = [it for it in every if it[1] and (not names or it[0].name in names)]
    places = max(1, min(rt.processors(), int(0.85 * rt.free() / MEMORY)))

    def try_crate(crate, mutants):
        begun = time.monotonic()
        lacking = next((it.name for it in crate.below() if not os.path.isdir(it.rlib)), None)
        if lacking:
            return [say_tried(it, "unknown", f"{lacking} isn't built: run rt ci first") for it in mutants]
        with tempfile.TemporaryDirectory(prefix="mutants-") as room:
            found = [say_tried(*it) for it in try_together(rt, crate, mutants, beside(room))]
        with SAYING:
            print(f"{crate.name}: {len(found)} mutants in {time.monotonic() - begun:.0f} s", flush=True)
        return found

    with ThreadPoolExecutor(places) as pool:
        found = [it for each in pool.map(lambda it: try_crate(*it), every) for it in each]
    print(f"{sum(found)} mutants refused, {len(found) - sum(found)} not", flush=True)
    return 0 if all(found) else 1


def main(words):
    if words == ["--check"]:
        return check()
    if words[:1] == ["--gate"]:
        return try_gate(words[1:])
    if any(it.startswith("-") for it in words):
        print(__doc__)
        return 2
    return try_all(words)


if __name__ == "__main__":
    sys.exit(main(sys.argv[1:]))
