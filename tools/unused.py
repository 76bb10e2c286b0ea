#!/usr/bin/env python3
"""Finds what nothing uses: definitions and lemmas, and what crates re-export to those above.

    tools/unused.py

A definition or lemma of specs/ or proofs/ is used if the code or an answer to a goal names it, or one that is used
does. Those after a line `-- example`, and those of files whose names end with Examples.antt, count as used.

A public item of a module `inner` is used if the code of another crate names it, or a macro that others use; what only its
own crate uses needn't be there. One of `laws` is used if any code names it, or if it is a promise to users: a function with
an `ensures` in a crate whose lib.rt makes `laws` public. An item that such a module re-exports is used if it is used there.

Each line is the place and the name of one that isn't used. The status is 1 if there is one that EXCEPTIONS doesn't name,
or if EXCEPTIONS names anything else.
"""

import os
import re
import sys

TOP = os.path.dirname(os.path.dirname(os.path.realpath(__file__)))
NEWLINE = "\n"
# What stays though nothing uses it, as `crates/etcs_bits/specs/Bits.antt: name`, each with the reason.
LATER = "goes with the next change of its crate, which proves that anew"
EXCEPTIONS: dict[str, str] = {
    "crates/etcs_explain/proofs/HexLines.antt: says_why": LATER,
    "crates/etcs_group/proofs/Passing.antt: passed_all": LATER,
    "crates/etcs_log/proofs/Another.antt: before_none": LATER,
    "crates/etcs_log/proofs/Answering.antt: answered_passed": LATER,
    "crates/etcs_log/proofs/Walking.antt: walk_ends": LATER,
}


def files(ending, *parts):
    """Yields the crate, the path in it and the text of each file of these folders of all crates."""
    for crate in sorted(os.listdir(f"{TOP}/crates")):
        for part in parts:
            for at, folders, names in os.walk(f"{TOP}/crates/{crate}/{part}"):
                folders.sort()
                for name in sorted(it for it in names if it.endswith(ending)):
                    with open(f"{at}/{name}", encoding="utf-8") as file:
                        yield crate, os.path.relpath(f"{at}/{name}", f"{TOP}/crates/{crate}"), file.read()


# ---- Definitions and lemmas.

ANSWERS = ("Answers.antt", "Invariants.antt", "Proof.antt")
DECLARED = re.compile(r"( *)((?:(?:abbrev|pub|unfoldable|ruleset) )*)(?:(record|data) (\S+).*|([^\s(){}]+) :(?: .*)?)$")
TOKEN = re.compile(r"[^\s(){},;\[\]⟨⟩|]+")
USE = re.compile(r"^[ \t]*(pub )?(?:ghost )?use (Rattle\.[^\s{;]+?)(?:\.\{([^}]*)\})?(?: as (\S+?))?;?$", re.M)
PATH = re.compile(r"\b(crate|etcs_\w+)::((?:specs|proofs)::[^\s,()\]]+)")


class Declared:
    """A definition or a lemma: its name, its line, its text with the heads of the modules that it is in, whether it is used as such."""

    def __init__(self, name, kind, line, text, is_used):
        self.name, self.line, self.text, self.is_used = name, line, text, is_used
        self.makes = set()  # of a type what makes its values
        self.is_type = kind == "data"

    def take(self, line):
        """Takes a further line."""
        self.text.append(line)
        if self.is_type and (found := re.match(r" +(\S+) :", line)):
            self.makes.add(found[1])


class File:
    """A file of definitions or of code: its module, what it brings in, what it hands on, and its declarations."""

    def __init__(self, crate, path, text):
        self.crate, self.path = crate, path
        self.module = f"Rattle.{crate}.{path.rpartition('.')[0].replace('/', '.')}"
        self.brings, self.modules, self.hands_on = {}, {}, {}
        for found in USE.finditer(text):
            self.take_use(*found.groups())
        rest = USE.sub("", text)
        self.declared = [] if path.endswith(".rt") else [*self.declarations(rest)]
        self.code = re.sub(r"//[^\n]*", "", rest) if path.endswith(".rt") else ""

    def take_use(self, is_public, module, names, alias):
        if names is None:
            self.modules[alias or module.rpartition(".")[2]] = module
            return
        for it in names.split(","):
            name, _, new = it.strip().partition(" as ")
            self.brings[new or name] = module, name
            if is_public:
                self.hands_on[new or name] = module, name

    def declarations(self, text):
        """Yields what a file without its `use` lines declares. An answer is used if it is public or answers a goal."""
        is_answer = os.path.basename(self.path) in ANSWERS and self.path.count("/") > 1
        is_example, blocks, last = False, Blocks(), None
        for number, line in enumerate(text.split("\n"), 1):
            bare = line.strip()
            if not bare or bare.startswith(("--", "infix", "pub mod ", "mod ")):
                is_example = is_example or bare == "-- example"
                continue
            if blocks.takes(line):
                continue
            found = DECLARED.match(line)
            if not found or len(found[1]) != blocks.deep():
                if last:
                    last.take(line)
                continue
            if last:
                yield last
            name, is_answered = found[4] or found[5], "pub " in found[2] or ": goal." in line
            is_used = is_example or self.path.endswith("Examples.antt") or is_answer and is_answered
            last, is_example = Declared(name, found[3], number, [line, *blocks.heads()], is_used), False
        if last:
            yield last


class Blocks:
    """The modules of a file, and declarations of one another, that a line is in: how far in their lines begin, and their heads."""

    def __init__(self):
        self.open, self.head = [], ""

    def takes(self, line):
        """Takes the next line, and returns whether it is of a head."""
        deep, bare = len(line) - len(line.lstrip()), line.strip()
        if not self.head:
            if self.open and self.open[-1][0] is None:
                self.open[-1] = deep, self.open[-1][1]
            while self.open and deep < self.deep():
                self.open.pop()
            if not re.match(r"module |(\w+ )*mutual$", bare):
                return False
        self.head += f"{bare} "
        if bare.endswith((" where", "mutual")):
            self.open.append((None, self.head))
            self.head = ""
        return True

    def deep(self):
        return self.open[-1][0] if self.open else 0

    def heads(self):
        return [it for _, it in self.open]


class Names:
    """Which declarations texts name."""

    def __init__(self):
        self.files = [File(*it) for it in files(".antt", "specs", "proofs")]
        self.of_code = [File(*it) for it in files(".rt", "src")]
        self.of_module = {it.module: it for it in self.files}
        self.known, self.taken = {}, set()
        for file in self.files:
            for it in file.declared:
                for name in (it.name, *it.makes):
                    self.known.setdefault((file.module, name), []).append(it)
                    self.known.setdefault((f"{file.module}.{it.name}", name), []).append(it)

    def found(self, module, name):
        """Yields the declarations that a name of a module means, including one that the module re-exports."""
        yield from self.known.get((module, name), [])
        file = self.of_module.get(module)
        if file and name in file.hands_on:
            self.taken.add((module, name))
            yield from self.found(*file.hands_on[name])

    def named_in(self, file, text):
        """Yields the declarations that a text of a file names."""
        tokens, names = {*TOKEN.findall(text)}, set()
        for token in tokens:
            first, _, rest = token.partition(".")
            names.add(first)
            if first in file.modules and rest:
                yield from self.found(file.modules[first], rest.partition(".")[0])
            if first == "Rattle":
                words = token.split(".")
                for count in range(3, len(words)):
                    yield from self.found(".".join(words[:count]), words[count])
        for crate, path in PATH.findall(text):
            *module, name = path.split("::")
            yield from self.found(f"Rattle.{file.crate if crate == 'crate' else crate}.{'.'.join(module)}", name)
        infix = {it for it in {*file.brings, *(it.name for it in file.declared)} if "◌" in it and {*it.split("◌")} - {""} <= tokens}
        for name in names | infix:
            if name in file.brings:
                yield from self.found(*file.brings[name])
            yield from self.known.get((file.module, name), [])

    def unused(self):
        """Yields the place and the name of each declaration that nothing uses, and of each that is re-exported for nothing."""
        home = {id(it): file for file in self.files for it in file.declared}
        waiting = [it for file in self.of_code for it in self.named_in(file, file.code)]
        waiting += [it for file in self.files for it in file.declared if it.is_used]
        used = set()
        while waiting:
            it = waiting.pop()
            if id(it) not in used:
                used.add(id(it))
                waiting += self.named_in(home[id(it)], NEWLINE.join(it.text))
        for file in self.files:
            for it in file.declared:
                if id(it) not in used:
                    yield f"crates/{file.crate}/{file.path}:{it.line}", it.name
            for name in file.hands_on:
                if (file.module, name) not in self.taken:
                    yield f"crates/{file.crate}/{file.path}:1", f"{name}, handed on"


# ---- What crates re-export.

PUBLIC = re.compile(r"^[ \t]*pub (?:const )?(?:fn|const|struct|enum|trait|type|static|union) (\w+)", re.M)


def paths_of(tree, before=()):
    """Yields the path and the name of each item that the tree of a `use` names."""
    head, brace, rest = tree.strip().partition("{")
    if not brace:
        path, _, name = head.partition(" as ")
        words = [*before, *path.strip().split("::")]
        words = words[:-1] if words[-1] == "self" else words
        yield words, name.strip() or words[-1]
        return
    before = [*before, *(it for it in head.strip().split("::") if it)]
    depth, part = 0, ""
    for letter in rest.rsplit("}", 1)[0] + ",":
        depth += (letter == "{") - (letter == "}")
        if letter != "," or depth:
            part += letter
            continue
        if part.strip():
            yield from paths_of(part, before)
        part = ""


def uses_of(code, here):
    """Yields for each `use` of code where it is, whether it is public, and the path and name of each item."""
    for found in re.finditer(r"^[ \t]*(pub(?:\(crate\))? )?use ([^;]*);", code, re.M):
        for path, name in paths_of(" ".join(found[2].split())):
            yield found.start(), found[1] == "pub ", absolute(path, here), name


def absolute(path, here):
    """Returns a path of a file's code from its crate on; `here` is the crate and the modules that the file is."""
    starts = {"crate": here[:1], "$crate": here[:1], "self": here, "super": here[:-1]}
    return [*starts.get(path[0], path[:1]), *path[1:]]


def without_comments(text):
    """Returns code with its comments and texts empty."""
    return re.sub(r"//[^\n]*|\"(?:[^\"\\]|\\.)*\"", "", text)


def modules_of(crate, path):
    """Returns the crate and the modules that a file of code is."""
    words = path.removeprefix("src/").removesuffix(".rt").split("/")
    return [crate, *(it for it in words if it not in ("lib", "main", "mod"))]


def inside(code, at, here):
    """Returns the modules that a place of a file is in."""
    found = [it for it in re.finditer(r"^pub mod (\w+) \{\n(?:[ \t][^\n]*\n|\n)*\}", code, re.M) if it.start() <= at < it.end()]
    return [*here, *(it[1] for it in found)]


def exports():
    """Returns the items of `inner` and `laws` by their paths; what each re-exports; and the paths that code names, each with the crates."""
    found, hands_on, users = {}, {}, {}
    for crate, path, text in files(".rt", "src"):
        here, code, names = modules_of(crate, path), without_comments(text), {}
        place = lambda at: f"crates/{crate}/{path}:{code.count(NEWLINE, 0, at) + 1}"
        is_export = here[1:2] in (["inner"], ["laws"])
        for at, is_public, full, name in uses_of(code, here):
            names[name] = full
            if is_export and is_public:
                own = (*inside(code, at, here), name)
                found[own], hands_on[own] = place(at), tuple(full)
            else:
                # what another public module re-exports belongs to the crate's surface
                users.setdefault(tuple(full), set()).add("" if is_public else crate)
        for it in PUBLIC.finditer(code if is_export else ""):
            found[(*inside(code, it.start(), here), it[1])] = place(it.start())
        for it in re.finditer(r"(?<![\w:])(\$?\w+)((?:::\w+)+)", code):
            rest = it[2].split("::")[1:]
            words = (*names.get(it[1], absolute([it[1]], here)), *rest)
            for count in range(2, len(words) + 1):
                # what a macro names is named where it is used
                users.setdefault(words[:count], set()).add("" if it[1] == "$crate" else crate)
    return found, hands_on, users


def promises():
    """Returns the functions with an `ensures` in public modules `laws`, by their paths."""
    law = re.compile(r"^pub fn (\w+)[^\n]*\n(?:[ )][^\n]*\n)*?    ensures ", re.M)
    sources = [*files(".rt", "src")]
    public = {crate for crate, path, text in sources if path == "src/lib.rt" and re.search(r"^pub mod laws;", text, re.M)}
    laws = ((crate, path, text) for crate, path, text in sources if crate in public and path.startswith("src/laws"))
    return {(*modules_of(crate, path), name) for crate, path, text in laws for name in law.findall(text)}


def unused_exports():
    """Yields the place and the name of each item of `inner` and `laws` that nothing uses."""
    found, hands_on, users = exports()
    promised, used, waiting = promises(), set(), []
    for path in found:
        own = {path[0]} if path[1] == "inner" else set()
        if users.get(path, set()) - own or path in promised:
            waiting.append(path)
    while waiting:
        path = waiting.pop()
        if path in found and path not in used:
            used.add(path)
            waiting.append(hands_on.get(path))
    yield from ((found[it], "::".join(it)) for it in found if it not in used)


def main():
    found = [*Names().unused(), *unused_exports()]
    keys = {f"{place.rpartition(':')[0]}: {name}" for place, name in found}
    for place, name in found:
        if f"{place.rpartition(':')[0]}: {name}" not in EXCEPTIONS:
            print(f"{place}: {name}")
    for key in EXCEPTIONS.keys() - keys:
        print(f"tools/unused.py: an exception that isn't found: {key}")
    print(f"{len(found)} found, {len(EXCEPTIONS)} exceptions")
    return 0 if keys == EXCEPTIONS.keys() else 1


if __name__ == "__main__":
    sys.exit(main())
