#!/usr/bin/env python3
"""Writes the tables of docs/GUARANTEES.md from docstrings and clauses, and those of docs/GLOSSARY.md from comments.

    tools/guarantees.py [--check]

The parts of the two pages between `<!-- guarantees: CRATE -->` or `<!-- glossary: CRATE -->` and `<!-- end -->` are
rewritten; all else in them is written by hand. With --check nothing is written.

GUARANTEES.md has each public call of a crate that has a clause: of what lib.rt re-exports, and of its modules `inner`,
`parts` and `laws`. Of the docstring it has the first paragraph, the paragraphs on what the call requires or doesn't promise,
and the errors. GLOSSARY.md has each definition that a clause of a public call names, or that such a definition names, and so
on, with the comment directly above it. One comment is for all definitions that follow it without an empty line, and for all
that are defined by each other.

The status is 1, after a line `FILE:LINE: ..` for each fault, if a call of the page has no docstring, if a definition of the
page has no comment, if a name in a table of GLOSSARY.md that is written by hand isn't that of a definition, if a crate has
no part in a page, or, with --check, if a page differs from the sources.
"""

import os
import re
import sys
from functools import lru_cache

sys.dont_write_bytecode = True
from definitions import CLAUSE, MEMBER, TOKEN, TOP, Antt, Declaration, Scope, code_of
from sources import crates_below
from unused import paths_of

PROGRAMS = ["etcs", "etcs_c", "etcs_codec"]  # the crates that they rest on are those that aren't of tests
MODULES = ["", "parts", "inner", "laws"]  # where a crate has what it hands on, in the order of the page
SHORT = 60  # a condition of at most this many characters is quoted
QUALIFIED = r'(?:const |unsafe |extern "C" )*fn'
FUNCTION = rf"(?:    )?(pub )?{QUALIFIED} (\w+)"
BODY = re.compile(r" *\{|.*[^}] \{$|.*\{\}$|.*;$")
# A clause that gives one part of a value, as `result ≡ self.now.d_link`.
READS = re.compile(r" *ensures \w* ?\{ result(\.now)? ≡ self(\.now)?\.(?!now\b)\w+(\.now)? \};?")
# What a paragraph of a docstring says that is on the page, wherever it is.
LIMITS = re.compile(r"\bmust\b|\bRequires\b|\bcaller owes\b|\b[Nn]o clause\b|n't promise|\bnot promised\b|\bpromised while\b")
KIT_TRAITS = {"Display": "output", "PartialEq": "eq", "Iterator": "next_gives"}  # each with the member that says what it does
GUARANTEES, GLOSSARY = "docs/GUARANTEES.md", "docs/GLOSSARY.md"
PART = re.compile(r"(<!-- (guarantees|glossary): (\w+) -->\n)(.*?)(<!-- end -->)", re.S)


# ---- What a crate hands on.


@lru_cache(maxsize=None)
def exports(crate):
    """Returns the names of its own that a crate hands on, each with its modules, none for what lib.rt has, and the files that it is
    from."""
    found = {}
    for module in MODULES:
        path = f"crates/{crate}/src/{module or 'lib'}.rt"
        code = next((it for it in code_of(crate) if it.path == path), None)
        within = module
        for line in statements(code.lines if code else []):
            if nested := re.match(r"pub mod (\w+) \{", line):
                within = "::".join(filter(None, (module, nested[1])))
            elif line == "}":
                within = module
            elif uses := re.match(r"\s*pub use ((?!etcs_|serde_)[^;]*);", line):
                for words, name in paths_of(uses[1]):
                    home = "/".join(it for it in words[:-1] if it not in ("crate", "self", "super"))
                    found.setdefault(name, []).append((within, f"crates/{crate}/src/{home}.rt"))
            elif own := re.match(r'pub (?:const |extern "C" )*(?:fn|struct|enum|trait) (\w+)', line):
                found.setdefault(own[1], []).append((within, path))
    return found


def module_of(crate, owner, name, path):
    """Returns the module of a crate that hands on a type, or a function of a file; None if there is none."""
    places = exports(crate).get(owner or name, [])
    return next((module for module, file in places if owner or file == path), None)


def statements(lines):
    """Yields lines, those of a `use` as one."""
    held = ""
    for line in lines:
        held = f"{held} {line.strip()}" if held else line
        if re.match(r"\s*pub use ", held) and not held.endswith(";"):
            continue
        yield held
        held = ""


@lru_cache(maxsize=None)
def aliases(crate):
    """Returns the public types of a crate that are others' with types given: the name, the other with them, and its crate."""
    lines = ((code, code.lines[at]) for code in code_of(crate) for at in code.heads)
    found = ((code, re.match(r"pub type (\w+) = ((\w+)<.*>);", line)) for code, line in lines)
    return [(it[1], it[2], code.crate_of(it[3])) for code, it in found if it]


class Call:
    """A public call with a clause, or a trait with a law: where it is, its name, its docstring, its clauses."""

    def __init__(self, crate, code, first, at, owner, name):
        self.crate, self.path, self.line, self.owner = crate, code.path, at + 1, owner
        self.module = module_of(crate, owner, name, code.path)
        # `impl Chain<Link>` is of the type of the name Linking
        given = re.match(r"impl (\w+<[\w, ]+>)", code.lines[first])
        shown = given and {text: name for name, text, _ in aliases(crate)}.get(given[1], given[1])
        self.name = "::".join(it for it in (self.module, shown or owner, name) if it)
        self.doc = docstring(code.lines, at)
        self.asks, self.gives, self.laws, self.terms, self.reads = [], [], [], [], False

    def order(self):
        """Returns what calls are sorted by."""
        return MODULES.index(self.module.split("::")[0]), self.path, self.line


def docstring(lines, at):
    """Returns the lines of the docstring of an item whose first line is at a place."""
    found = []
    while at > 0 and re.match(r"\s*(///|#\[|//)", lines[at - 1]):
        at -= 1
        if text := re.match(r"\s*/// ?(.*)", lines[at]):
            found.insert(0, text[1])
    return found


def calls_of(crate):
    """Returns the calls with a clause, and the traits with a law, that a crate hands on."""
    found = []
    for code in code_of(crate):
        for first, end in code.blocks(rf"impl|trait|{QUALIFIED}"):
            head = re.match(rf"(?:pub )?(?:(trait) |({QUALIFIED}) |impl(?:<.*?>)? )(\w+)(?!.* for )", code.lines[first])
            if not head or head[3] not in exports(crate):
                continue
            if head[1]:
                found += trait_of(crate, code, first, end, head[3])
            for at in range(first, end):
                line = re.match(FUNCTION, code.lines[at])
                owner = None if head[2] else head[3]
                if line and (head[1] or line[1]) and module_of(crate, owner, line[2], code.path) is not None:
                    found += call_of(crate, code, first, end, at, owner)
    return sorted(found, key=Call.order)


def call_of(crate, code, first, end, at, owner):
    """Yields the call at a line of a block if it has a clause."""
    body = next(i for i in range(at, end) if BODY.match(code.lines[i])) + 1
    clauses = [it for it in code.lines[at:body] if re.match(CLAUSE, it)]
    if not clauses:
        return
    call = Call(crate, code, first, at, owner, re.match(FUNCTION, code.lines[at])[2])
    for line in clauses:
        kind, name, text = re.match(r"\s+(requires|ensures) (\w*) ?\{ (.*) \};?$", line).groups()
        (call.asks if kind == "requires" else call.gives).append((name, text))
    head = code.lines[first] + " ".join(it for it in code.lines[at:body] if not re.match(CLAUSE, it))
    call.terms = [*code.terms(CLAUSE, first, body, at, {*re.findall(r"(\w+)\s*:", head), "self", "Self", "result"})]
    call.reads = bool(owner) and len(clauses) == 1 and bool(READS.fullmatch(clauses[0]))
    yield call


def trait_of(crate, code, first, end, name):
    """Yields a trait if it has laws: members that say something of the others."""
    members = {}
    for at in range(first, end):
        if found := re.match(r"    ghost (\w+): \{ (.*) \};$", code.lines[at]):
            members[found[1]] = found[2], at
    call = Call(crate, code, first, first, None, name)
    for it, (text, at) in members.items():
        names = {*re.findall(r"(?<![\w.])[a-z]\w*|\b[A-Z]+\b", text)} - {it}
        if ("≡" in text or names & {*members} or re.search(r"Self\.[a-z]", text)) and not text.endswith("Type 0"):
            call.laws.append((it, " ".join(docstring(code.lines, at))))
            bound = {*re.findall(r"(\w+)\s*:", code.lines[first]), "Self", *re.findall(r"type (\w+)", "\n".join(code.lines[first:end]))}
            call.terms += code.terms(rf" +ghost {it}: ", first, end, first, bound)
    if call.laws:
        yield call


# ---- The page of calls.


def paragraphs(doc):
    """Yields the paragraphs of a docstring without its code, each in one line; the items of a list with semicolons between them."""
    text = re.sub(r"^```.*?^```$", "", "\n".join(doc), flags=re.S | re.M)
    for part in filter(None, (it.strip() for it in re.split(r"\n\s*\n", text))):
        first, *items = re.split(r"^- ", part, flags=re.M)
        items = [" ".join(it.split()).rstrip(".;,") for it in items]
        yield " ".join(filter(None, [" ".join(first.split()), "; ".join(items) + "." * bool(items)]))


def promise(doc):
    """Returns a docstring as a cell: the first paragraph, those on what a call requires and doesn't promise, and the errors."""
    said, is_errors, is_all = [], False, True
    for number, text in enumerate(paragraphs(doc)):
        if text.startswith("# "):
            is_errors = text == "# Errors"
            said += ["*Errors:*"] * is_errors
        elif is_errors or number == 0 or LIMITS.search(text):
            said.append(text)
        else:
            is_all = False
    return cell(" ".join([*said, *["*More in the source.*"] * (not is_all)]))


def cell(text):
    """Returns text as the content of a cell: links of docstrings without their brackets, no bar."""
    text = re.sub(r"\[(`[^`\]]*`)\](?:\([^)]*\))?", r"\1", text)
    return text.replace("|", "\\|")


def clauses(call):
    """Returns the clauses of a call as a cell."""
    parts = []
    if call.gives:
        parts.append(", ".join(names_of(call.gives)))
    if call.laws:
        parts.append("ghost laws: " + "; ".join(f"`{it}`" + f" ({cell(said.rstrip('.'))})" * bool(said) for it, said in call.laws))
    if call.asks:
        texts = [name or (text if len(text) <= SHORT else "") for name, text in call.asks]
        parts.append("asks " + ", ".join(f"`{cell(it)}`" if it else "a condition" for it in texts))
    named = dict.fromkeys(it for it in call.terms if isinstance(it, Declaration))
    if named:
        parts.append("by " + ", ".join(map(link, named)))
    return "; ".join(parts)


def names_of(gives):
    """Returns the names of clauses, and how many have none."""
    names = [f"`{name}`" for name, _ in gives if name]
    count = len(gives) - len(names)
    return [*names, *["*unnamed*" if count == 1 else f"{count} *unnamed*"] * bool(count)]


def link(item):
    """Returns a definition with a link to its file's rows of the glossary, or to the file of a lemma or of proofs."""
    return f"[`{item.name}`]({f'GLOSSARY.md#{anchor(item.path)}' if is_defined(item) else f'../{item.path}'})"


def is_defined(item):
    """Returns whether the glossary may have an item: a definition of specs, but for laws."""
    return isinstance(item, Declaration) and "/specs/" in item.path and "/specs/laws/" not in item.path


def anchor(path):
    """Returns the anchor of a file of definitions in the glossary."""
    crate, _, file = path.removeprefix("crates/").removesuffix(".antt").split("/", 2)
    return f"{crate}-{file}".lower().replace("/", "-")


def intro(crate):
    """Returns the first paragraph of a crate's lib.rt."""
    code = next(it for it in code_of(crate) if it.path.endswith(("/src/lib.rt", "/src/main.rt")))
    said = [it[3:].strip() for it in code.lines if it.startswith("//!")]
    return cell(next(paragraphs(said)))


def guarantees(crate):
    """Returns the lines of a crate's section; none if it promises nothing."""
    calls = calls_of(crate)
    readers = {}
    for it in calls:
        readers.setdefault((it.module, it.owner), []).extend([it] * it.reads)
    lines = [f"## {crate}", "", intro(crate), "", "| call | promise | clauses |", "|---|---|---|"]
    for it in calls:
        if not it.reads or len(readers[it.module, it.owner]) == 1:
            lines.append(f"| [`{it.name}`](../{it.path}) | {promise(it.doc)} | {clauses(it)} |")
    for same in (it for it in readers.values() if len(it) > 1):
        owner = same[0].name.rpartition("::")[0]
        names = ", ".join(it.name.rpartition("::")[2] for it in same)
        lines.append(f"| [`{owner}::{{{names}}}`](../{same[0].path}) | Each returns one part of the value. | *unnamed* |")
    notes = [*names_of_others(crate), *implementations(crate)]
    return [*lines, *[""] * bool(notes), *notes] if calls else []


def names_of_others(crate):
    """Yields a line with the types of a crate that are others' under a name of its own."""
    found = {}
    for name, text, home in aliases(crate):
        found.setdefault(home, []).append(f"`{name}` is `{text}`")
    for home, names in found.items():
        place = "above" if home == crate else f"in [{home}](#{home})"
        yield f"{', '.join(names)}: the calls are {place}."


def kit_traits(crate):
    """Yields each trait of the kit that a public type of a crate has by a definition, the type, and what the definition names."""
    for code in code_of(crate):
        for first, end in code.blocks("impl"):
            head = re.match(r"impl(?:<.*?>)? (?:fmt::)?(\w+)(?:<.*?>)? for (\w+)", code.lines[first])
            if head and head[2] in exports(crate) and (member := KIT_TRAITS.get(head[1])):
                terms = [*code.terms(rf"    ghost {member} = ", first, end, first, [])]
                yield head[1], head[2], [it for it in terms if isinstance(it, Declaration)] if member == "output" else []


def implementations(crate):
    """Yields a line with the traits that public types of a crate implement, each with the types."""
    found, same, texts = {}, {}, {}
    for code in code_of(crate):
        for first, _ in code.blocks("impl"):
            head = re.match(r"impl(?:<.*?>)? (\w+)(?:<.*?>)? for (\w+)", code.lines[first])
            if head and head[2] in exports(crate) and head[1] in exports(code.crate_of(head[1])):
                found.setdefault(head[1], {})[f"`{head[2]}`"] = None
    for trait, types in found.items():
        same.setdefault(tuple(types), []).append(f"`{trait}`")
    for trait, name, terms in kit_traits(crate):
        texts.setdefault(trait, []).append(f"`{name}`" + f" ({', '.join(map(link, terms))})" * bool(terms))
    said = [f"{', '.join(traits)}: {', '.join(types)}" for types, traits in same.items()]
    said += [f"`{trait}`: {', '.join(types)}" for trait, types in texts.items()]
    if said:
        yield f"Implementations, each proved: {'; '.join(said)}."


# ---- The page of definitions.


@lru_cache(maxsize=None)
def named_by(item):
    """Returns the definitions that a definition names."""
    scope, found = Scope(item.file, item.file.uses, []), {}
    for _, lines in item.parts():
        for word in (it for line in lines for it in TOKEN.findall(line)):
            if word[:2] != "--" and word[0] not in ".\"":
                found[meaning(scope, word)] = None
    return [it for it in found if it and it is not item]


def meaning(scope, word):
    """Returns the definition that a word means, or None."""
    try:
        item = scope.meaning(word)[1]
    except (LookupError, OSError):  # one of the kit, or what a trait has
        return None
    return item if is_defined(item) else None


@lru_cache(maxsize=None)
def cited():
    """Returns the definitions that clauses of public calls cite, by themselves or by way of others, each file's in their order."""
    crates, seen = crates_below(PROGRAMS)[0], set()
    waiting = [it for crate in crates for call in calls_of(crate) for it in call.terms]
    waiting += [it for crate in crates for _, _, terms in kit_traits(crate) for it in terms]
    waiting = [*filter(is_defined, waiting)]
    while waiting:
        item = waiting.pop()
        if item not in seen:
            seen.add(item)
            waiting += named_by(item)
    found = {}
    for item in sorted(seen, key=lambda it: (it.path, it.line)):
        found.setdefault(item.path, []).append(item)
    return found


@lru_cache(maxsize=None)
def text_of(path):
    with open(f"{TOP}/{path}", encoding="utf-8") as file:
        return file.read().splitlines()


def file_of(path):
    return Antt("Rattle." + path.removeprefix("crates/").removesuffix(".antt").replace("/", "."))


def comment_above(path, line):
    """Returns the comment directly above a line of a file, with its own line; or nothing, with the line at which it would be."""
    lines, at, said = text_of(path), line - 1, []
    while at and re.match(r"\s*(infix|(\w+ )*mutual$)", lines[at - 1]):
        at -= 1
    while at and re.match(r"\s*-- (?!--)", lines[at - 1]):
        at -= 1
        said.insert(0, lines[at].strip().removeprefix("-- "))
    return " ".join(said), at


def comment_of(item, before):
    """Returns the comment of a definition and its line, given those of the definition before it: it has the same one if no line
    between them is empty, or if they are defined by each other."""
    lines, (said, at) = text_of(item.path), comment_above(item.path, item.line)
    if said or not at:
        return said, at
    if lines[at - 1].strip():
        return before
    head = next((i for i in range(item.line - 1, 0, -1) if lines[i - 1][:1].strip()), 0) if item.indent else 0
    return comment_above(item.path, head) if head and lines[head - 1].endswith("mutual") else ("", item.line)


def comments(path):
    """Returns the comment of each definition of a file, with its line."""
    found, last = {}, ("", 0)
    for item in file_of(path).declared.values():
        found[item] = last = comment_of(item, last)
    return found


def shape(item):
    """Returns the name of a definition with its variables, if it has one equation, or a type with what it is of."""
    if item.is_type:
        given = re.findall(r"\(([^()]*?) :", item.lines[0].partition(item.name)[2].rpartition(" : ")[0])
        return " ".join([item.name, *given])
    sides = [lines[0].partition(" =")[0].strip() for first, lines in item.parts() if first != item.line]
    side = re.sub(r"\{[^{}]*\} ?", "", sides[0]).strip() if len(sides) == 1 else ""
    return side if re.fullmatch(r"[^\W\d][\w']*( [^\W\d][\w']*)*|\S+ \S+ \S+", side) and len(side) <= 48 else item.name


def members(item):
    """Yields the constructors or fields of a type that have a comment, with it."""
    said = []
    for line in item.lines[1:] if item.is_type else []:
        if line.strip().startswith("-- "):
            said.append(line.strip().removeprefix("-- "))
        elif (found := MEMBER.match(line)) and said:
            yield found[1], " ".join(said)
            said = []


def glossary(crate, missing):
    """Returns the lines of a crate's section; none if no public clause cites a definition of it. Notes those without a comment."""
    lines = []
    for path, items in cited().items():
        if path.split("/")[1] != crate:
            continue
        said, rows = comments(path), {}
        for it in items:
            if said[it][0]:
                rows.setdefault(said[it], []).append(it)
            else:
                missing.append(f"{path}:{it.line}: {it.name} has no comment")
        first = re.match(r"((?:-- .*\n)*)", "\n".join(text_of(path)))[1].replace("-- ", "").replace("\n", " ").strip()
        lines.append(f'| <a id="{anchor(path)}"></a>**[{path.split("/specs/")[1]}](../{path})** | {cell(first)} |')
        for (text, _), same in rows.items():
            lines.append(f"| {', '.join(f'`{shape(it)}`' for it in same)} | {cell(text)} |")
            lines += [f"| `{name}` of `{it.name}` | {cell(text)} |" for it in same for name, text in members(it)]
    return [f"## {crate}", "", "| name | what it is |", "|---|---|", *lines] if lines else []


def unknown(text):
    """Yields the names in the first column of the tables that are written by hand that no definition has."""
    folders = (f"{TOP}/crates/{it}/specs" for it in crates_below(PROGRAMS)[0])
    files = (f"{at}/{it}" for folder in folders for at, _, names in os.walk(folder) for it in names)
    paths = [os.path.relpath(it, TOP) for it in files]
    items = [it for path in paths for it in file_of(path).declared.values()]
    known = {name for it in items for name in (it.name, *it.members())}
    for number, line in enumerate(PART.sub(lambda it: "\n" * it[0].count("\n"), text).split("\n"), 1):
        for name in re.findall(r"`([^`]+)`", line.split(" | ")[0]) if line.startswith("| `") else ():
            if not (any(it.endswith(f"/{name}") or f"/{name}/" in it for it in paths) or name.split()[0] in known):
                yield f"{GLOSSARY}:{number}: no definition is {name}"


# ---- The two pages.


def undocumented():
    """Yields a line for each public call with a clause that has no docstring."""
    for crate in crates_below(PROGRAMS)[0]:
        for it in calls_of(crate):
            if not promise(it.doc):
                yield f"{it.path}:{it.line}: {it.name} has no docstring"


def page(path, makers):
    """Returns a page as it is and as it should be, and what its marks lack."""
    with open(f"{TOP}/{path}", encoding="utf-8") as file:
        old = file.read()
    made = {it: makers(it) for it in crates_below(PROGRAMS)[0]}
    marked = [it[3] for it in PART.finditer(old)]
    faults = [f"{path}:1: no part for {it}" for it in made if made[it] and it not in marked]
    new = PART.sub(lambda it: it[1] + "".join(f"{line}\n" for line in made[it[3]]) + it[5], old)
    return old, new, faults


def main(words):
    if words not in ([], ["--check"]):
        sys.exit(__doc__)
    faults = [*undocumented()]
    for path, makers in ((GUARANTEES, guarantees), (GLOSSARY, lambda it: glossary(it, faults))):
        old, new, lacking = page(path, makers)
        faults += [*lacking, *(unknown(old) if path == GLOSSARY else ())]
        if words and new != old:
            faults.append(f"{path}:1: differs from the sources: run tools/guarantees.py")
        elif new != old:
            with open(f"{TOP}/{path}", "w", encoding="utf-8") as file:
                file.write(new)
    calls, definitions = sum(len(calls_of(it)) for it in crates_below(PROGRAMS)[0]), sum(map(len, cited().values()))
    print(*faults, f"{calls} calls, {definitions} definitions, {len(faults)} faults", sep="\n")
    return 1 if faults else 0


if __name__ == "__main__":
    sys.exit(main(sys.argv[1:]))
