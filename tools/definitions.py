#!/usr/bin/env python3
"""Prints the definitions that the contracts of public calls rest on, each after those that it names.

    tools/definitions.py [--count] [--clauses] [--most N] (--headline | PART | CALL) ..
    tools/definitions.py --page [--check]

A CALL is `etcs_telegram::TelegramReader::feed`, `etcs_stream::run`, or a method of a `pub type`, as
`etcs_radio::MessageReader::feed`; a PART is one of `pairs`, `c`, `values`, `reasons` and `others`, the parts of
docs/AUDIT.md, and stands for its calls; --headline is `pairs values`. It follows the names in `requires` and `ensures`, in
the ghost members of types and traits in the call's signature that these name, in `Value` and `view` of the types' `impl
Model` (--clauses leaves these two out), in the ghost members of the types that a `pub type` gives (`H.Packet.form` where H
is `RadioHead`), and in the definitions of crates/*/specs; not invariants, not the `view` of a reader, names of the kit, and
items of the code, which are listed at the end, with the members of types that are the caller's to give. A line has a file
and line, a name and how many lines it has without comments; the last one, which --count prints alone, has the counts. The
status is 1 if a name isn't found, if a contract rests on a lemma (it lies in specs/laws or proofs, or is neither `abbrev`
nor `unfoldable` nor a type), or if there are more than N definitions.

--page writes what is between each of these lines of docs/AUDIT.md and `<!-- end -->`; with --check nothing is written, and
the status is 1 if the page no longer matches the sources:

    <!-- quoted PART: FILE .. -->       the definitions of the part in these files, with their text
    <!-- listed PART: FILE .. -->       the same without their text
    <!-- types PART: -->                the types of the code and ghost members that the part rests on
    <!-- shown PART: CRATE::TYPE .. --> the same, with the text of the types but `Var`; and these further types
    <!-- clauses: CALL .. -->           signatures and clauses
    <!-- note: CALL TEXT -->            the text, if there is such a call
    <!-- parts: -->                     how many definitions each part has
    <!-- counts: CALL .. -->            how many definitions each call rests on, and how many of them its part has new

A part has the definitions that its calls rest on and no part before it has. A FILE is `etcs_bits/specs/Bits.antt`, or a
crate, or `*` for all crates, which stand for the files that the part names nowhere, in the order of reading. A CALL with a
`?` after it need not be there yet. Beside each file are eight digits of a hash (sha256) of its definitions, or types, in
the part: of their text without comments and blanks, and of where the names in it are from. Each definition of a part has
to be on the page, once and after those that it names, the clauses of each of its calls too, and no type but of `others`
may be the caller's to give.
"""

import difflib
import hashlib
import os
import re
import sys
from collections import namedtuple
from functools import lru_cache
from graphlib import TopologicalSorter
from itertools import chain

TOP = os.path.dirname(os.path.dirname(os.path.realpath(__file__)))
# The parts of the page, in its order: what each is called there, and its calls. One with `?` need not be there yet.
PARTS = {
    "pairs": ("1: items as pairs", "etcs_text::read_pairs etcs_text::write_pairs"),
    "c": ("1: C's four calls", "etcs_c::etcs_check etcs_c::etcs_fields etcs_c::etcs_fields_before etcs_c::etcs_from_fields"),
    "values": (
        "2: typed values",
        """
        etcs_telegram::TelegramReader::new etcs_telegram::TelegramReader::feed etcs_telegram::TelegramReader::take
        etcs_telegram::Telegram::encode_into etcs_telegram::Telegram::encode etcs_telegram::laws::round_trip
        etcs_radio::MessageReader::new etcs_radio::MessageReader::feed etcs_radio::MessageReader::take
        etcs_radio::Message::encode etcs_radio::laws::round_trip
        etcs_train::TrainReader::new etcs_train::TrainReader::feed etcs_train::TrainReader::take
        etcs_train::TrainMessage::encode etcs_train::laws::round_trip
        etcs_text::EntryReader::new etcs_text::EntryReader::feed etcs_text::EntryReader::next
        etcs_text::same_pairs etcs_text::laws::encoded_pairs etcs_text::laws::one_item
        """,
    ),
    "reasons": ("3: why a bit is refused", "etcs_reasons::why"),
    "others": (
        "3: groups, text, JSON, runs",
        """
        etcs_telegram::TelegramReader::held etcs_telegram::TelegramView::new etcs_group::Assembly::add
        etcs_group::Assembly::message etcs_text::show_lines etcs_json::to_value etcs_json::from_value etcs_stream::run
        etcs_log::run_log etcs_explain::explain etcs_places::places etcs_blank::blank etcs_c::etcs_places
        """,
    ),
}
# Their `view` isn't followed: with any other their clauses would say the same of what a caller sees.
READERS = "TelegramReader ReaderOf ItemReader EntryReader".split()
NAME = r'[^\s(){}.;,@"«»]+'
TOKEN = re.compile(rf'"(?:\\.|[^"\\])*"|(?<!\S)--.*|⟦.*?⟧|{NAME}(?:\.{NAME})*|\.{NAME}|\S')
SIGNATURE = re.compile(rf"( *)((?:(?:unfoldable|abbrev|pub|data|record) )*)({NAME})(?: [({{][^=]*[)}}])? :(?: |$)")
MEMBER = re.compile(rf"\s+(?:pub )?({NAME}) :")
BINDER = re.compile(r"λ (.*?) \. |let (.*?) [:=] |[\[|] ([^\[|]*?) ↦ |[({] ([^(){}]*?) : ")
WORDS = set("Type Unit tt ⊥ absurd × → = : | λ ↦ [ ] _ let in as elim record data where Ok Err Some None ∥ ∥₁".split())
WORDS |= set("unfoldable abbrev pub String".split())
CodeItem = namedtuple("CodeItem", "path line name")
Given = namedtuple("Given", "name")  # a member of a type that the caller gives
Said = namedtuple("Said", "path line name text")  # a type of the code, or a ghost member, with its text
place = "{0.path}:{0.line}: {0.name}".format
CLAUSE = r"\s+(?:requires|ensures)\b"


class Declaration:
    """A definition, a type or a lemma of an antt file."""

    def __init__(self, file, line, signature, module):
        self.file, self.path, self.line, self.lines, self.module = file, file.path, line, [signature.string], module
        self.indent, self.marks, self.name = len(signature[1]), signature[2].split(), signature[3]
        self.is_type = bool({"data", "record"} & set(self.marks))

    def size(self):
        """Returns how many lines it has without comments, including that of its fixity."""
        said = [it for it in self.lines if it.strip() and not it.strip().startswith("--")]
        return len(said) + (self.name in self.file.fixities)

    def said(self):
        """Returns its text without comments and blanks, with that of the module around it, and where its names are from."""
        lines = [*([self.module[1]] if self.module else []), self.file.fixities.get(self.name, ""), *self.lines]
        tokens = [it for line in lines for it in TOKEN.findall(line) if it[:2] != "--"]
        words = {part for it in tokens for part in (it, *it.split("."))}
        items, modules = self.file.uses
        used = [f"{it} {items[it]}" for it in items if words & {it, *it.split("◌")}]
        return " ".join(tokens + sorted(used + [f"{it} {modules[it]}" for it in modules if it in words]))

    def members(self):
        """Returns the names of its constructors or fields."""
        return [it[1] for it in map(MEMBER.match, self.lines[1:]) if it and self.is_type]

    def parts(self):
        """Yields its signature and each of its clauses, with the first line."""
        head = re.compile(" " * self.indent + r"[^\s}]")
        starts = [i for i, it in enumerate(self.lines) if i == 0 or head.match(it) and not self.is_type]
        for first, end in zip(starts, [*starts[1:], len(self.lines)]):
            if not self.lines[first].strip().startswith(("unfolding ", "--")):
                yield self.line + first, self.lines[first:end]


@lru_cache(maxsize=None)
class Antt:
    """An antt file of the repository: what its `use` lines bring, and its declarations."""

    def __init__(self, module):
        self.path = "/".join(["crates", *module.split(".")[1:]]) + ".antt"
        self.declared, self.fixities, now, module, marks = {}, {}, None, None, []
        lines = self.lines = open(f"{TOP}/{self.path}", encoding="utf-8").read().splitlines()
        self.uses = brought(lines)
        for number, line in enumerate(lines, 1):
            indent = len(line) - len(line.lstrip())
            if line.startswith("module _ "):
                module = (number, line.removeprefix("module _ ").removesuffix(" where"))
            elif indent == 0 and line:
                module, marks = None, line.split()[:-1] if line.endswith(" mutual") else []
            if line.lstrip().startswith(("use ", "pub use ", "module ", "infix")) or line.endswith(" mutual"):
                self.fixities |= {line.split()[-1]: line} if line.startswith("infix") else {}
                now = None
            elif (found := SIGNATURE.match(line)) and (now is None or indent <= now.indent):
                now = self.declared[found[3]] = Declaration(self, number, found, module)
                now.marks += marks
            elif now:
                now.lines.append(line)

    def find(self, name):
        """Returns the declaration of a name or of a type with such a constructor, or None."""
        types = (it for it in self.declared.values() if "data" in it.marks and name in it.members())
        return self.declared.get(name) or next(types, None)


def brought(lines):
    """Returns the items and the modules that `use` lines bring, each by its name here."""
    items, modules = {}, {}
    for line in lines:
        found = re.match(r"\s*(?:pub |ghost )?use (Rattle\.[^\s{;]+?)(?:\.\{([^}]*)\}|(?: as (\S+?))?);?$", line)
        if found and found[2] is None:
            modules[found[3] or found[1].split(".")[-1]] = found[1]
        for leaf in filter(None, (it.strip() for it in (found and found[2] or "").split(","))):
            path, _, name = leaf.partition(" as ")
            module, _, item = f"{found[1]}.{path}".rpartition(".")
            items[name or item] = (module, item)
    return items, modules


@lru_cache(maxsize=None)
def found_in(module, name):
    """Returns what a module's name means: a declaration, a type of the code, or None for one of the kit."""
    crate, *parts = module.split(".")[1:]
    if not os.path.isdir(f"{TOP}/crates/{crate}"):
        return None
    if parts[:2] == ["specs", "declared"]:
        item = code_item(crate, next(it for it in [*parts[2:], name] if it[0].isupper()))
    else:
        passed_on = Antt(module).uses[0].get(name)
        item = found_in(*passed_on) if passed_on else Antt(module).find(name)
    if item is None:
        raise LookupError(f"{module}: no {name}")
    return item


class Scope:
    """What names mean at some lines of a file: what `use` lines bring, the file's own, and variables."""

    def __init__(self, file, uses, bound):
        self.file, self.items, self.modules, self.bound = file, *uses, set(bound)
        names = [*self.items, *file.declared]
        self.operators = {part: it for it in names for part in it.split("◌") if part not in ("", it)}

    def meaning(self, word):
        """Returns whether a word is known, and what it means: None for those of the kit and of the language."""
        head, *rest = word.split(".")
        name = self.operators.get(head.replace("◌", ""), head)
        if head == "Rattle":
            return True, found_in(*word.rsplit(".", 1))
        if name in self.items:
            return True, found_in(*self.items[name])
        if rest and head in self.modules:
            return True, found_in(self.modules[head], rest[0])
        if item := self.file.find(name):
            return True, item
        return name in WORDS or bool(re.match(r'["\d(){};,.@«»⟦]', word)), None

    def variables(self, pattern):
        """Returns the variables of a pattern: no constructors, and none of the kit's names."""
        for word in re.sub(r" : [^)}]*", " ", pattern).split():
            known, item = self.meaning(word)
            if not known or isinstance(item, Declaration) and word == item.name:
                yield word

    def meanings(self, first, lines, is_clause=False):
        """Yields what the names of a term, or of a clause with its left side, mean."""
        placed = [(it, first + i) for i, line in enumerate(lines) for it in TOKEN.findall(line) if it[:2] != "--"]
        text = " ".join(it for it, _ in placed)
        bound = self.bound | {it for found in BINDER.findall(text) for it in self.variables("".join(found))}
        if is_clause:
            bound |= set(self.variables(text.partition(" = ")[0]))
        for (word, line), (follows, _) in zip(placed, placed[1:] + [("", 0)]):
            if word[0] == "." and len(word) > 1 or word.split(".")[0] in bound or follows == "=":
                continue
            known, item = self.meaning(word)
            if not known:
                raise LookupError(f"{self.file.path}:{line}: {word} isn't found")
            if item:
                yield item


class Code:
    """A file of the code, in the layout of rt fmt, which gives a clause one line."""

    def __init__(self, path):
        self.path, self.declared = os.path.relpath(path, TOP), {}
        self.lines = open(path, encoding="utf-8").read().splitlines()
        self.heads = [at for at, it in enumerate(self.lines) if it[:1].isalpha()]

    def blocks(self, head):
        """Yields the first line and the end of each item whose first line begins so."""
        begins = re.compile(rf"(?:pub(?:\(crate\))? )?(?:{head})\b")
        for first in self.heads:
            if begins.match(self.lines[first]):
                ends = (i for i in range(first, len(self.lines)) if re.match(r"\}|\{\}|\S.*(?:;|\{\})$", self.lines[i]))
                yield first, next(ends, first) + 1

    def find(self, name):
        """Returns the type or constant of the repository's code that a name of the code means, or None."""
        return re.fullmatch(r"[A-Z]\w*", name) and code_item(self.crate_of(name), name)

    def crate_of(self, name):
        """Returns the crate that a name of this file is from: its own if no other is given."""
        uses = re.findall(r"^(?:pub )?use (?!crate|self|super)(\w+)::([^;]*);", "\n".join(self.lines), re.M)
        found = (it for it, rest in uses if name in re.findall(r"\w+", rest) and os.path.isdir(f"{TOP}/crates/{it}"))
        return next(found, self.path.split("/")[1])

    def terms(self, head, first, end, at, bound, given=()):
        """Yields the meanings of the clauses or ghost members with such heads from the line `at` of a block on, and of
        the members of the types that the block's type is given."""
        outside = [it for it in self.lines if not it.startswith(" ")]
        ghosts = re.findall(r"^    ghost (\w+):", "\n".join(self.lines[first:end]), re.M)
        parameters = [*parameters_of(self.lines[first]), *parameters_of(self.lines[at].strip())]
        types = dict(zip(parameters, given))
        scope = Scope(self, brought(outside + self.lines[first:end]), {*bound, *ghosts, *parameters})
        for number in range(at, end):
            if found := re.match(rf"(?:{head})[^{{]*\{{(.*)\}};?$", self.lines[number]):
                yield from scope.meanings(number + 1, [found[1]])
                if member := re.match(r" +ghost (\w+)", self.lines[number]):
                    yield Said(self.path, number + 1, member[1], self.lines[number])
                for name, path in re.findall(rf"(?<![\w.])({'|'.join(parameters) or '(?!)'})\b((?:\.\w+)*)", found[1]):
                    yield from members(*types[name], path.split(".")[1:]) if name in types else [Given(name + path)] * bool(path)


@lru_cache(maxsize=None)
def code_of(crate):
    """Returns the files of a crate's code; none for a library that isn't of this repository."""
    found = (f"{place}/{it}" for place, _, names in os.walk(f"{TOP}/crates/{crate}/src") for it in names)
    return [Code(it) for it in sorted(found) if it.endswith(".rt")]


@lru_cache(maxsize=None)
def code_item(crate, name):
    """Returns a type or constant of a crate's code, or None."""
    head = f"(?:struct|enum|type|const|static) {re.escape(name)}"
    return next((CodeItem(it.path, first + 1, name) for it in code_of(crate) for first, _ in it.blocks(head)), None)


def parameters_of(head):
    """Yields the names of the types and constants that the first line of an `impl` or a function is over."""
    found, depth, text = re.match(r"(?:pub(?:\(crate\))? )?(?:impl|(?:const |extern \"C\" )?fn \w+)<", head), 1, ""
    for it in head[found.end() :] if found else "":
        depth += {"<": 1, ">": -1}.get(it, 0)
        if depth == 0:
            break
        text += it if depth == 1 else ""
    yield from re.findall(r"(?:^|, )(?:const )?(\w+)", text)


@lru_cache(maxsize=None)
def alias_of(crate, name):
    """Returns the crate and the name of the type that a `pub type` is of, and those of each that it gives; else the two, and none."""
    for code in code_of(crate):
        for found in filter(None, (re.match(rf"pub type {name} = (\w+)<([\w, ]*)>;", code.lines[it]) for it in code.heads)):
            return (code.crate_of(found[1]), found[1]), [(code.crate_of(it), it) for it in found[2].split(", ")]
    return (crate, name), []


def members(crate, name, path):
    """Yields what a type means, or the ghost member at the end of a path over types that its implementations name."""
    if not path:
        return (yield code_item(crate, name))
    blocks = [(code, *it) for code in code_of(crate) for it in code.blocks(rf"impl .* for {name}")]
    for code, first, end in blocks:
        for found in filter(None, (re.match(rf"    type {path[0]} = (\w+);", it) for it in code.lines[first:end])):
            return (yield from members(code.crate_of(found[1]), found[1], path[1:]))
        if len(path) == 1 and re.search(rf"^    ghost {path[0]} = {{.*}};$", "\n".join(code.lines[first:end]), re.M):
            return (yield from code.terms(f"    ghost {path[0]} = ", first, end, first, []))
    raise LookupError(f"{crate}: {name} has no member {'.'.join(path)}")


@lru_cache(maxsize=None)
def shown_by(item):
    """Returns the text of a type of the code, what its `Value` and `view` mean, and the types that are in it."""
    crate = item.path.split("/")[1]
    (home, name), given = alias_of(crate, item.name)
    found = [code_item(*it) for it in [(home, name), *given] if given]
    if name not in READERS:
        found.append(said_of(item))
    for code in code_of(home):
        for first, end in code.blocks(rf"impl(?:<.*?>)? Model for {name}"):
            shown = "Value" if name in READERS else "Value|view"
            found += [it for it in code.terms(rf" +ghost (?:{shown}) = ", first, end, first, []) if not isinstance(it, Given)]
        for first, end in [] if name in READERS else code.blocks(rf"(?:struct|enum) {name}"):
            said = [re.sub(r"^ +[A-Z]\w*|//.*", "", it) for it in code.lines[first:end]]
            types = dict.fromkeys(re.findall(r"\b[A-Z]\w*[a-z]\w*", " ".join(said)))
            found += filter(None, (code_item(code.crate_of(it), it) for it in types if it != name))
    return found


def lines_of(item):
    """Returns the lines of a type or constant of the code."""
    code = next(it for it in code_of(item.path.split("/")[1]) if it.path == item.path)
    return code.lines[item.line - 1 : next(end for first, end in code.blocks(r"\w+") if first == item.line - 1)]


def said_of(item):
    """Returns a type or constant of the code with its text, without comments and attributes."""
    said = (re.sub(r"^ *(//|#\[).*", "", it) for it in lines_of(item))
    return Said(item.path, item.line, item.name, "\n".join(filter(None, said)))


def functions_of(call):
    """Returns of each function of a call's name its file, its block and its line, and its type or trait."""
    crate, *path, name = call.split("::")
    owner = path.pop() if path and path[-1][0].isupper() else None
    (crate, owner), _ = alias_of(crate, owner)
    function = rf"(?:pub(?:\(crate\))? )?(?:const |extern \"C\" )?fn {name}\b"
    return [
        (code, first, end, at, owner)
        for code in code_of(crate)
        if not path or code.path.endswith("/".join(["src", *path]) + ".rt")
        for first, end in code.blocks(rf"impl(?:<.*?>)? (?:.* for )?{owner}|trait {owner}" if owner else function)
        for at in range(first, end)
        if re.match(("    " if owner else "") + function, code.lines[at])
    ]


def function_of(call):
    """Returns the one function of a call."""
    found = functions_of(call)
    if len(found) != 1:
        sys.exit(f"{call}: {len(found)} functions of that name")
    return found[0]


def named_by(call, clauses_alone):
    """Yields the definitions and items of the code that a call's clauses, and members of its types and traits, name."""
    code, first, end, at, owner = function_of(call)
    body = next(i for i in range(at, end) if re.match(r" *\{|.*[^}] \{$|.*\{\}$|.*;$", code.lines[i])) + 1
    head = code.lines[first] + " ".join(it for it in code.lines[at:body] if not re.match(CLAUSE, it))
    clauses = [it.partition("{")[2] for it in code.lines[at:body] if re.match(CLAUSE, it)]
    if not clauses:
        sys.exit(f"{code.path}:{at + 1}: {call} has no clauses of its own")
    parameters = [*parameters_of(code.lines[first])]
    bound = {*re.findall(r"(\w+)\s*:", head), *parameters, *parameters_of(code.lines[at].strip()), "self", "Self", "result"}
    _, given = alias_of(*call.split("::")[:2])
    yield from code.terms(CLAUSE, first, body, at, bound, given)
    named = {*re.findall(r"\w+", " ".join(clauses)), *([] if clauses_alone else ["Value", "view"])}
    for name in sorted({*re.findall(r"\b[A-Z]\w*", head), owner} - {None, *bound}):
        followed = "|".join(named - ({"view"} if name in READERS else set()))
        for other in code_of(code.crate_of(name)):
            for block in other.blocks(rf"trait {name}|impl(?:<.*?>)? .* for {name}"):
                given_here = given if f"{name}<{', '.join(parameters)}>" in head else ()
                yield from other.terms(rf" +ghost (?:{followed})(?:: | = )", *block, block[0], bound, given_here)


@lru_cache(maxsize=None)
def meanings_of(item):
    """Returns what the names of a definition mean."""
    scope, found = Scope(item.file, item.file.uses, item.members() if "record" in item.marks else []), []
    if item.module:  # what the module around it is of, which its parts name too
        first, text = item.module
        found += scope.meanings(first, [text])
        scope.bound |= {it for names in re.findall(r"[({]([^(){}]*?) :", text) for it in names.split()}
    return found + [it for first, lines in item.parts() for it in scope.meanings(first, lines, first != item.line)]


class Reached:
    """The definitions that are reached, which files name which, the types of the code, and what is refused."""

    def __init__(self, clauses_alone=False):
        self.seen, self.names, self.types, self.refused, self.given, self.said = {}, {}, {}, {}, set(), {}
        self.clauses_alone = clauses_alone

    def visit_all(self, items, user=None):
        """Visits what names mean; if one isn't found, notes that."""
        try:
            for item in items:
                self.visit(item, user)
        except (LookupError, OSError) as fault:
            self.refused[f"{place(user) if user else 'a clause'}: {fault}"] = None

    def visit(self, item, user):
        """Visits a definition and those that it names."""
        if isinstance(item, Given):
            return self.given.add(item.name)
        if isinstance(item, Said):
            return self.said.setdefault(item)
        if isinstance(item, CodeItem):
            if item not in self.types:
                self.types[item] = None
                self.visit_all([] if self.clauses_alone else shown_by(item))
            return
        self.names.setdefault(item.path, {})
        if user and user.path != item.path:
            self.names[user.path][item.path] = None
        if not {*item.marks} - {"pub"} or re.search(r"/(specs/laws|proofs)/", item.path):
            self.refused[f"{place(user) if user else 'a clause'} names {place(item)}, a lemma or among lemmas"] = None
        elif item not in self.seen:
            self.seen[item] = None
            self.visit_all(chain.from_iterable(map(meanings_of, [item])), item)

    def in_order(self):
        """Returns the definitions, each after those that it names: by files, and by lines in a file."""
        order = {path: at for at, path in enumerate(TopologicalSorter(self.names).static_order())}
        return sorted(self.seen, key=lambda it: (order[it.path], it.line))


# ---- The page.

PAGE = f"{TOP}/docs/AUDIT.md"
MARK = re.compile(r"(<!-- (\w+)(?: (\w+))?:([^>\n]*) -->\n)(.*?)(<!-- end -->)", re.S)
LONG = 100  # the text of a definition of more lines is cut short, but for those of the first part


def calls_of(name):
    """Returns the calls of a part, or the call of this name; none if it need not be there and isn't."""
    calls = PARTS[name][1].split() if name in PARTS else [name]
    return [it.rstrip("?") for it in calls if it[-1] != "?" or functions_of(it[:-1])]


@lru_cache(maxsize=None)
def reached_by(*names):
    """Returns what parts or calls rest on."""
    reached = Reached()
    for call in chain.from_iterable(map(calls_of, names)):
        reached.visit_all(named_by(call, False))
    return reached


def link(path, line):
    """Returns a link to a line of a file."""
    return f"[{path.removeprefix('crates/')}:{line}](../{path}#L{line})"


def digest(texts):
    """Returns eight digits of a hash of texts."""
    return hashlib.sha256(" ".join(" ".join(it.split()) for it in texts).encode()).hexdigest()[:8]


def counted(found):
    """Returns how many definitions, lines and files there are."""
    return f"{len(found)} | {sum(it.size() for it in found):,} | {len({it.path for it in found})} |"


def quote(found, most):
    """Yields the text of definitions of a file, with the comments above them and the module around them."""
    module, lines = None, found[0].file.lines
    for at, it in enumerate(found):
        first = it.line - 1
        while re.match(r" *-- (?!-- )", lines[first - 1]):
            first -= 1
        if at:
            yield ""
        if it.module and it.module != module:
            yield f"module _ {it.module[1]} where"
        module, said = it.module, re.sub(r"(\n *(--.*)?)+\Z", "", "\n".join(it.lines)).split("\n")
        yield from lines[first : it.line - 1] + (said if it.size() <= most else [*said[:4], f"-- and {len(said) - 4} more lines"])


def clauses(calls):
    """Yields the signatures and clauses of calls, each call with its file and line."""
    for call in chain.from_iterable(map(calls_of, calls)):
        code, _, _, at, owner = function_of(call)
        yield from ["", f"`{call}`, {link(code.path, at + 1)}:", "", "```text"]
        for line in code.lines[at:]:
            if not re.match(CLAUSE, line) and line.strip() in ("{", "{}", ""):
                break
            yield re.sub(r" \{\}?$", "", line.removeprefix("    " if owner else ""))
            if re.search(r"[^}] \{$|;$", line):
                break
        yield "```"


class Page:
    """The page: its marked lines, and the definitions and types of each part that no part before it has."""

    def __init__(self, text):
        self.text, self.marks = text, [(it[2], it[3], it[4].split()) for it in MARK.finditer(text)]
        self.reached = reached_by(*PARTS)
        self.found, self.types, seen, said = {}, {}, set(), set()
        for part in PARTS:
            self.found[part] = [it for it in self.reached.in_order() if it in reached_by(part).seen and it not in seen]
            self.types[part] = sorted(it for it in reached_by(part).said if it not in said)
            seen |= {*reached_by(part).seen}
            said |= {*reached_by(part).said}

    def files(self, part, words):
        """Returns the files that the words of a marked line mean."""
        named = {it for kind, other, words in self.marks if other == part for it in words if "/" in it}
        files = dict.fromkeys(it.path.removeprefix("crates/") for it in self.found[part])
        return [it for word in words for it in files if it == word or it not in named and word in ("*", it.split("/")[0])]

    def definitions(self, part, words, is_quoted):
        """Yields for each file a line of its definitions in the part, and their text."""
        for file in self.files(part, words):
            found = [it for it in self.found[part] if it.path == f"crates/{file}"]
            lines, names = sum(it.size() for it in found), ", ".join(f"`{it.name}`" for it in found)
            yield f"- {link(found[0].path, found[0].line)}, {lines} lines, {digest(it.said() for it in found)}: {names}"
            if is_quoted:
                yield from ["", "```text", *quote(found, LONG if part != "pairs" else sys.maxsize), "```", ""]

    def types_of(self, part, words, is_shown):
        """Yields for each file a line of its types and ghost members in the part, and the text of the types."""
        said = sorted([*self.types[part], *(said_of(code_item(*it.split("::"))) for it in words)])
        for path in dict.fromkeys(it.path for it in said):
            here = [it for it in said if it.path == path]
            names = [it for it in here if it.name not in ("Value", "view")] or here
            yield f"- {link(path, here[0].line)}, {digest(it.text for it in here)}: " + ", ".join(f"`{it.name}`" for it in names)
        shown = [it for it in said if is_shown and it.name[0].isupper() and it.name not in ("Value", "Var")]
        if shown:
            yield from ["", "```rust", *chain.from_iterable([*lines_of(it), ""] for it in shown)][:-1] + ["```"]

    def counts_of_parts(self):
        """Yields a table of how many definitions each part has."""
        yield from ["| part | definitions | lines | files |", "|---|---|---|---|"]
        for part, (title, _) in PARTS.items():
            yield f"| {title} | {counted(self.found[part])}"

    def counts(self, calls):
        """Yields a table of how many definitions calls rest on, and how many of them no part before theirs has."""
        yield from ["| call | definitions | lines | files | of them new | lines | files |", "|---|---|---|---|---|---|---|"]
        for call in chain.from_iterable(map(calls_of, calls)):
            own = next((it for it in PARTS if call in calls_of(it)), "reasons")
            before = {it for part in [*PARTS][: [*PARTS].index(own)] for it in self.found[part]}
            found = reached_by(call).in_order()
            yield f"| `{call}` | {counted(found)} {counted([it for it in found if it not in before])}"

    def made(self, kind, part, words):
        """Returns the lines that come after a marked line."""
        made = {
            "quoted": lambda: self.definitions(part, words, True),
            "listed": lambda: self.definitions(part, words, False),
            "types": lambda: self.types_of(part, words, False),
            "shown": lambda: self.types_of(part, words, True),
            "clauses": lambda: clauses(words),
            "note": lambda: [" ".join(words[1:])] * len(calls_of(words[0])),
            "parts": self.counts_of_parts,
            "counts": lambda: self.counts(words),
        }
        return "".join(f"{it}\n" for it in made[kind]())

    def faults(self):
        """Yields what of the parts isn't on the page, or not where it has to be."""
        yield from self.reached.refused
        shown = [f"{part} {it}" for kind, part, words in self.marks if kind in ("quoted", "listed") for it in self.files(part, words)]
        typed = [part for kind, part, _ in self.marks if kind in ("types", "shown")]
        quoted = {function_of(it)[:4] for kind, _, words in self.marks if kind == "clauses" for call in words for it in calls_of(call)}
        places = {}
        for part in PARTS:
            for file in dict.fromkeys(it.path.removeprefix("crates/") for it in self.found[part]):
                if shown.count(f"{part} {file}") != 1:
                    yield f"crates/{file} is {shown.count(f'{part} {file}')} times in the part {part}"
            if part not in typed:
                yield f"no types of the part {part} are on the page"
            yield from (f"the clauses of {it} are in no part" for it in calls_of(part) if function_of(it)[:4] not in quoted)
            if part != "others":
                yield from (f"{part} rests on {it} of a type that isn't given" for it in sorted(reached_by(part).given))
            places |= {it: shown.index(f"{part} {it.path[7:]}") for it in self.found[part] if f"{part} {it.path[7:]}" in shown}
        for it in [] if self.reached.refused else places:
            for other in meanings_of(it):
                if places.get(other, -1) > places[it]:
                    yield f"{place(it)} is before {place(other)}, which it names"


def write_page(check):
    """Writes the page, or compares it with the sources; returns the status."""
    with open(PAGE, encoding="utf-8") as file:
        page = Page(file.read())
    new = MARK.sub(lambda it: it[1] + page.made(it[2], it[3], it[4].split()) + it[6], page.text)
    faults = [*dict.fromkeys(page.faults())]
    if check and new != page.text:
        faults += difflib.unified_diff(page.text.splitlines(), new.splitlines(), "docs/AUDIT.md", "the sources", n=0, lineterm="")
        faults.append("docs/AUDIT.md has parted from the sources: run tools/definitions.py --page")
    elif new != page.text:
        with open(PAGE, "w", encoding="utf-8") as file:
            file.write(new)
    sys.stderr.writelines(f"{it}\n" for it in faults)
    said = "" if faults else ", no difference" if new == page.text else ", written"
    print(f"{sum(map(len, page.found.values()))} definitions and {len(page.marks)} places of docs/AUDIT.md{said}")
    return 1 if faults else 0


def main(words):
    if "--page" in words:
        return write_page("--check" in words)
    most = int(words[words.index("--most") + 1]) if "--most" in words else sys.maxsize
    names = [it for it in words if "::" in it or it in PARTS] + (["pairs", "values"] if "--headline" in words else [])
    calls = [call for it in names for call in calls_of(it)]
    reached = Reached("--clauses" in words)
    for call in calls or sys.exit(__doc__):
        reached.visit_all(named_by(call, "--clauses" in words))
    found = reached.in_order()
    if "--count" not in words:
        print(*(f"{place(it)}, {it.size()}" for it in found), "types of the code:", *sorted(map(place, reached.types)), sep="\n")
        if reached.given:
            print("members of types that the caller gives:", *sorted(reached.given), sep="\n")
    files, crates = {it.path for it in found}, {it.path.split("/")[1] for it in found}
    print(f"{len(found)} definitions, {sum(it.size() for it in found)} lines, {len(files)} files, {len(crates)} crates")
    faults = [*reached.refused, *[f"more than {most} definitions"] * (len(found) > most)]
    sys.stderr.writelines(f"{it}\n" for it in faults)
    return 1 if faults else 0


if __name__ == "__main__":
    sys.exit(main(sys.argv[1:]))
