#!/usr/bin/env python3
"""Finds the sentences of the program that no vector has.

    tests/sentences.py [--list] PROGRAM [WORD ..]

PROGRAM is `etcs`; the WORDs go before those of each vector, as for tests/vectors.py. The sentences are the string literals of
crates/etcs_reasons, crates/etcs_explain and crates/etcs_log, and of words.rt of crates/etcs_rows, that have a word and no markup:
what `explain` and `log` say, except for a few that are listed below, each with the reason. The vectors of crates/etcs_vectors/stdin that run these commands are
answered once. Then a word of each sentence is changed in what the program wrote, wherever the sentence's fixed words are; what is
between them, such as a number, may be any text of a line. Words that are part of a longer sentence in this place belong to that
one alone.

Each change that leaves all answers as expected is written, with the place of its sentence; with --list, also the first
vector that notices each of the other changes. The last line has the counts. The status is 0 if each change is noticed, 1 if one
isn't or a vector is answered otherwise, and 2 if the words are wrong or the program can't be run.
"""

import os
import re
import sys
from collections import namedtuple
from concurrent.futures import ThreadPoolExecutor

sys.dont_write_bytecode = True
sys.path.append(os.path.join(os.path.dirname(os.path.dirname(os.path.realpath(__file__))), "tools"))
import vectors
from sources import TOP, source

CRATES = ("etcs_reasons", "etcs_explain", "etcs_log")
WORDS = "etcs_rows/src/words.rt"
COMMANDS = ("explain", "log")

# Literals that need no vector, and why.
PAGES = "is in pages alone, of which tests/stream_test.py has the words"
LONG = "is written for a longer line than the vectors have, and tests/stream_test.py gives one"
BYTES = "is written for bytes that aren't UTF-8, and the vector that has them expects digits"
NEVER = "isn't written, since rows and tests have no such case"
SOME = "isn't written, since before a refused bit some number may come"
CALL = "is written by a call of the library that the program doesn't make"
READ = "is read, and not written"
PART = "is a part of a longer sentence that has its place"
EXCEPTIONS = {
    "long telegram": PAGES,
    "short telegram": PAGES,
    "header of a telegram": PAGES,
    "header of a message to the train": PAGES,
    "header of a message to the track": PAGES,
    "to the train": PAGES,
    "to the track": PAGES,
    ", version {}.{}": PAGES,
    ", 1 packet": PAGES,
    ", {packets} packets": PAGES,
    "line longer than 1,048,576 characters": LONG,
    r',\"cause\":\"too long\"': LONG,
    "line longer than 1,048,576 bytes": LONG,
    " bytes: the reason is only looked for in up to 65,536": LONG,
    "not JSON: unexpected byte {:02X}": BYTES,
    "no item of the kind has this JSON": NEVER,
    "; none fits": SOME,
    "a message has no packet": "isn't written, since of the numbers next to 0 and 255 there are packets",
    "null": CALL,
    r'{\"column\":': CALL,
    r',\"expected\":{}': CALL,
    r',\"found\":{}': CALL,
    r',\"path\":{}': CALL,
    "0123456789abcdefABCDEF": READ,
    "dD": READ,
    "cdefCDEF": READ,
    "89abAB": READ,
    "rue": READ,
    "alse": READ,
    "ull": READ,
    r'\"\\/bfnrt': READ,
    "{count} byte{}": PART,
    "packet": PART,
    "message": PART,
}
# What pages are made of: tests/page.py opens them.
MARKUP_FILE = "page.rt"
MARKUP = re.compile(r"<|&\w+;| class=")

# A comment, an attribute, a letter, or a string literal.
TOKEN = re.compile(r"//[^\n]*|#!?\[[^\]\n]*\]|'(?:\\.[^']*|[^'\\])'|b?\"((?:\\.|[^\"\\])*)\"", re.S)
ESCAPES = re.compile(r"\\(?:u\{([0-9a-fA-F]+)\}|x([0-9A-F]{2})|(\n\s*)|(.))", re.S)
PLAIN = {"n": "\n", "r": "\r", "t": "\t", "0": "\0"}
HOLE = re.compile(r"(?<!\{)\{[\w.:$<>]*\}(?!\})")
GAP = r"[^\n]{0,80}?"
WORD = re.compile(r"[A-Za-z]{2,}")

# A sentence: the file and the line in which it is, and its fixed parts.
Sentence = namedtuple("Sentence", "place parts")
# Where a sentence is in an answer: each of its parts, from and to.
Found = namedtuple("Found", "sentence spans")


def unescaped(text):
    """Returns the text of a literal."""

    def one(found):
        code, byte, _, plain = found.groups()
        return chr(int(code or byte, 16)) if code or byte else PLAIN.get(plain, plain or "")

    return ESCAPES.sub(one, text)


def sentences():
    """Yields the sentences of the sources."""
    seen = set()
    names = [f"{crate}/src/{it}" for crate in CRATES for it in sorted(os.listdir(f"{TOP}/crates/{crate}/src")) if it != MARKUP_FILE]
    for path in [*names, WORDS]:
        for token in TOKEN.finditer(source(path)):
            text = token[1] or ""
            parts = tuple(unescaped(it).replace("{{", "{").replace("}}", "}") for it in HOLE.split(text))
            if parts in seen or text in EXCEPTIONS or MARKUP.search(text) or not any(map(WORD.search, parts)):
                continue
            seen.add(parts)
            yield Sentence(f"crates/{path}:{source(path)[: token.start()].count(chr(10)) + 1}", parts)


def pattern_of(sentence):
    """Returns the pattern of a sentence: a group for each fixed part."""
    return re.compile(GAP.join(f"({re.escape(it)})" for it in sentence.parts))


def all_found(patterns, text):
    """Returns where each sentence is in a text."""
    found = []
    for sentence, pattern in patterns.items():
        for one in pattern.finditer(text) if all(it in text for it in sentence.parts) else ():
            spans = [one.span(n + 1) for n, part in enumerate(sentence.parts) if WORD.search(part)]
            found.append(Found(sentence, spans))
    return found


def own(found):
    """Returns those of which no part is in a longer part of another sentence."""
    longer = sorted({span for it in found for span in it.spans})

    def is_inside(span):
        return any(it[0] <= span[0] and span[1] <= it[1] and it != span for it in longer)

    return [it for it in found if not any(map(is_inside, it.spans))]


def changed(text, found):
    """Returns a text in which a word of a sentence is changed."""
    spans = [(start + it.start(), start + it.end()) for start, end in found.spans for it in WORD.finditer(text[start:end])]
    start, end = max(spans, key=lambda it: it[1] - it[0])
    return text[:start] + text[start:end].swapcase() + text[end:]


def check(program, sheet, jobs, is_listed):
    """Says which changes aren't noticed; returns whether there are none, and each vector is answered as expected."""
    asked = [it for it in vectors.vectors_of(sheet) if it[1] in ("program", "bytes") and it[2].split(" ")[1] in COMMANDS]
    patterns = {it: pattern_of(it) for it in sentences()}
    noticed, wrong = {}, 0
    with ThreadPoolExecutor(jobs) as pool:
        answers = list(pool.map(lambda it: vectors.answer(program, it), asked))
    for (line, _, words, expected), answer in zip(asked, answers):
        text = answer.decode(errors="replace")
        if text != expected:
            print(f"line {line}: {words} is answered otherwise")
            wrong += 1
            continue
        for it in own(all_found(patterns, text)):
            if it.sentence not in noticed and changed(text, it) != expected:
                noticed[it.sentence] = line
    for it in patterns:
        said = "..".join(it.parts).replace("\n", "\\n")
        if it not in noticed:
            print(f"{it.place}: {said[:100]}: no vector notices a change")
        elif is_listed:
            print(f"{it.place}: {said[:60]}: line {noticed[it]}")
    print(f"{len(patterns)} sentences, {len(patterns) - len(noticed)} in no vector")
    return len(noticed) == len(patterns) and not wrong


def main(words):
    is_listed = words[:1] == ["--list"]
    words = words[is_listed:]
    if not words or words[0].startswith("-"):
        print(__doc__, file=sys.stderr)
        return 2
    try:
        with vectors.telegram_folder() as folder:
            program = vectors.Program(words, 60, folder)
            return 0 if check(program, source("etcs_vectors/stdin"), os.cpu_count(), is_listed) else 1
    except OSError as error:
        print(f"{words[0]}: {error.strerror}", file=sys.stderr)
        return 2


if __name__ == "__main__":
    sys.exit(main(sys.argv[1:]))
