#!/usr/bin/env python3
"""Puts the style and the script of the pages of `explain --to html` into crates/etcs_reasons/src/page.rt.

    tools/page.py [--check]

They are share/page.css and share/page.js, and each becomes one line of the source. A rule of the style is a line of the page,
without its indentation and other blanks that mean nothing; rules with no empty line between them are one line. The lines of the
script stay as they are. Empty lines are left out, and comments between /* and */ that have lines of their own. With --check
nothing is written, and the status is 1 if the source has another style or script.
"""

import os
import re
import sys

TOP = os.path.dirname(os.path.dirname(os.path.realpath(__file__)))
SOURCE = f"{TOP}/crates/etcs_reasons/src/page.rt"
COMMENT = re.compile(r"^ */\*.*?\*/\n", re.M | re.S)
BLANKS = re.compile(r"\s*\n\s*|(?<=[,:>~+]) | (?=[{>~+])|(?<=@media) (?=\()")


def rules_of(style):
    """Returns the rules of a style, a line for each run of them with no empty line between."""
    runs = re.split(r"\n\n+(?=\S)", COMMENT.sub("", style).strip())
    return "\n".join(BLANKS.sub("", it).replace(";}", "}") for it in runs)


def lines_of(script):
    """Returns the lines of a script that aren't empty, without comments between /* and */."""
    return "\n".join(filter(None, COMMENT.sub("", script).split("\n")))


def literal(text):
    """Returns what stands for a text in a string literal of one line."""
    return text.replace("\\", "\\\\").replace('"', '\\"').replace("\n", "\\n")


def read(path):
    with open(path, encoding="utf-8") as file:
        return file.read()


def made(source):
    """Returns the source with the style and the script of share/."""
    style, script = rules_of(read(f"{TOP}/share/page.css")), lines_of(read(f"{TOP}/share/page.js"))
    for tag, text in (("<style>", style), ("<script type=module>", script)):
        source = re.sub(f"(?<={tag}\n).*", lambda _, text=text: literal(text), source, count=1)
    return source


def main(words):
    if words not in ([], ["--check"]):
        print(__doc__, file=sys.stderr)
        return 2
    source = read(SOURCE)
    text = made(source)
    if words and text != source:
        print(f"{os.path.relpath(SOURCE, TOP)} has another style or script than share/page.css and share/page.js: run tools/page.py")
        return 1
    if words:
        print("the page has the style and the script of share/")
        return 0
    with open(SOURCE, "w", encoding="utf-8") as file:
        file.write(text)
    return 0


if __name__ == "__main__":
    sys.exit(main(sys.argv[1:]))
