#!/usr/bin/env python3
"""Writes docs/line_ahead.svg: what the page of `explain --to html` draws of examples/long_line_ahead.hex.

    tools/picture.py [--check] PROGRAM

PROGRAM writes the page, whose script draws in a browser without a window, as tests/page.py has it (Debian's chromium, or the
one that BROWSER names). With --check it compares, and writes nothing. The status is 0, 1 if the picture differs, and 2
if there is no browser.
"""

import os
import pathlib
import re
import shutil
import sys
import tempfile

sys.dont_write_bytecode = True
sys.path.insert(0, os.path.join(os.path.dirname(os.path.dirname(os.path.realpath(__file__))), "tests"))
from page import BROWSER, EXAMPLES, Browser, written

PICTURE = EXAMPLES.parent / "docs/line_ahead.svg"
# The first drawing of the page, as XML.
DRAWN = "new XMLSerializer().serializeToString(document.querySelector('svg'))"
# The rules of the page that a drawing needs.
RULES = re.compile(r"^(?::root|svg|\.tint\d|@media screen).*$", re.M)


def drawn(page):
    """Returns the drawing that a page's script makes."""
    browser = Browser()
    with tempfile.TemporaryDirectory() as folder:
        at = pathlib.Path(folder) / "page.html"
        at.write_text(page, encoding="utf-8")
        browser.look(1400, "light")
        failed = browser.open(at)[1]
        drawing = None if failed else browser.ask(DRAWN)
    browser.close()
    if failed:
        sys.exit(f"picture.py: the page's script failed: {failed}")
    return drawing


def picture_of(page):
    """Returns the picture: the drawing with the page's colours, on a background of its own, so that it can be read on any page."""
    drawing = drawn(page)
    width, height = re.search(r'viewBox="0 0 (\S+) (\S+)"', drawing).groups()
    style = "\n".join(RULES.findall(page)) + "\nsvg{background:Canvas}"
    head, title, rest = re.match(r"(<svg[^>]*)>(<title>.*?</title>)(.*)$", drawing, re.S).groups()
    rest = re.sub(r"(?=<(?:rect|path|text|g|/g)\b)", "\n", rest)
    return f'{head} width="{width}" height="{height}">\n{title}\n<style>\n{style}\n</style>{rest}\n'


def main():
    words = [it for it in sys.argv[1:] if it != "--check"]
    if len(words) != 1:
        sys.exit(__doc__)
    if shutil.which(BROWSER) is None:
        print(f"picture.py: there is no {BROWSER}: apt-get install chromium, or set BROWSER", file=sys.stderr)
        return 2
    made = picture_of(written(words[0], "long", "hex", (EXAMPLES / "long_line_ahead.hex").read_bytes()))
    if "--check" not in sys.argv:
        PICTURE.write_text(made, encoding="utf-8")
    elif not PICTURE.exists() or PICTURE.read_text(encoding="utf-8") != made:
        print("docs/line_ahead.svg isn't what the page draws: tools/picture.py PROGRAM writes it anew")
        return 1
    return 0


if __name__ == "__main__":
    sys.exit(main())
