#!/usr/bin/env python3
"""page.py PROGRAM [FOLDER]: looks at the pages of `explain --to html` in a browser without a window.

PROGRAM writes a page of each file of examples/ that is for `show`, of several of them, of lines that are no item, of no
item, and of 2,000 items. Each is looked at with 390, 500, 1,000 and 1,400 pixels, light and dark, with and without bits, for
cells that are higher than a line, text that leaves the page or its cell, contrast below 4.5, and headings. Then these are
checked once for each page: whether each row and each bit marks the other and nothing else, whether the bits are those of
the bytes, whether Tab stops once for each table and the arrows go through its rows, what is drawn, whether all is there
without a script, and whether a text of the input made an element. A page of 2,000 items has to be there within three
seconds.

It needs Debian's chromium (`apt-get install chromium`), or the one that the variable BROWSER names, and speaks with it over
two pipes. FOLDER, if it is given, keeps the pages, a picture of each look, and each page as it is printed (PDF). It writes a
line for each page; the status is 1 if something is wrong, and 2 if there is no browser. The gate doesn't run it.
"""

import base64
import json
import os
import pathlib
import select
import shutil
import subprocess
import sys
import tempfile
import time

BROWSER = os.environ.get("BROWSER", "chromium")
EXAMPLES = pathlib.Path(__file__).resolve().parent.parent / "examples"
KINDS = ("short", "long", "radio", "train")
WIDTHS = (390, 500, 1000, 1400)
MOST_SECONDS = 3

# Packet 5 in steps of 10 cm: D_LINK 12345, a group of NID_C 99; packet 12 in steps of 10 m: sections of 30 and 45, the last
# of 50, then D_DP 5 and D_OL 7; packet 21 in steps of 10 m and reverse: 10 down by 7, 20 more up by 12, 30 more to the end;
# packet 136; packet 27 in steps of 10 cm: 5 at V_STATIC 120, 1000 more at 8, 3 more to the end.
SCALES = (
    "A100140C40FFC150278C0E63184018C00620AE8A00FFC4007800B400C880050900140F0007082A019A0014071001486001E7"
    "FC4202604B03681FC000BE01045081F40800001FF83FFFFFFFFFFFFFFFFFFFFFFFFFFFFFFFFFFFFFFFFFFFFFFFFFFFFFFFFF"
    "FFFFFFFC"
)

# Packets 65, 41, 68 and 80 in steps of 1 m, the last of 10 m: a restriction to V_TSR 8 for 300 from 200 on; level 2, else NTC 9,
# else 1 at 400, to be acknowledged from 100 before on; M_TRACKCOND 3 for 500 from 50 on, 9 for 30, 100 after where that begins;
# on sight, V_MAMODE 8, for 20 from 10 on, acknowledged from 5 before on, shunting 40 after where that begins, without an end.
# Then, reverse: packet 68 in steps of 10 cm with D_TRACKINIT 75; packet 41: level 0 now, acknowledged from 20 before on.
AREAS = (
    "A102088C43FC505023A0E03200960414A06B40C8300C82212019100004440C6801901F4308064003D2A08232001408002800"
    "1410050FFFFFE00028800A4804B29007EFFFF000501FFFFFFFFFFFFFFFFFFFFFFFFFFFFFFFFFFFFFFFFFFFFFFFFFFFFFFFFF"
    "FFFFFFFC"
)

# What is drawn, worked out by hand from the numbers: distances are summed, in steps of Q_SCALE.
DRAWN = {
    "scales": [
        "distance from the reference, direction: nominal"
        "; packet 5, links: 1234.5 m NID_C 99, NID_BG 512"
        "; packet 12, authority: 300 m section ends, 750 m section ends, 1250 m authority ends, 1300 m danger point"
        ", 1320 m overlap ends",
        "distance from the reference, direction: reverse"
        "; packet 21, gradient: 100 m \u22127 \u2030, 300 m +12 \u2030, 600 m ends",
        "distance from the infill location, direction: nominal"
        "; packet 27, speed: 0.5 m 600 km/h, 100.5 m 40 km/h, 100.8 m ends",
    ],
    "areas": [
        "distance from the reference, direction: nominal"
        "; packet 65, restriction: 200 m 40 km/h, 500 m ends"
        "; packet 41, level: 400 m level 2, level NTC 9, level 1, 300 m to 400 m acknowledgement"
        "; packet 68, track conditions: 50 m to 550 m M_TRACKCOND 3, 150 m to 180 m M_TRACKCOND 9"
        "; packet 80, mode: 100 m to 300 m on sight, 40 km/h, 50 m to 100 m acknowledgement, 500 m on shunting",
        "distance from the reference, direction: reverse"
        "; packet 68, track conditions: 7.5 m initial states"
        "; packet 41, level: 0 m level 0",
    ],
    "long_line_ahead": [
        "distance from the reference, direction: nominal"
        "; packet 5, links: 750 m NID_BG 2041, 2070 m NID_BG 2042"
        "; packet 12, authority: 900 m section ends, 2150 m authority ends, 2230 m danger point"
        "; packet 21, gradient: 0 m +4 \u2030, 850 m \u221211 \u2030, 2350 m ends"
        "; packet 27, speed: 0 m 140 km/h, 900 m 100 km/h, 2300 m ends"
    ],
    "radio_authority": [
        "distance from the reference, direction: nominal"
        "; packet 15, authority: 2500 m authority ends, 2600 m danger point"
        "; packet 21, gradient: 0 m +5 \u2030, 2600 m ends"
        "; packet 27, speed: 0 m 160 km/h, 1800 m 120 km/h"
    ],
}

# The heading of a page, which is its title, too.
HEADED = {
    "long_line_ahead": "long telegram, version 2.1, NID_C 98, NID_BG 2040, 4 packets",
    "short_truncated": "short telegram, version 2.0, NID_C 1, NID_BG 1: truncated after 208 bits, in FILL",
    "several_short": "2 short telegrams",
    "short ones and others": "20 short telegrams, 10 refused or cut short, 3 invalid lines",
    "names of JSON": "60 invalid lines",
    "no items": "etcs explain",
}
# How many parts a search finds: each file has two telegrams with packet 5, one of which is refused in it.
FOUND = {"short ones and others": ("Packet 5, linking ", " 4 matches")}

# Asked at each width, light and dark, with and without bits: what is wrong.
LOOK = r"""(() => {
  const wrong = new Set(), wide = innerWidth, note = (what, at) => wrong.add(`${what}: ${at.textContent.trim().slice(0, 40)}`);
  const shown = [...document.body.querySelectorAll('*')].filter(at => at.checkVisibility() && at.getClientRects().length);
  const inked = shown.filter(at => [...at.childNodes].some(node => node.nodeType === 3 && node.data.trim())
    && parseFloat(getComputedStyle(at).fontSize) > 0 && !at.matches('title'));
  // texts and lines
  const more = document.scrollingElement.scrollWidth - wide;
  if (more > 0) wrong.add(`the page is wider than the window by ${more}`);
  for (const at of inked) {
    const {left, right} = at.getBoundingClientRect();
    if (left < -1 || right > wide + 1) note('leaves the page', at);
  }
  for (const at of shown) {
    if (at.matches('td, th') && at.scrollWidth > at.clientWidth + 1) note('leaves its cell', at);
    if (!at.matches('td:nth-child(-n+3), th[scope=col], .hex, .offset')) continue;
    const range = document.createRange();
    range.selectNodeContents(at);
    if (new Set([...range.getClientRects()].map(box => Math.round(box.top))).size > 1) note('is higher than a line', at);
  }
  for (const text of document.querySelectorAll('svg text')) {
    const box = text.getBoundingClientRect(), all = text.closest('svg').getBoundingClientRect();
    if (box.left < all.left - 1 || box.right > all.right + 1 || box.bottom > all.bottom + 1) note('leaves the drawing', text);
  }
  // contrast
  const colour = text => {
    const [r, g, b, a = 1] = text.match(/[\d.]+/g).map(Number);
    return [r, g, b, a];
  };
  const probe = document.body.appendChild(document.createElement('i'));
  probe.style.background = 'Canvas';
  const canvas = colour(getComputedStyle(probe).backgroundColor);
  probe.remove();
  const over = (a, b) => [0, 1, 2].map(k => a[k] * a[3] + b[k] * (1 - a[3])).concat(1);
  const ground = at => at ? over(colour(getComputedStyle(at).backgroundColor), ground(at.parentElement)) : canvas;
  const part = v => (v /= 255) <= .03928 ? v / 12.92 : ((v + .055) / 1.055) ** 2.4;
  const light = c => .2126 * part(c[0]) + .7152 * part(c[1]) + .0722 * part(c[2]);
  const ratio = (a, b) => (Math.max(light(a), light(b)) + .05) / (Math.min(light(a), light(b)) + .05);
  const test = (at, ink, below) => {
    const found = ratio(over(colour(ink), below), below);
    if (found < 4.5) note(`contrast ${found.toFixed(1)} of ${at.className || at.localName}`, at);
  };
  for (const at of inked) {
    const style = getComputedStyle(at);
    if (at.matches('.hex')) for (const bit of at.parentElement.querySelectorAll('.bit')) test(at, style.color, ground(bit));
    else if (at.matches('.bit.no')) test(at, style.color, colour(style.borderBottomColor));
    else test(at, at.closest('svg') ? style.fill : style.color, at.closest('svg') ? canvas : ground(at));
  }
  // headings, and what a reader hears
  const heads = [...document.querySelectorAll('h1, h2, h3, h4, h5, h6')];
  if (heads.filter(at => at.matches('h1')).length !== 1) wrong.add('not one h1');
  heads.forEach((at, k) => +at.localName[1] > +(heads[k - 1]?.localName[1] ?? 0) + 1 && note('a level of headings is left out', at));
  for (const at of document.querySelectorAll('.item')) if (!at.querySelector('summary h2')) note('no heading', at);
  for (const at of document.querySelectorAll('table'))
    if (!at.ariaLabel || !at.querySelector('th[scope=col]')) note('a table without a name or columns', at);
  for (const at of document.querySelectorAll('svg'))
    if (at.getAttribute('role') !== 'img' || !at.querySelector('title')) note('a drawing without a text', at);
  if (!document.documentElement.lang || !document.title) wrong.add('no language or title');
  if (!/^etcs \d+\.\d+\.\d+ (un)?proved$/.test(document.querySelector('footer')?.textContent)) wrong.add('no version at the foot');
  return [...wrong];
})()"""

# Asked once for each page, with all items open: how many rows and bits there are, and what is wrong.
MARKS = r"""(() => {
  const wrong = [];
  let rows = 0, bits = 0;
  const point = (at, name) => at.dispatchEvent(new MouseEvent(name, {bubbles: true}));
  for (const item of document.querySelectorAll('.item')) {
    item.open = true;
    const all = [...item.querySelectorAll('.bit')], of = new Map();
    const marked = () => all.flatMap((bit, k) => bit.classList.contains('on') ? [k] : []).join();
    for (const row of item.querySelectorAll('tr')) {
      const [first, last = first] = row.cells[0].textContent.split('..').map(Number);
      if (row.cells.length < 4 || row.cells[0].matches('th')) continue;
      const want = all.flatMap((_, k) => k >= first && k <= last ? [k] : []);
      want.forEach(k => of.set(k, row));
      point(row.cells[1], 'mouseover');
      if (marked() !== want.join() || !row.classList.contains('on')) wrong.push(`row ${first}`);
      point(row.cells[1], 'mouseout');
      if (marked() !== '' || row.classList.contains('on')) wrong.push(`row ${first} afterwards`);
      rows++;
    }
    all.forEach((bit, k) => {
      point(bit, 'mouseover');
      const on = [...item.querySelectorAll('tr.on')];
      if (on.length !== (of.has(k) ? 1 : 0) || (on.length && on[0] !== of.get(k))) wrong.push(`bit ${k}`);
      point(bit, 'mouseout');
      bits++;
    });
    for (const byte of item.querySelectorAll('.byte')) {
      const [bits, digits] = ['.strip', '.hex'].map(name => byte.querySelector(name).textContent);
      if (parseInt(bits, 2) !== parseInt(digits, 16)) wrong.push('the bits of a byte');
    }
    if (item.querySelectorAll('.bit.no').length !== item.querySelectorAll('tr.no').length) wrong.push('the refused bit');
    for (const part of item.querySelectorAll('.part')) {
      const tint = [...part.classList].find(name => name.startsWith('tint'));
      const own = [...part.querySelectorAll('tr')].filter(row => row.bits).flatMap(row => row.bits);
      if (tint && !own.every(bit => bit.classList.contains(tint))) wrong.push('a tint');
      if (tint && own.length && !own[0].dataset.n) wrong.push('no number where a packet begins');
    }
    for (const table of item.querySelectorAll('table'))
      if (table.rows.length > 1 && table.querySelectorAll('[tabindex="0"]').length !== 1) wrong.push('not one stop a table');
  }
  return {rows, bits, wrong: [...new Set(wrong)], drawn: [...document.querySelectorAll('svg title')].map(at => at.textContent),
    made: document.querySelectorAll('img, iframe, script:not([type=module]), [onerror]').length};
})()"""


class Browser:
    """A browser without a window, and its one page."""

    def __init__(self):
        self.folder = tempfile.mkdtemp()
        hears, self.to = os.pipe()
        self.of, speaks = os.pipe()
        words = [BROWSER, "--headless=new", "--no-sandbox", "--disable-gpu", "--hide-scrollbars", "--remote-debugging-pipe"]

        def join():
            # the browser reads from 3 and writes to 4; the numbers in between keep these two from being overwritten
            os.dup2(hears, 30), os.dup2(speaks, 31)
            os.dup2(30, 3), os.dup2(31, 4)

        quiet = {"stdout": subprocess.DEVNULL, "stderr": subprocess.DEVNULL}
        self.process = subprocess.Popen(
            [*words, f"--user-data-dir={self.folder}", "about:blank"], preexec_fn=join, close_fds=False, **quiet
        )
        os.close(hears), os.close(speaks)
        self.count, self.session, self.text, self.events = 0, None, b"", []
        page = self.call("Target.createTarget", url="about:blank")["targetId"]
        self.session = self.call("Target.attachToTarget", targetId=page, flatten=True)["sessionId"]
        self.call("Page.enable"), self.call("Runtime.enable")

    def next(self):
        """The next thing that the browser says."""
        while b"\0" not in self.text:
            if not select.select([self.of], [], [], 60)[0]:
                raise EOFError("the browser says nothing")
            more = os.read(self.of, 1 << 20)
            if not more:
                raise EOFError("the browser ended")
            self.text += more
        said, self.text = self.text.split(b"\0", 1)
        return json.loads(said)

    def call(self, method, **params):
        """What the browser returns."""
        self.count += 1
        asked = {"id": self.count, "method": method, "params": params}
        if self.session:
            asked["sessionId"] = self.session
        os.write(self.to, json.dumps(asked).encode() + b"\0")
        while True:
            said = self.next()
            if said.get("id") == self.count:
                if "error" in said:
                    raise RuntimeError(f"{method}: {said['error']}")
                return said["result"]
            self.events.append(said)

    def open(self, at, plain=False):
        """Opens a page, a plain one without its script; returns the seconds until it is drawn, and the exceptions of its script."""
        self.events, began = [], time.monotonic()
        self.call("Page.navigate", url=at.as_uri())
        while not any(event.get("method") == "Page.loadEventFired" for event in self.events):
            self.events.append(self.next())
        if not plain:
            self.ask("new Promise(done => setTimeout(() => requestAnimationFrame(() => setTimeout(done)), 10))")
        failed = [e["params"] for e in self.events if e.get("method") == "Runtime.exceptionThrown"]
        return time.monotonic() - began, [f["exceptionDetails"]["exception"]["description"] for f in failed]

    def ask(self, script):
        """What a script returns."""
        said = self.call("Runtime.evaluate", expression=script, returnByValue=True, awaitPromise=True)
        if "exceptionDetails" in said:
            raise RuntimeError(json.dumps(said["exceptionDetails"])[:600])
        return said["result"].get("value")

    def look(self, width, scheme):
        """Sets the width of the window and the scheme of colours."""
        self.call("Emulation.setDeviceMetricsOverride", width=width, height=900, deviceScaleFactor=1, mobile=False)
        self.call("Emulation.setEmulatedMedia", features=[{"name": "prefers-color-scheme", "value": scheme}])

    def press(self, key, code):
        """Presses a key."""
        for kind in ("keyDown", "keyUp"):
            self.call("Input.dispatchKeyEvent", type=kind, key=key, code=key, windowsVirtualKeyCode=code)

    def keep(self, method, at, **params):
        """Keeps a picture or a print."""
        at.write_bytes(base64.b64decode(self.call(method, **params)["data"]))

    def close(self):
        """Ends it."""
        self.session = None
        try:
            self.call("Browser.close")
        except (EOFError, RuntimeError, OSError):
            pass
        self.process.wait(30)
        shutil.rmtree(self.folder, ignore_errors=True)


def written(program, kind, form, given):
    """The page that the program writes of this input."""
    call = [program, "explain", "--kind", kind, "--from", form, "--to", "html"]
    return subprocess.run(call, input=given, stdout=subprocess.PIPE, stderr=subprocess.DEVNULL).stdout.decode()


def pages(program):
    """Each page with its name."""
    shorts = b""
    for at in sorted([*EXAMPLES.glob("*.hex"), *EXAMPLES.glob("*.json")]):
        kind = next((kind for kind in KINDS if kind in at.name), None)
        if kind is None or at.name.startswith("group_"):
            continue
        given = at.read_bytes()
        shorts += given if at.suffix == ".hex" and kind == "short" else b""
        yield at.name, written(program, kind, at.suffix[1:], given)
    yield "scales", written(program, "long", "hex", SCALES.encode())
    yield "areas", written(program, "long", "hex", AREAS.encode())
    yield "short ones and others", written(program, "short", "hex", shorts + b"<b onerror=x>no digits\n" + shorts)
    names = b'{"<img src=x onerror=x>":1}\n{"kind":"</noscript><img src=x>"}\n"<script>"\n' * 20
    yield "names of JSON", written(program, "short", "json", names)
    yield "no items", written(program, "short", "hex", b"")


def keys_wrong(browser):
    """What is wrong with Tab and the arrows in the first table of a page."""
    browser.ask("document.querySelector('.part > summary').focus()")
    browser.press("Tab", 9)
    where = "[...document.querySelectorAll('table tr')].filter(row => row.tabIndex > -2 && row.bits).indexOf(document.activeElement)"
    found = [browser.ask(where)]
    for key, code in (("ArrowDown", 40), ("End", 35), ("ArrowDown", 40), ("Home", 36), ("ArrowUp", 38)):
        browser.press(key, code)
        found.append(browser.ask(where))
    last = browser.ask("[...document.querySelector('table').rows].filter(row => row.bits).length") - 1
    browser.press("Tab", 9)
    out = browser.ask("document.activeElement.localName")
    wrong = [] if found == [0, min(1, last), last, last, 0, 0] else [f"arrows go to {found}"]
    return wrong + ([] if out != "tr" else ["Tab stops twice in a table"])


def named_wrong(browser, name):
    """What is wrong with the heading of a page, and with its search."""
    heading, title = browser.ask("[document.querySelector('h1').textContent, document.title]")
    wrong = [] if heading == HEADED.get(name, heading) and title.startswith(heading) else [f"heading: {heading}, title: {title}"]
    words, matches = FOUND.get(name, ("", ""))
    if words:
        search = "document.querySelector('[type=search]')"
        shown = "[document.querySelector('output').value, document.querySelectorAll('.item:not([hidden]), p.no:not([hidden])').length]"
        browser.ask(f"{search}.value = {json.dumps(words)}; {search}.oninput()")
        found = browser.ask(shown)
        browser.ask(f"{search}.value = ''; {search}.oninput()")
        wrong += [] if found[0] == matches and browser.ask(shown)[0] == "" else [f"search: {found}"]
    return wrong


def picture(browser, at, width):
    """Keeps a picture of a page, in its full length."""
    size = browser.call("Page.getLayoutMetrics")["cssContentSize"]
    clip = {"x": 0, "y": 0, "width": width, "height": min(size["height"], 3000), "scale": 1}
    browser.keep("Page.captureScreenshot", at, format="png", captureBeyondViewport=True, clip=clip)


def looks(browser, at, keeps):
    """What is wrong with a page at each width, light and dark, with and without bits."""
    wrong = []
    for width in WIDTHS:
        for scheme in ("light", "dark"):
            browser.look(width, scheme)
            wrong += browser.open(at)[1] + [f"{width} {scheme}: {what}" for what in browser.ask(LOOK)]
            if keeps:
                picture(browser, at.with_name(f"{at.stem}_{width}_{scheme}.png"), width)
            browser.ask("document.querySelector('.tools input')?.click()")
            wrong += [f"{width} {scheme} bits: {what}" for what in browser.ask(LOOK)]
    return wrong


def check(browser, name, page, folder, keeps):
    """Looks at a page; returns its counts of rows and bits, and what is wrong."""
    at = folder / (name.replace(" ", "_").replace(".", "_") + ".html")
    at.write_text(page)
    wrong = looks(browser, at, keeps)
    if keeps:
        browser.keep("Page.printToPDF", at.with_suffix(".pdf"), printBackground=False)
    browser.ask("for (const item of document.querySelectorAll('.item')) item.open = true")
    browser.ask("new Promise(done => setTimeout(done, 50))")
    marks = browser.ask(MARKS)
    wrong += marks["wrong"] + (["a text of the input made an element"] if marks["made"] else [])
    if marks["rows"]:
        wrong += keys_wrong(browser)
    drawn = DRAWN.get(name.removesuffix(".hex"))
    if drawn is not None and marks["drawn"] != drawn:
        wrong.append(f"drawn: {marks['drawn']}")
    wrong += named_wrong(browser, name.removesuffix(".hex"))
    browser.call("Emulation.setScriptExecutionDisabled", value=True)
    browser.open(at, plain=True)
    plain = browser.ask("document.querySelectorAll('tr > td:first-child').length")
    browser.call("Emulation.setScriptExecutionDisabled", value=False)
    if plain != marks["rows"]:
        wrong.append(f"without a script there are {plain} rows")
    return marks["rows"], marks["bits"], wrong


def main():
    """Checks all pages, and returns the status."""
    if len(sys.argv) not in (2, 3):
        sys.exit(__doc__)
    if shutil.which(BROWSER) is None:
        print(f"page.py: there is no {BROWSER}: apt-get install chromium, or set BROWSER", file=sys.stderr)
        return 2
    program, bad = sys.argv[1], 0
    browser = Browser()
    with tempfile.TemporaryDirectory() as made:
        folder = pathlib.Path(sys.argv[2] if len(sys.argv) > 2 else made).resolve()
        folder.mkdir(parents=True, exist_ok=True)
        for name, page in pages(program):
            rows, bits, wrong = check(browser, name, page, folder, len(sys.argv) > 2)
            bad += len(wrong)
            print(f"{name}: {rows} rows, {bits} bits, {len(wrong)} wrong", flush=True)
            for what in wrong:
                print(f"  {what}")
        browser.look(1400, "light")
        at = folder / "many.html"
        at.write_text(written(program, "long", "hex", (EXAMPLES / "long_line_ahead.hex").read_bytes() * 2000))
        seconds, failed = browser.open(at)
        bad += len(failed) + (seconds > MOST_SECONDS)
        print(f"2,000 items: {seconds:.1f} s", *failed)
    browser.close()
    return 1 if bad else 0


if __name__ == "__main__":
    sys.exit(main())
