"""What `etcs log` finds in the lines of a log, by docs/FORMAT.md and share/etcs.tables.json alone.

`Account` judges each line; `Groups` and `passages` follow the balise groups of the items.
"""

import re
from collections import Counter, namedtuple
from functools import lru_cache

from tables_decoder import decoded, entry
from tables_refusals import Reader

BLANKS, BYTE_ORDER_MARK = b" \t\r", b"\xef\xbb\xbf"
WORD, PART = re.compile(rb"[^ \t\r,;=\"'()\[\]{}<>]+"), re.compile(rb"[0-9A-Za-z]+")
DIGITS = re.compile(rb"(?:0[xX])?([0-9A-Fa-f]+)")
COMMENT, LETTER, BITS = re.compile(rb"[ \t\r](?:#|;|//)"), re.compile(rb"[A-Za-z]"), re.compile("[01]*")
ENOUGH = 20  # digits of which a run has at least as many, if it isn't the last one
GROUP = 16  # digits that a group has at most
LONGEST = 1_048_576  # characters of a line
NAMED = 4  # bytes of a run that a note names
CUT_SHORT = 65  # bytes that a short telegram is taken to have at most, where both sizes are requested
TELEGRAMS, MESSAGES = ("long", "short"), ("radio", "train")
KINDS = (*TELEGRAMS, *MESSAGES)
SIZES, BIT_COUNTS = {"long": 104, "short": 27}, {"long": 830, "short": 210}
TO_THE_TRACK = range(129, 160)  # NID_MESSAGE
PASSED, ITEM, OTHER, TEXT, BAD = "passed", "item", "other", "text", "bad"
FILLING = ("FILL", "PADDING")  # variables without a row in CSV

# A word or a part of one: where it begins, with its 0x, where its digits begin, and where they end.
Piece = namedtuple("Piece", "at digits end")
# An item: its kind, its bytes, and the variables with their numbers that tests/tables_decoder.py reads in them.
Item = namedtuple("Item", "kind data pairs")
# A line: its number, what it is, the item and the text before its digits, and what is reported: members of JSON.
Line = namedtuple("Line", "number what item front notes")


# ---- The digits of a line.


def piece(text, at, end):
    """Returns the digits of a word or a part; none if it is no hexadecimal number."""
    found = DIGITS.fullmatch(text, at, end)
    return found and Piece(at, found.start(1), end)


def size(pieces):
    """Returns how many digits some pieces have."""
    return sum(it.end - it.digits for it in pieces)


def is_group(it):
    """Returns whether a word or a part may be one of several with digits."""
    return it is not None and (it.end - it.digits) % 2 == 0 and it.end - it.digits <= GROUP


def last_groups(pieces):
    """Returns the last groups of one size; the last of them may be smaller."""
    taken = [pieces[-1]]
    for index in range(len(pieces) - 2, -1, -1):
        if not is_group(pieces[index]):
            break
        count = size([pieces[index]])
        if count != size(taken[1:2]) if taken[1:] else count < size(taken):
            break
        taken.insert(1, pieces[index])
    return [*taken[1:], taken[0]]


def ends(text, words, pieces):
    """Yields the digits at the end of the last word, then those before its last part, and so on."""
    if is_group(pieces[-1]):
        yield last_groups(pieces)
        return
    parts = [piece(text, *it.span()) for it in PART.finditer(text, *words[-1])]
    if not parts:
        yield []
    while parts:
        last = parts[-1]
        yield last_groups(parts) if is_group(last) else [last] if last else []
        parts.pop()


def found(text):
    """Returns the digits of some text: the last 20 or more, otherwise those at its end."""
    words = [it.span() for it in WORD.finditer(text)]
    pieces = [piece(text, *it) for it in words]
    at_end = None
    while words:
        for taken in ends(text, words, pieces):
            if size(taken) >= ENOUGH:
                return taken
            at_end = taken if at_end is None else at_end
        words.pop()
        pieces.pop()
    return at_end or []


class Run:
    """A run of digits, and the text that ends with it."""

    def __init__(self, text, pieces):
        self.text, self.pieces = text, pieces
        self.digits = b"".join(text[it.digits : it.end] for it in pieces).decode().upper()
        self.data = bytes.fromhex(self.digits) if len(self.digits) % 2 == 0 else b""

    def front(self):
        """Returns the text before it."""
        return self.text[: self.pieces[0].at].rstrip(BLANKS) if self.pieces else self.text.rstrip(BLANKS)

    def front_of(self, count):
        """Returns the text before its last bytes."""
        left = 2 * count
        for it in reversed(self.pieces):
            if left <= it.end - it.digits:
                at = it.at if left == it.end - it.digits else it.end - left
                return self.text[:at].rstrip(BLANKS)
            left -= it.end - it.digits
        raise ValueError(count)

    def is_bits(self, kind):
        """Returns whether it is the bits of a telegram."""
        return len(self.digits) == BIT_COUNTS.get(kind) and BITS.fullmatch(self.digits) is not None


def runs(line):
    """Returns the runs of a line, the last first; the first may have fewer than 20 digits, or none."""
    text = line.removeprefix(BYTE_ORDER_MARK)
    mark = COMMENT.search(text)
    if mark and size(found(text[: mark.start()])) >= ENOUGH:
        text = text[: mark.start()]
    all_runs = [Run(text, found(text))]
    while len(all_runs[-1].digits) >= ENOUGH:
        text = text[: all_runs[-1].pieces[0].at]
        pieces = found(text)
        if size(pieces) < ENOUGH:
            break
        all_runs.append(Run(text, pieces))
    return all_runs


def is_passed_over(line):
    """Returns whether a line is blank or a comment."""
    text = line.removeprefix(BYTE_ORDER_MARK).strip(BLANKS)
    return not text or text.startswith(b"#")


# ---- What the tables have.


class Tables:
    """What is an item, why something is none, and names."""

    def __init__(self, tables):
        self.tables = tables
        self.item = lru_cache(None)(self.read)
        self.refusal = lru_cache(None)(self.why)
        self.reader = lru_cache(None)(lambda kind: Reader(tables, kind))

    def read(self, kind, data):
        """Returns the item of a kind that some bytes are; none if they are none."""
        if kind in SIZES and len(data) != SIZES[kind] or kind in MESSAGES and length(data) != len(data):
            return None
        items = decoded(self.tables, kind, data)
        return Item(kind, data, items[0].pairs) if items and len(items) == 1 else None

    def why(self, kind, data):
        """Returns why some bytes are refused, and the sentence."""
        refusal = self.reader(kind).refusal(data)
        return refusal, self.reader(kind).words(refusal)

    def message_name(self, nid):
        """Returns the name of a message of either direction; none if SUBSET-026 has no such number."""
        names = (entry(self.tables["kinds"][it]["list"], nid).get("name") for it in MESSAGES)
        return next(filter(None, names), None)

    def packet_name(self, way, nid):
        """Returns the name of a packet."""
        return entry(self.tables["packets"][way]["list"], nid).get("name")

    def way(self, kind):
        """Returns the direction of the packets of a kind."""
        return self.tables["kinds"][kind]["packets"]


def length(data):
    """Returns the number of bytes in L_MESSAGE; none if it isn't there."""
    return data[1] << 2 | data[2] >> 6 if len(data) >= 3 else None


def number(item, name):
    """Returns the number of the first variable of this name."""
    return next(it for var, it in item.pairs if var == name)


def packets(item):
    """Returns the numbers of an item's packets, without packet 255."""
    last = 1 if item.kind in TELEGRAMS else 0
    found_numbers = [it for var, it in item.pairs if var == "NID_PACKET"]
    return found_numbers[: len(found_numbers) - last]


def is_kept(item):
    """Returns whether an item is a message that is kept as bits."""
    return item.kind in MESSAGES and len(item.pairs) == 3 and item.pairs[2][0] == "OTHER_DATA"


# ---- What a line is.


class Account:
    """Judges the lines of a log, where these kinds are requested."""

    def __init__(self, tables, kinds):
        self.tables, self.kinds = tables, [it for it in KINDS if it in kinds]
        self.has_telegrams = any(it in TELEGRAMS for it in self.kinds)

    def lines(self, texts):
        """Judges the lines of a log."""
        return [self.line(index, it.removesuffix(b"\r")) for index, it in enumerate(texts, 1)]

    def line(self, index, text):
        """Judges a line."""
        if len(text) > LONGEST:
            reason = f"line longer than {LONGEST:,} characters"
            return Line(index, BAD, None, None, [{"line": index, "cause": "too long", "reason": reason}])
        if is_passed_over(text):
            return Line(index, PASSED, None, None, [])
        of_line = runs(text)
        items = [(run, *it) for run in of_line if (it := self.item(run))]
        if items:
            run, item, front = items[0]
            notes = [self.another(index, *it[:2]) for it in items[1:2]]
            return Line(index, ITEM, item, front, notes)
        return self.without_item(index, of_line)

    def item(self, run):
        """Returns the item of a run, and the text before its digits; none if it has none."""
        for kind in self.kinds:
            item = self.candidate(run, kind)
            if item and not (kind in MESSAGES and self.is_unknown(item.data)):
                return item, run.front()
        for kind in self.kinds:
            if kind in SIZES and len(run.data) > SIZES[kind] and (item := self.tables.item(kind, run.data[-SIZES[kind] :])):
                return item, run.front_of(SIZES[kind])
        return None

    def candidate(self, run, kind):
        """Returns the item of a kind that all digits of a run are."""
        if run.is_bits(kind):
            return self.tables.item(kind, int(run.digits.ljust(8 * SIZES[kind], "0"), 2).to_bytes(SIZES[kind], "big"))
        if kind in MESSAGES and kind != self.way(run.data):
            return None
        return self.tables.item(kind, run.data)

    def way(self, data):
        """Returns which kind of message some bytes are read as."""
        ways = [it for it in self.kinds if it in MESSAGES]
        if len(ways) < 2:
            return ways[0] if ways else None
        return MESSAGES[len(data) > 0 and data[0] in TO_THE_TRACK]

    def is_unknown(self, data):
        """Returns whether some bytes are no message because SUBSET-026 doesn't have its number."""
        return self.has_telegrams and self.tables.message_name(data[0]) is None

    def has_length(self, run, kind):
        """Returns whether a run has as many bytes, or bits, as an item of a kind."""
        if kind in SIZES:
            return run.is_bits(kind) or len(run.data) == SIZES[kind]
        return length(run.data) == len(run.data)

    def without_item(self, index, of_line):
        """Judges a line without an item."""
        own, foreign = [], []
        for run in of_line:
            own += [(run, it) for it in self.kinds if self.has_length(run, it) and (it in SIZES or it == self.way(run.data))][:1]
            foreign += [(run, it) for it in KINDS if it not in self.kinds and self.has_length(run, it)][:1]
        named = of_line[0].front() != b""
        if foreign and not own:
            return Line(index, OTHER, None, None, [self.other(index, *foreign[0], named)])
        last = of_line[0]
        is_text = not last.digits or len(of_line) == 1 and len(last.digits) < ENOUGH and LETTER.search(last.front())
        note = self.fault(index, *(own or [(last, None)])[0], named)
        return Line(index, TEXT if is_text else BAD, None, None, [note])

    # ---- What is reported.

    @staticmethod
    def other(index, run, kind, named):
        """Returns the note of a line of another kind."""
        if run.is_bits(kind):
            count, what = {"bits": len(run.digits)}, f"{len(run.digits)} bits"
        else:
            count, what = {"bytes": len(run.data)}, bytes_of(run.data, named)
        has = f"a {kind} telegram has" if kind in SIZES else "a radio message whose L_MESSAGE says so"
        return {"line": index, "cause": "other", **count, "reason": f"{what}, as {has}"}

    @staticmethod
    def another(index, run, item):
        """Returns the note of a line with another item."""
        data = item.data
        return {"line": index, "cause": "another item", "bytes": len(data), "reason": f"another item before it: {bytes_of(data, True)}"}

    def fault(self, index, run, kind, named):
        """Returns why a line is bad."""
        if not run.digits:
            return {"line": index, "cause": "no digits", "reason": "no hexadecimal digits at its end"}
        if not run.data:
            count = len(run.digits)
            return {"line": index, "cause": "odd digits", "digits": count, "reason": f"{plural(count, 'digit')}, an odd number"}
        if kind and not (kind in MESSAGES and self.is_unknown(run.data)):
            data = run.data
            if run.is_bits(kind):
                data = int(run.digits.ljust(8 * SIZES[kind], "0"), 2).to_bytes(SIZES[kind], "big")
            refusal, words = self.tables.refusal(kind, data)
            return {"line": index, "kind": kind, "bit": refusal.bit, "variable": refusal.name, "cause": refusal.cause, "reason": words}
        reason = f"{bytes_of(run.data, named)}, {self.of_length(run.data)}"
        return {"line": index, "cause": "bytes", "bytes": len(run.data), "reason": reason}

    def of_length(self, data):
        """Returns what is wrong with a number of bytes."""
        sizes = [it for it in self.kinds if it in TELEGRAMS]
        cut = sizes and data[0] in (0xA0, 0xA1)
        if cut or len(self.kinds) == len(sizes) == 1:
            kind = sizes[0] if len(sizes) == 1 else "short" if len(data) <= CUT_SHORT else "long"
            return f"but a {kind} telegram has {SIZES[kind]}"
        says = length(data)
        if not sizes:
            return "but a radio message has at least 3" if says is None else f"but L_MESSAGE is {says}"
        has_messages = len(self.kinds) > len(sizes) and says is not None and not self.is_unknown(data)
        return "which no item of these kinds has" + f": L_MESSAGE is {says}" * has_messages


def plural(count, word):
    """Returns a count and what is counted."""
    return f"{count} {word}" + "s" * (count != 1)


def bytes_of(data, named):
    """Returns how many bytes there are, and, if they are to be named, the first of them."""
    first = f" ({data[:NAMED].hex().upper()}{'..' * (len(data) > NAMED)})" if named else ""
    return plural(len(data), "byte") + first


def sentence(note):
    """Returns the line of text of a note."""
    if "bit" in note:
        return f"line {note['line']}: refused at bit {note['bit']}, {note['variable']}: {note['reason']}"
    return f"line {note['line']}: {'other: ' * (note['cause'] == 'other')}{note['reason']}"


# ---- Balise groups.


class Group:
    """What is held of a balise group."""

    def __init__(self, item):
        self.key, self.held, self.clashes = key(item), {}, 0

    def clash(self, item):
        """Returns the first clash of a telegram with what is held; none if it fits."""
        place, total, counter, duplicate = (number(item, it) for it in ("N_PIG", "N_TOTAL", "M_MCOUNT", "M_DUP"))
        held = self.held.values()
        if total < place:
            return "BadPosition"
        if place == 0 and duplicate == 2 or place == total and duplicate == 1:
            return "BadDuplicate"
        if any(number(it, "N_TOTAL") != total for it in held):
            return "OtherTotal"
        if not all(counters_agree(number(it, "M_MCOUNT"), counter) for it in held):
            return "Counter"
        same = self.held.get(place)
        return "Differs" if same and same[:2] != item[:2] else None

    def add(self, item):
        """Adds a telegram, and returns its clash."""
        clash = self.clash(item)
        if clash:
            self.clashes += 1
        else:
            self.held.setdefault(number(item, "N_PIG"), item)
        return clash

    def state(self):
        """Returns what is missing of it."""
        if not self.held:
            return "empty"
        total = number(next(iter(self.held.values())), "N_TOTAL")
        missing = [it for it in range(total + 1) if it not in self.held and not self.has_duplicate(it)]
        return f"missing {' '.join(map(str, missing))}" if missing else "complete"

    def has_duplicate(self, place):
        """Returns whether a neighbour is the duplicate of a position."""
        before, after = self.held.get(place - 1), self.held.get(place + 1)
        return bool(before and number(before, "M_DUP") == 1 or after and number(after, "M_DUP") == 2)


def key(item):
    """Returns NID_C and NID_BG of a telegram."""
    return number(item, "NID_C"), number(item, "NID_BG")


def counters_agree(one, other):
    """Returns whether two telegrams of one group may have these numbers of M_MCOUNT."""
    return 254 not in (one, other) and (one == other or 255 in (one, other))


def groups(lines):
    """Returns the line of each balise group of a log, and the notes of its clashes."""
    all_groups, notes = {}, []
    for line in telegrams(lines):
        group = all_groups.setdefault(key(line.item), Group(line.item))
        if clash := group.add(line.item):
            reason = f"group {group.key[0]} {group.key[1]} clash {clash}"
            notes.append({"line": line.number, "cause": "clash", "reason": reason})
    clashes = {it.key: f" clashes {it.clashes}" * (it.clashes > 0) for it in all_groups.values()}
    return [f"group {it.key[0]} {it.key[1]} {it.state()}{clashes[it.key]}" for it in all_groups.values()], notes


def passages(lines):
    """Returns the passages of a log: of each the number and the front of its first line, and the group's line."""
    ended, group, first = [], None, None
    for line in telegrams(lines):
        if group and (group.key != key(line.item) or group.clash(line.item)):
            ended.append((first.number, first.front, f"group {group.key[0]} {group.key[1]} {group.state()}"))
            group = None
        if not group:
            group, first = Group(line.item), line
        group.add(line.item)
    if group:
        ended.append((first.number, first.front, f"group {group.key[0]} {group.key[1]} {group.state()}"))
    return ended


def telegrams(lines):
    """Returns the lines whose item is a telegram."""
    return [it for it in lines if it.item and it.item.kind in TELEGRAMS]


# ---- Counts.


def summary(account, lines):
    """Returns the counts of a log, but for refusals, as `--summary` writes them."""
    tables, kinds = account.tables, account.kinds
    what, items = Counter(it.what for it in lines), [it.item for it in lines if it.item]
    says = [f"items {what[ITEM]}", f"bad {what[BAD]}", *(f"{it} {what[it]}" for it in (OTHER, TEXT) if what[it])]
    if len(kinds) > 1:
        says += [f"{kind} {sum(it.kind == kind for it in items)}" for kind in kinds]
    says += [f"kept {count}" for count in [sum(map(is_kept, items))] if count]
    nids = Counter(number(it, "NID_MESSAGE") for it in items if it.kind in MESSAGES)
    unknown = sum(count for nid, count in nids.items() if tables.message_name(nid) is None)
    says += [f"unknown {unknown}"] * (unknown > 0)
    for way in ("to_train", "to_track"):
        counts = Counter(nid for it in items if tables.way(it.kind) == way for nid in packets(it))
        for nid, count in sorted(counts.items()):
            name = tables.packet_name(way, nid) or "no such number"
            says.append(f"packet {nid} {count} ({name}{', to the track' * (way == 'to_track')})")
    for nid, count in sorted(nids.items()):
        name = tables.message_name(nid)
        way = ", to the track" if nid in TO_THE_TRACK else ", to the train" * ("radio" not in kinds)
        says.append(f"message {nid} {count} ({name + way if name else 'no such number'})")
    return says


def refusals(lines):
    """Returns how often each variable was refused, by cause."""
    return Counter((it["variable"], it["cause"]) for line in lines if line.what == BAD for it in line.notes if "bit" in it)


def rows(item):
    """Returns the variables and numbers of an item that have a row in CSV."""
    return [(name, it) for name, it in item.pairs if name not in FILLING and it != ""]
