#!/usr/bin/env python3
"""Draws a mix of items that the program accepts: telegrams, and radio messages of both ways.

    bench/mix.py KIND [--form bin|hex|json] [--items N] [--seed S]

KIND is `short`, `long`, `radio` or `train`. N items (2,000) are written to standard output: as bytes, as a
line of digits each, or as a line of JSON each, as `./etcs convert --to json` writes it. A seed (1) always
gives the same items, and the first of them are the same for every N.

- A long telegram has one large packet (links, an authority, gradients, speeds, areas of a mode, track
  conditions, a text, or bits that are kept), then those that describe the line ahead as far as they fit,
  and up to three small packets. A short one has one to four small packets as far as they fit.
- A message to the train has an authority and a description of the line, a few packets of any sort, a text,
  or variables of its own, or it is kept whole. One to the track mostly reports a position, with further
  packets, some of which are kept; or it is kept whole.
- Nine in ten FILLs are ones, and nine in ten PADDINGs zeros; the others are any bits.
"""

import argparse
import json
import random
import sys

KINDS = ["short", "long", "radio", "train"]
FORMS = ["bin", "hex", "json"]
ITEMS = 2000
SEED = 1

NAMES_BY_WIDTH = {
    1: "Q_UPDOWN Q_MEDIA Q_LINK Q_NEWCOUNTRY Q_LINKORIENTATION Q_SECTIONTIMER Q_ENDTIMER Q_DANGERPOINT "
       "Q_OVERLAP Q_GDIR Q_FRONT Q_RBC Q_SLEEPSESSION Q_TEXTDISPLAY Q_CONFTEXTDISPLAY Q_TEXTREPORT Q_ASPECT "
       "Q_SRSTOP M_ACK Q_ORIENTATION Q_LGTLOC Q_TRACKINIT Q_MAMODE",
    2: "M_DUP Q_DIR Q_SCALE Q_LINKREACTION Q_DIFF Q_TEXTCLASS Q_TEXTCONFIRM M_MAMODE Q_STATUS Q_DIRLRBG "
       "Q_DLRBG Q_LENGTH Q_DIRTRAIN",
    3: "N_PIG N_TOTAL M_LEVELTR M_LEVELTEXTDISPLAY M_LOC M_LEVEL",
    4: "NC_CDDIFF NC_DIFF M_MODETEXTDISPLAY NID_EM M_TRACKCOND M_MODE",
    5: "N_ITER",
    6: "NID_VBCMK Q_LOCACC",
    7: "M_VERSION V_MAIN V_LOA V_RELEASEDP V_RELEASEOL V_STATIC V_DIFF V_TSR V_MAMODE V_TRAIN",
    8: "M_MCOUNT NID_PACKET G_A G_TSR NID_NTC NID_TSR NID_TEXTMESSAGE L_TEXT X_TEXT Q_TEXT NID_MESSAGE T_MAR "
       "T_CYCRQST T_CYCLOC M_ERROR",
    10: "NID_C T_LOA T_SECTIONTIMER T_ENDTIMER T_OL T_TEXTDISPLAY L_MESSAGE T_TIMEOUTRQST",
    13: "L_PACKET",
    14: "NID_BG NID_RBC",
    15: "D_LINK L_SECTION D_SECTIONTIMERSTOPLOC L_ENDSECTION D_ENDTIMERSTARTLOC D_DP D_STARTOL D_OL D_GRADIENT "
        "D_STATIC D_LEVELTR L_ACKLEVELTR D_TSR L_TSR D_TEXTDISPLAY L_TEXTDISPLAY D_SR D_CYCLOC D_LOC "
        "D_TRACKINIT D_TRACKCOND L_TRACKCOND D_MAMODE L_MAMODE L_ACKMAMODE D_RBCTR D_LRBG L_DOUBTOVER "
        "L_DOUBTUNDER L_TRAININT",
    16: "D_REF",
    24: "NID_MN NID_LRBG NID_ENGINE NID_PRVLRBG",
    32: "NID_OPERATIONAL T_TRAIN",
    64: "NID_RADIO",
}
WIDTHS = {name: width for width, names in NAMES_BY_WIDTH.items() for name in names.split()}

# Rows. `12( .. )` is a group that is there if the variable before it is 1 or 2, `*( .. )` one that is
# repeated as often as the variable before it says. A count with `#` is given with the packet.
BALISE = "Q_NEWCOUNTRY 1( NID_C ) NID_BG"
LINK = f"D_LINK {BALISE} Q_LINKORIENTATION Q_LINKREACTION Q_LOCACC"
SECTION_TIMER = "Q_SECTIONTIMER 1( T_SECTIONTIMER D_SECTIONTIMERSTOPLOC )"
AUTHORITY = (
    f"N_ITER# *( L_SECTION {SECTION_TIMER} ) L_ENDSECTION {SECTION_TIMER} "
    "Q_ENDTIMER 1( T_ENDTIMER D_ENDTIMERSTARTLOC ) Q_DANGERPOINT 1( D_DP V_RELEASEDP ) "
    "Q_OVERLAP 1( D_STARTOL T_OL D_OL V_RELEASEOL )"
)
SLOPE = "D_GRADIENT Q_GDIR G_A"
SPEED = "D_STATIC V_STATIC Q_FRONT N_ITER *( Q_DIFF 0( NC_CDDIFF ) 12( NC_DIFF ) V_DIFF )"
LEVEL = "M_LEVELTR 1( NID_NTC )"
SHOWN = "M_MODETEXTDISPLAY M_LEVELTEXTDISPLAY 1( NID_NTC )"
TEXT = (
    f"Q_SCALE Q_TEXTCLASS Q_TEXTDISPLAY D_TEXTDISPLAY {SHOWN} L_TEXTDISPLAY T_TEXTDISPLAY {SHOWN} "
    "Q_TEXTCONFIRM 123( Q_CONFTEXTDISPLAY Q_TEXTREPORT 1( NID_TEXTMESSAGE NID_C NID_RBC ) )"
)
CONDITION = "D_TRACKCOND L_TRACKCOND M_TRACKCOND"
AREA = "D_MAMODE M_MAMODE V_MAMODE L_MAMODE L_ACKMAMODE Q_MAMODE"
SESSION = "NID_C NID_RBC NID_RADIO Q_SLEEPSESSION"
LOCATED = (
    "D_LRBG Q_DIRLRBG Q_DLRBG L_DOUBTOVER L_DOUBTUNDER Q_LENGTH 12( L_TRAININT ) V_TRAIN Q_DIRTRAIN M_MODE "
    "M_LEVEL 1( NID_NTC )"
)
TO_TRAIN = {
    2: "M_VERSION",
    5: f"Q_SCALE {LINK} N_ITER# *( {LINK} )",
    12: f"Q_SCALE V_MAIN V_LOA T_LOA {AUTHORITY}",
    15: f"Q_SCALE V_LOA T_LOA {AUTHORITY}",
    16: "Q_SCALE L_SECTION",
    21: f"Q_SCALE {SLOPE} N_ITER# *( {SLOPE} )",
    27: f"Q_SCALE {SPEED} N_ITER# *( {SPEED} )",
    41: f"Q_SCALE D_LEVELTR {LEVEL} L_ACKLEVELTR N_ITER# *( {LEVEL} L_ACKLEVELTR )",
    42: f"Q_RBC {SESSION}",
    45: "NID_MN",
    46: f"{LEVEL} N_ITER# *( {LEVEL} )",
    49: f"N_ITER# *( {BALISE} )",
    57: "T_MAR T_TIMEOUTRQST T_CYCRQST",
    58: "Q_SCALE T_CYCLOC D_CYCLOC M_LOC N_ITER# *( D_LOC Q_LGTLOC )",
    63: f"N_ITER# *( {BALISE} )",
    64: "",
    65: "Q_SCALE NID_TSR D_TSR L_TSR Q_FRONT V_TSR",
    66: "NID_TSR",
    68: f"Q_SCALE Q_TRACKINIT 1( D_TRACKINIT ) 0( {CONDITION} N_ITER# *( {CONDITION} ) )",
    72: f"{TEXT} L_TEXT# *( X_TEXT )",
    76: f"{TEXT} Q_TEXT",
    80: f"Q_SCALE {AREA} N_ITER# *( {AREA} )",
    131: f"Q_SCALE D_RBCTR {SESSION}",
    132: "Q_ASPECT",
    135: "",
    136: BALISE,
    137: "Q_SRSTOP",
    140: "NID_OPERATIONAL",
    141: "Q_GDIR G_TSR",
    145: "",
    254: "",
}
TO_TRACK = {
    0: f"Q_SCALE NID_LRBG {LOCATED}",
    1: f"Q_SCALE NID_LRBG NID_PRVLRBG {LOCATED}",
    4: "M_ERROR",
    5: "NID_OPERATIONAL",
}
TELEGRAM_HEADER = "Q_UPDOWN M_VERSION Q_MEDIA N_PIG N_TOTAL M_DUP M_MCOUNT NID_C NID_BG Q_LINK"
HEADERS = {"radio": "T_TRAIN M_ACK NID_LRBG", "train": "T_TRAIN NID_ENGINE"}
MESSAGES = {
    "radio": {
        2: "Q_SCALE D_SR", 3: "", 6: "", 8: "T_TRAIN", 9: "", 16: "NID_EM", 18: "NID_EM", 24: "", 27: "T_TRAIN",
        28: "T_TRAIN", 32: "M_VERSION", 33: "Q_SCALE D_REF", 38: "", 39: "", 40: "", 41: "", 43: "",
        45: "Q_ORIENTATION",
    },
    "train": {
        130: "", 136: "", 137: "T_TRAIN", 138: "T_TRAIN", 146: "T_TRAIN", 150: "", 155: "", 156: "", 157: "Q_STATUS",
        159: "",
    },
}
# How often a message of each number is drawn; those without a row are kept whole.
NUMBERS = {
    "radio": [3, 3, 3, 3, 33, 24, 24, 24, 2, 8, 9, 15, 16, 18, 27, 32, 43, 45],
    "train": [*[136] * 6, 157, 157, 146, 146, 137, 138, 130, 150, 155, 156, 159, 129, 132],
}

# What a variable is drawn from, as a range or as numbers; by default from all numbers of its width.
SPEEDS = range(4, 33)
RELEASE_SPEEDS = [*range(1, 11), 126, 126, 127]
UNLIMITED = [1023, 1023, *range(10, 600, 10)]
UNKNOWN_GROUP = (1 << 24) - 1
DRAWN_FROM = {
    "Q_UPDOWN": [1], "M_VERSION": [32, 33], "Q_MEDIA": [0], "M_DUP": [0, 0, 0, 1, 2], "Q_DIR": [0, 1, 1, 1, 2],
    "Q_SCALE": [0, 1, 1, 1, 1, 2], "N_ITER": [0, 0, 0, 1, 2, 3], "Q_NEWCOUNTRY": [*[0] * 9, 1],
    "Q_LINKREACTION": [0, 1, 2], "V_MAIN": SPEEDS, "V_LOA": [0, 0, *SPEEDS], "T_LOA": UNLIMITED,
    "Q_SECTIONTIMER": [0, 0, 0, 1], "T_SECTIONTIMER": UNLIMITED, "Q_ENDTIMER": [0, 0, 0, 0, 1],
    "T_ENDTIMER": UNLIMITED, "Q_OVERLAP": [0, 0, 1], "V_RELEASEDP": RELEASE_SPEEDS, "V_RELEASEOL": RELEASE_SPEEDS,
    "G_A": range(36), "V_STATIC": SPEEDS, "Q_DIFF": [0, 1, 2], "V_DIFF": SPEEDS, "M_LEVELTR": range(5),
    "D_LEVELTR": [32767, *range(0, 3000, 100)], "V_TSR": SPEEDS, "M_LEVELTEXTDISPLAY": range(6),
    "X_TEXT": range(32, 127), "M_TRACKCOND": range(10), "M_MAMODE": [0, 1, 2], "V_MAMODE": [127, *SPEEDS],
    "M_LOC": [0, 1, 2], "V_TRAIN": range(33), "M_LEVEL": [0, 1, 2, 3, 3, 3, 4], "M_ERROR": range(10),
    "Q_STATUS": [0, 1, 2], "L_TRAININT": range(50, 700), "L_DOUBTOVER": range(60), "L_DOUBTUNDER": range(60),
}
DISTANCES = {15: range(0, 4000)}
LAST_OF_PROFILE = {"G_A": 255, "V_STATIC": 127}

# Packets with the range of their count.
LARGE = [(5, 5, 16), (12, 0, 3), (21, 2, 15), (27, 2, 10), (68, 2, 8), (72, 5, 60), (80, 1, 5), (44, 40, 300)]
LINE_AHEAD = [(12, 0, 3), (5, 1, 8), (21, 1, 8), (27, 1, 5)]
SMALL = [
    (137, 0, 0), (137, 0, 0), (65, 0, 0), (41, 0, 0), (21, 0, 1), (12, 0, 0), (5, 0, 0), (0, 0, 0), (66, 0, 0),
    (16, 0, 0), (132, 0, 0), (145, 0, 0), (254, 0, 0), (141, 0, 0), (136, 0, 0), (46, 0, 1), (49, 1, 2), (44, 1, 40),
    (90, 15, 15),
]
LINE_BY_RADIO = [(15, 0, 4), (21, 1, 20), (27, 1, 15), (5, 5, 20)]
BESIDE_LINE = [(65, 0, 0), (41, 0, 3), (68, 0, 6), (80, 0, 3), (58, 0, 4), (57, 0, 0), (3, 300, 500)]
ANY_BY_RADIO = [
    (72, 10, 120), (72, 10, 120), (76, 0, 0), (65, 0, 0), (41, 0, 4), (42, 0, 0), (45, 0, 0), (140, 0, 0), (66, 0, 0),
    (137, 0, 0), (131, 0, 0), (57, 0, 0), (58, 0, 4), (63, 1, 8), (44, 10, 400),
]
BESIDE_REPORT = [(4, 0, 0), (5, 0, 0), (9, 4, 4), (11, 60, 200), (3, 8, 140), (44, 10, 200)]


def parsed(text):
    """A row's items: names of variables, and groups as a pair of a test and items."""
    levels = [[]]
    for word in text.split():
        if word.endswith("("):
            levels.append([word[:-1]])
        elif word == ")":
            test, *group = levels.pop()
            levels[-1].append((test, group))
        else:
            levels[-1].append(word)
    return levels[0]


ROWS_TO_TRAIN = {nid: parsed(row) for nid, row in TO_TRAIN.items()}
ROWS_TO_TRACK = {nid: parsed(row) for nid, row in TO_TRACK.items()}


def spelled(pairs):
    """The bits of variables with their numbers."""
    return "".join(f"{number:0{WIDTHS[name]}b}" for name, number in pairs)


def tree(pairs):
    """Variables with their numbers in the JSON of an item."""
    return [[name, f"{number:016x}" if name == "NID_RADIO" else number] for name, number in pairs]


class Mix:
    """Draws items. The order of the draws makes the items of a seed."""

    def __init__(self, kind, seed):
        self.kind = kind
        self.by_chance = random.Random(f"{kind} {seed}")
        self.rows = ROWS_TO_TRACK if kind == "train" else ROWS_TO_TRAIN

    def one_in(self, count):
        return self.by_chance.randrange(count) == 0

    def number(self, name):
        """A number of a variable."""
        width = WIDTHS[name]
        drawn_from = DRAWN_FROM.get(name, DISTANCES.get(width))
        if name == "NID_LRBG" and self.one_in(3):
            return UNKNOWN_GROUP
        return self.by_chance.getrandbits(width) if drawn_from is None else self.by_chance.choice(drawn_from)

    def bits(self, count):
        return f"{self.by_chance.getrandbits(count):0{count}b}" if count else ""

    def filled(self, count, digit):
        """The bits that fill an item: mostly of this digit."""
        return self.bits(count) if self.one_in(10) else digit * count

    def pairs(self, items, given=0, is_last=False):
        """Variables of a row with numbers; the count that the row asks for is given."""
        pairs = []
        number = 0
        for item in items:
            if isinstance(item, str):
                name = item.rstrip("#")
                number = given if name != item else self.number(name)
                number = LAST_OF_PROFILE.get(name, number) if is_last else number
                pairs.append((name, number))
            elif item[0] == "*":
                for place in range(number):
                    pairs += self.pairs(item[1], is_last=place == number - 1)
            elif str(number) in item[0]:
                pairs += self.pairs(item[1], given)
        return pairs

    def packet(self, nid, least, most):
        """The bits and the tree of a packet, with a count or a number of kept bits from least to most."""
        count = self.by_chance.randint(least, most)
        if nid == 0 and self.kind != "train":
            pairs = [("NID_VBCMK", self.number("NID_VBCMK"))]
            return spelled([("NID_PACKET", 0), *pairs]), {"fields": tree(pairs), "nid": 0}
        head = [("NID_PACKET", nid)]
        about = {"nid": nid}
        if self.kind != "train":
            head.append(("Q_DIR", self.number("Q_DIR")))
            about["dir"] = head[1][1]
        if nid in self.rows:
            pairs = self.pairs(self.rows[nid], count)
            body = spelled(pairs)
            about["fields"] = tree(pairs)
        else:
            body = about["data"] = self.bits(count)
        length = len(spelled(head)) + WIDTHS["L_PACKET"] + len(body)
        return spelled([*head, ("L_PACKET", length)]) + body, about

    def packets(self, wanted, room):
        """Those of these packets that fit into a room of bits, each tried in turn: their bits and trees."""
        bits, trees = "", []
        for nid, least, most in wanted:
            packet, about = self.packet(nid, least, most)
            if len(bits) + len(packet) <= room:
                bits += packet
                trees.append(about)
        return bits, trees

    def some(self, choices, least, most):
        return [self.by_chance.choice(choices) for _ in range(self.by_chance.randint(least, most))]

    def telegram(self):
        """A telegram as bits, and its tree."""
        total = self.by_chance.randrange(4)
        given = {"N_TOTAL": total, "N_PIG": self.by_chance.randint(0, total)}
        if not self.one_in(4):
            given["M_MCOUNT"] = 255
        header = [(name, given[name] if name in given else self.number(name)) for name in TELEGRAM_HEADER.split()]
        if self.kind == "long":
            user_bits, pad = 830, "00"
            wanted = [self.by_chance.choice(LARGE), *LINE_AHEAD, *self.some(SMALL, 0, 3)]
        else:
            user_bits, pad = 210, "000000"
            wanted = self.some(SMALL, 1, 4)
        closing = spelled([("NID_PACKET", 255)])
        bits = spelled(header)
        packets, trees = self.packets(wanted, user_bits - len(bits) - len(closing))
        bits += packets + closing
        fill = self.filled(user_bits - len(bits), "1")
        return bits + fill + pad, {"fill": fill, "header": tree(header), "kind": self.kind, "packets": trees}

    def wanted_by_radio(self, nid):
        """The packets of a message to the train."""
        if nid in (3, 33):
            return [*LINE_BY_RADIO, *self.some(BESIDE_LINE, 0, 3)]
        if nid == 9:
            return [(15, 0, 0)]
        if nid == 24:
            return self.some(ANY_BY_RADIO, 1, 3)
        if nid == 32:
            return [(2, 0, 0)]
        return [(64, 0, 0)] if nid == 2 and self.one_in(5) else []

    def wanted_by_track(self, nid):
        """The packets of a message to the track."""
        position = (1, 0, 0) if self.one_in(5) else (0, 0, 0)
        if nid in (136, 157, 130, 150):
            return [position, *self.some(BESIDE_REPORT, 0, 2)]
        return [] if nid in (146, 155, 156, 159) else [position]

    def message(self):
        """A message as bits, and its tree."""
        nid = self.by_chance.choice(NUMBERS[self.kind])
        if nid not in MESSAGES[self.kind]:
            length = self.by_chance.randint(10, 40)
            data = self.bits(8 * length - 18)
            front = spelled([("NID_MESSAGE", nid), ("L_MESSAGE", length)])
            return front + data, {"data": data, "kind": self.kind, "nid": nid}
        header = [(name, self.number(name)) for name in HEADERS[self.kind].split()]
        own = self.pairs(parsed(MESSAGES[self.kind][nid]))
        wanted = self.wanted_by_radio(nid) if self.kind == "radio" else self.wanted_by_track(nid)
        bits = spelled(header + own)
        packets, trees = self.packets(wanted, 8 * 1023 - 18 - len(bits))
        bits += packets
        padding = self.filled(-(18 + len(bits)) % 8, "0")
        front = spelled([("NID_MESSAGE", nid), ("L_MESSAGE", (18 + len(bits) + len(padding)) // 8)])
        about = {"fields": tree(own), "header": tree(header), "kind": self.kind, "nid": nid}
        return front + bits + padding, {**about, "packets": trees, "padding": padding}

    def item(self):
        """An item as bytes, and its tree."""
        bits, about = self.message() if self.kind in MESSAGES else self.telegram()
        return int(bits, 2).to_bytes(len(bits) // 8, "big"), about


def items(kind, count=ITEMS, seed=SEED):
    """The first items of a kind and a seed."""
    mix = Mix(kind, seed)
    return [mix.item() for _ in range(count)]


def written(form, drawn):
    """Items as bytes, as lines of digits, or as lines of JSON."""
    if form == "bin":
        return b"".join(item for item, _ in drawn)
    if form == "hex":
        return b"".join(item.hex().upper().encode() + b"\n" for item, _ in drawn)
    return b"".join(json.dumps(about, sort_keys=True, separators=(",", ":")).encode() + b"\n" for _, about in drawn)


def main():
    words = argparse.ArgumentParser(description=__doc__, formatter_class=argparse.RawDescriptionHelpFormatter)
    words.add_argument("kind", choices=KINDS)
    words.add_argument("--form", choices=FORMS, default="bin")
    words.add_argument("--items", type=int, default=ITEMS)
    words.add_argument("--seed", type=int, default=SEED)
    words = words.parse_args()
    sys.stdout.buffer.write(written(words.form, items(words.kind, words.items, words.seed)))


if __name__ == "__main__":
    main()
