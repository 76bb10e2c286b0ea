"""What no vector says about the module: its values, errors, pieces, threads."""

import copy
import doctest
import json
import os
import pickle
import random
import signal
import sys
import tempfile
import threading
import time
import unittest
from unittest import mock

import etcs
from etcs import _fields, _frame, _groups, _library, _log, _meanings, _parts, _runs, _values
from etcs._blanks import PACKETS
from etcs._fields import fields_of
from etcs._variables import VARIABLES, WIDTHS

TOP = os.path.join(os.path.dirname(os.path.abspath(__file__)), "..", "..", "..")
sys.dont_write_bytecode = True
sys.path.append(os.path.join(TOP, "tests"))
import tables_refusals

SHORT = bytes.fromhex("A0007F802000CB200C7F" + "FF" * 16 + "C0")
RADIO = bytes.fromhex("18034000000000080031280620")
EXAMPLES = os.path.join(TOP, "examples")


def example(name):
    with open(os.path.join(EXAMPLES, name), encoding="ascii") as file:
        return bytes.fromhex(file.read())


def refused(data, kind):
    """Yields the bytes with each bit turned with which they are refused, and the fault."""
    for bit in range(8 * len(data)):
        turned = bytearray(data)
        turned[bit // 8] ^= 0x80 >> bit % 8
        try:
            etcs.check(turned, kind)
        except etcs.Refused as fault:
            yield bytes(turned), fault
        except etcs.Truncated:
            pass


def parts_of(fault):
    """What a fault has of where JSON is wrong."""
    return fault.path, fault.column, fault.expected, fault.found


def all_items():
    """Yields the items of the examples, and telegrams and messages with a packet of each number."""
    for name in sorted(os.listdir(EXAMPLES)):
        kind = name.split("_")[0].replace("group", "short").replace("several", "short")
        if name.endswith(".hex") and kind in etcs.KINDS:
            try:
                yield from ((etcs.encode(item), kind) for _, item in etcs.items(example(name), kind))
            except ValueError:
                pass
    for way, kind in (("train", "long"), ("track", "train")):
        for nid in PACKETS[way]:
            packet = etcs.blank(nid, kind)
            if kind == "long":
                yield etcs.encode(etcs.Telegram.build({}, [packet], kind)), kind
                continue
            yield etcs.encode(etcs.Message.build(136, (), [packet])), kind


def lists_of(item):
    """The lists of an item: of variables, of packets."""
    packets = getattr(item, "packets", [])
    return [packets, item.header, getattr(item, "fields", item.header), *(packet.fields for packet in packets)]


def change(item, chance):
    """Changes something in an item, as nobody should, and says what."""
    pairs = chance.choice([each for each in lists_of(item) if each] or [[]])
    place = chance.randrange(len(pairs) or 1)
    one = pairs[place] if pairs else None
    name, number = one if isinstance(one, tuple) else ("Q_SCALE", 1)
    owner = chance.choice([item, *getattr(item, "packets", [])])
    member = chance.choice(["nid", "dir", "data", "fill", "padding", "kind"])
    value = chance.choice([None, 0, 1, 2, 3, 5, 44, 137, 255, 256, -1, True, 1.0, "1", "", "01", "2", "0" * 70, "long", "train", b"1", etcs.Variables()])
    wrong = [(name, chance.choice([number + 1, 0, 2**14, 2**64, -1, True, 1.0, None, "1", b""])), (chance.choice(["D_LINK", "OTHER_DATA", "NID_PACKET", "FILL", "Q", 1, None, []]), number),
             (name,), (name, number, number), [name, number], name, {name: 1, 2: number}, {name, number}, None]
    done = chance.randrange(6)
    if done == 0 and pairs:
        pairs[place] = chance.choice(wrong)
    elif done == 1 and pairs:
        del pairs[place]
    elif done == 2:
        pairs.insert(place, chance.choice([one, *wrong, ("Q_SCALE", 1), ("NID_PACKET", 137), etcs.Packet(137, 1, [("Q_SRSTOP", 1)]), etcs.Packet(9, data="1"), etcs.Packet(68, 1, data="1" * 40)]))
    elif done == 3 and len(pairs) > 1:
        pairs[place], pairs[0] = pairs[0], pairs[place]
    elif done == 4 and hasattr(item, "fill"):
        item.fill = chance.choice([item.fill + "1", item.fill[1:], item.fill.replace("1", "0"), item.fill + "_0", " " + item.fill])
    else:
        setattr(owner, member, value)
    return done, place, owner, member, value


def by_json(item):
    """`encode` by JSON alone."""
    tree = item.to_dict()
    return etcs.encode(tree)


def answer_of(call):
    """The bytes, or what was raised; for what isn't even a tree, only that it was."""
    try:
        return call()
    except etcs.Refused as fault:
        return fault.bit, fault.variable
    except (etcs.NotAnItem, AttributeError, TypeError, ValueError):
        return None


class Tests(unittest.TestCase):
    def test_doc(self):
        attempted = 0
        for module in (etcs, _fields, _frame, _groups, _library, _log, _meanings, _parts, _runs, _values):
            found = doctest.testmod(module, extraglobs={"encode": etcs.encode})
            self.assertEqual(found.failed, 0)
            attempted += found.attempted
        self.assertGreater(attempted, 28)

    def test_round_trip(self):
        for data, kind in ((SHORT, "short"), (RADIO, "radio"), (example("long_line_ahead.hex"), "long"), (example("radio_kept.hex"), "radio"),
                           (example("train_position_report.hex"), "train"), (example("train_kept_packet.hex"), "train")):
            for at, item in etcs.items(data, kind):
                self.assertEqual(item.kind, kind)
                piece = data[at:at + len(etcs.encode(item))]
                self.assertEqual(etcs.encode(item), piece)
                self.assertEqual(etcs.encode(item.to_dict()), piece)
                self.assertEqual(etcs.from_json(json.dumps(item.to_dict())), item)
                self.assertEqual(etcs.from_fields(etcs.fields(piece, kind), kind), piece)
                self.assertEqual(etcs.show(item), etcs.show(piece, kind))
        self.assertEqual(etcs.decode(SHORT, "short").packets, [etcs.Packet(44, 2, etcs.Variables(), "1")])

    def test_two_ways(self):
        """`decode` and `encode` go by fields, and answer as they do by JSON: of each example, of each packet of SUPPORTED.md, and of
        items in which something is changed."""
        chance = random.Random(1)
        for data, kind in all_items():
            item = etcs.decode(data, kind)
            self.assertEqual(item, etcs.from_dict(json.loads(_library.to_json(data, kind)[0])))
            self.assertEqual(_library.if_item(fields_of(item), kind), data)
            for _ in range(60):
                item = copy.deepcopy(etcs.decode(data, kind))
                what = change(item, chance)
                self.assertEqual(answer_of(lambda: etcs.encode(item)), answer_of(lambda: by_json(item)), what)

    def test_tree(self):
        lines = repr(etcs.decode(RADIO, "radio")).split("\n")
        self.assertEqual(lines, ["radio message 24", "  T_TRAIN = 0", "  M_ACK = 0", "  NID_LRBG = 16385", "  packet 137, direction 1", "    Q_SRSTOP = 1", "  PADDING 00000"])
        short = repr(etcs.decode(SHORT, "short")).split("\n")
        self.assertEqual((short[0], short[1], short[-1]), ("short telegram", "  Q_UPDOWN = 1", "  FILL 128 times 1"))
        self.assertEqual(repr(etcs.decode(SHORT, "short").packets[0]), "packet 44, direction 2\n  bits 1")
        self.assertEqual(repr(etcs.Packet(44, 0, data="10" * 20)), "packet 44, direction 0\n  bits " + "10" * 16 + ".., 40 bits")
        self.assertEqual(repr(etcs.Packet(44, 0, data=7)), "packet 44, direction 0\n  bits 7")

    def test_names(self):
        telegram = etcs.decode(example("short_linking.hex"), "short")
        link = telegram.packets[0]
        self.assertEqual((telegram["NID_BG"], link["D_LINK"], link["NID_C"]), (511, 1180, 99))
        self.assertEqual((link.all("Q_DIR"), "N_ITER" in link, "Q_FRONT" in link), ([], True, False))
        self.assertEqual((link.fields[1], link.fields.get("Q_FRONT", 7)), (("D_LINK", 1180), 7))
        with self.assertRaises(etcs.NoVariable):
            link["Q_FRONT"]
        with self.assertRaises(etcs.NoVariable):
            link["Q_FRONT"] = 1
        link["D_LINK"] = 900
        self.assertIn("  D_LINK 900\n", etcs.show(telegram))
        link.fields.append(("D_LINK", 1))
        with self.assertRaises(etcs.NoVariable):
            link["D_LINK"] = 2

    def test_pairs(self):
        """A packet and a message of pairs or of a mapping are as those that are read."""
        packet = etcs.Packet(137, 1, [("Q_SRSTOP", 1)])
        self.assertEqual((packet["Q_SRSTOP"], "Q_SRSTOP" in packet, packet.all("Q_SRSTOP")), (1, True, [1]))
        self.assertEqual(packet, etcs.decode(RADIO, "radio").packets[0])
        self.assertEqual(packet, etcs.Packet(137, 1, {"Q_SRSTOP": 1}))
        message = etcs.Message(24, [("T_TRAIN", 0), ("M_ACK", 0), ("NID_LRBG", 16385)], packets=(packet,), padding="00000")
        self.assertEqual((message, etcs.encode(message)), (etcs.decode(RADIO, "radio"), RADIO))
        self.assertIsNot(etcs.Packet(1).fields, etcs.Packet(1).fields)

    def test_meanings(self):
        """Texts as `explain` prints them (FORMAT.md has those of this telegram); meanings.py asks the program itself."""
        telegram = etcs.decode(example("short_linking.hex"), "short")
        link = telegram.packets[0]
        self.assertEqual((link.meaning("D_LINK"), link.meaning("Q_SCALE"), telegram.meaning("M_VERSION")), ("1180 m", "distances in 1 m", "version 2.1"))
        self.assertEqual([it[:3] for it in etcs.variables(telegram) if it.packet == 0][:5], [("NID_PACKET", 5, "Linking"), ("Q_DIR", 0, "reverse"), ("L_PACKET", 79, ""), ("Q_SCALE", 1, "distances in 1 m"), ("D_LINK", 1180, "1180 m")])
        self.assertEqual({(it.packet, it.nid) for it in etcs.variables(telegram)}, {(None, None), (0, 5)})
        self.assertEqual(etcs.variables(telegram), etcs.variables(etcs.encode(telegram), "short"))
        self.assertEqual([it[:5:2] for it in etcs.variables(RADIO, "radio")][:2], [("NID_MESSAGE", "General message", 8), ("L_MESSAGE", "", 10)])
        self.assertEqual((etcs.meaning("D_LINK", 5), etcs.meaning("D_LINK", 12345, 0), etcs.meaning("D_REF", 65535, 2), etcs.meaning("T_TRAIN", 5)), ("", "1234.5 m", "-10 m", "0.05 s"))
        with self.assertRaises(etcs.NoVariable):
            link.meaning("Q_FRONT")

    def test_page(self):
        """The page is the program's; a stand-in for it writes its words and how many bytes it gets."""
        with tempfile.TemporaryDirectory() as room:
            path = os.path.join(room, "etcs")
            with mock.patch.dict(os.environ, {"ETCS_PROGRAM": path}):
                item = etcs.decode(RADIO, "radio")
                self.assertIsNone(item._repr_html_())
                with self.assertRaises(FileNotFoundError):
                    etcs.page(item)
                with open(path, "w", encoding="ascii") as file:
                    file.write("#!/bin/sh\necho \"<!doctype html>$*\"\nwc -c\n")
                os.chmod(path, 0o755)
                wanted = "<!doctype html>explain --kind radio --from bin --to html\n"
                self.assertEqual((etcs.page(item), etcs.page([item, item]), etcs.page(RADIO[:5], "radio")), (f"{wanted}13\n", f"{wanted}26\n", f"{wanted}5\n"))
                self.assertIn('srcdoc="&lt;!doctype html&gt;explain', item._repr_html_())
                item.packets[0]["Q_SRSTOP"] = 2
                self.assertIsNone(item._repr_html_())
                with self.assertRaises(etcs.BadArgument):
                    etcs.page(RADIO)
                for wrong in ([item.to_dict()], [3], "radio"):
                    with self.assertRaisesRegex(TypeError, "^expected a Telegram or a Message, not (dict|int|str)$"):
                        etcs.page(wrong)

    def test_log(self):
        """Lines of FORMAT.md and COOKBOOK.md with what is said of them there; logs.py asks the program itself."""
        linking = example("short_linking.hex")[:27].hex()
        log = [f"12:00:03 {linking}\n", "\n", "# noon\n", f'{{"time":"12:00:03","data":"{linking}"}}\n', f"x{linking}", "A1", example("short_no_room.hex").hex(), RADIO.hex()]
        read = list(etcs.read_log(log, "short"))
        self.assertEqual([(it.number, it.kind, it.item and it.item["NID_BG"]) for it in read], [(1, "short", 511), (4, "short", 511), (6, None, None), (7, None, None), (8, None, None)])
        self.assertEqual((read[0].front, read[1].front), ("12:00:03", '{"time":"12:00:03","data":"'))
        notes = ["", "", "1 byte, but a short telegram has 27", "refused at bit 72, L_PACKET: L_PACKET 153 doesn't fit into the 160 bits that are left, of which packet 255 needs 8; 152 is the greatest that fits",
                 "other: 13 bytes, as a radio message whose L_MESSAGE says so"]
        self.assertEqual([it.note for it in read], notes)
        self.assertEqual([type(it.fault) for it in read[2:]], [etcs.BadLine, etcs.Refused, etcs.OtherKind])
        self.assertEqual([(it.number, it.note) for it in etcs.read_log(log, "short", strict=True)][2], (5, "no hexadecimal digits at its end"))
        self.assertEqual([(*it[:4], it.note) for it in etcs.read_log(map(str.encode, log), ["short"])], [(*it[:4], it.note) for it in read])
        self.assertEqual([it.kind for it in etcs.read_log(log, "radio,short")], ["short", "short", None, None, "radio"])
        self.assertEqual([(*it[:4], it.note) for it in pickle.loads(pickle.dumps(read))], [(*it[:4], it.note) for it in read])
        for wrong in ("tram", "", [], "short,"):
            with self.assertRaises(etcs.BadArgument):
                list(etcs.read_log([], wrong))

    def test_lines(self):
        """A line is text or bytes, of 2**20 bytes at most; numbers are none, though bytes() takes them."""
        for line in ("12:00 A1\r\n", b"12:00 A1\n", bytearray(b"12:00 A1"), memoryview(b"12:00 A1\r\n"), memoryview(b"12:00 A1").cast("c")):
            self.assertEqual([(it.front, it.note) for it in etcs.read_log([line], "short")], [("12:00", "1 byte (A1), but a short telegram has 27")])
        for wrong in ([65, 49], (65, 49), [], 3, 0, True, None, 1.5, range(3), [b"A1"], memoryview(b"A1A1").cast("I"), object()):
            with self.assertRaisesRegex(TypeError, "^expected bytes, a bytearray or a memoryview of bytes, not "):
                list(etcs.read_log([wrong], "short"))
        # the text of a log is none, though its parts are: the error comes before the first line is asked for
        for text, name in (("A1\nA2\n", "str"), ("\rA1", "str"), (b"A1", "bytes"), (bytearray(b"A1\nA2"), "bytearray"), (memoryview(b"A1"), "memoryview")):
            with self.assertRaisesRegex(TypeError, f"^expected a path, an open file or lines, not the text of a log: {name}.splitlines makes lines$"):
                etcs.read_log(text, "short")
        for wrong in (None, 3, 1.5, object()):
            with self.assertRaisesRegex(TypeError, "^expected a path, an open file or lines, not "):
                etcs.read_log(wrong, "short")
        whole, too_long = "524288 bytes, but a short telegram has 27", "line longer than 1,048,576 characters"
        for line, note in (("A1" * 2**19, whole), ("A1" * 2**19 + "\n", whole), ("A1" * 2**19 + "\r\n", whole), ("A1" * 2**19 + "1", too_long),
                           ("A1" * 2**19 + "1\r\n", too_long), ("\u00e9" * (2**19 - 1) + "A1", "1 byte (A1), but a short telegram has 27"), ("\u00e9" * 2**19 + "1", too_long)):
            for form in (line, line.encode(), memoryview(line.encode())):
                self.assertEqual([it.note for it in etcs.read_log([form], "short")], [note])

    def test_groups(self):
        """The groups of the examples, with the words of examples/README.md and COOKBOOK.md."""
        named = {"group_in_order": "group 1 1 complete", "group_missing": "group 1 1 missing 1", "group_turned": "group 1 1 complete"}
        for name, line in named.items():
            found = etcs.groups(item for _, item in etcs.items(example(f"{name}.hex"), "short"))
            self.assertEqual(list(map(str, found)), [line], name)
        found = etcs.groups(item for _, item in etcs.items(example("group_clash.hex"), "short"))
        self.assertEqual(sum(it.clashes for it in found), 1)
        self.assertEqual(list(map(str, etcs.groups([etcs.decode(RADIO, "radio")]))), [])
        self.assertEqual((found[0].nid_c, list(found[0].telegrams), str(found[0])), (1, [1], "group 1 1 complete clashes 1"))
        for wrong in (3, None, etcs.decode(RADIO, "radio"), {"kind": "short"}):
            with self.assertRaisesRegex(TypeError, "^expected a Telegram, not "):
                found[0].add(wrong)
        for call in (etcs.Group(1, 1).add, lambda it: etcs.groups([it])):
            with self.assertRaisesRegex(etcs.NotAnItem, r"^no item of the kind has this tree: \.header: "):
                call(etcs.Telegram("short", [], [], ""))

    def test_build(self):
        """The telegram of COOKBOOK.md, "A telegram of your own", and others as long as FORMAT.md says."""
        named = {"NID_BG": 600, "NID_C": 98, "M_VERSION": 33, "Q_LINK": 1, "M_MCOUNT": 255}
        stop = etcs.Packet(137, 1, [("Q_SRSTOP", 1)])
        whole = [("Q_UPDOWN", 1), ("M_VERSION", 33), ("Q_MEDIA", 0), ("N_PIG", 0), ("N_TOTAL", 0), ("M_DUP", 0), ("M_MCOUNT", 255), ("NID_C", 98), ("NID_BG", 600), ("Q_LINK", 1)]
        for header in (named, whole, etcs.Variables(whole)):
            telegram = etcs.Telegram.build(header, iter([stop]))
            self.assertEqual(etcs.encode(telegram).hex(), "a1007f8c412c62500c7fffffffffffffffffffffffffffffffffc0")
        # 152 bits of packets are in a short telegram, 772 in a long one; a frame has 23, packet 0 has 14
        for packets, kind, fill in (
            ([], "short", 152), ([stop] * 6, "short", 8), ([stop] * 7, "long", 604), ([etcs.Packet(44, 0, data="1" * 129)], "short", 0),
            ([etcs.Packet(44, 0, data="1" * 130)], "long", 619), ([etcs.Packet(0, fields=[("NID_VBCMK", 3)])], "short", 138), ([stop] * 32, "long", 4),
        ):
            telegram = etcs.Telegram.build(named, packets)
            self.assertEqual((telegram.kind, telegram.fill), (kind, "1" * fill))
            self.assertEqual(etcs.decode(etcs.encode(telegram), kind), telegram)
        self.assertEqual(len(etcs.encode(etcs.Telegram.build({}, [], "long"))), 104)
        for words in (({"NID_MN": 1}, []), (named, [stop] * 7, "short"), (named, [stop] * 33), (named, [etcs.Packet(137, 1, [("Q_SR", 1)])])):
            with self.assertRaises(etcs.NotAnItem):
                etcs.Telegram.build(*words)
        for wrong in ("radio", 3, ["short"]):
            with self.assertRaises(etcs.BadArgument):
                etcs.Telegram.build(named, [], wrong)
        for wrong in (["NID_BG"], [("NID_BG", 600, 1)], [("NID_BG",)]):
            with self.assertRaises(etcs.NotAnItem):
                etcs.Telegram.build(wrong, [])
        # a single packet is a list of its variables
        for wrong in (stop, [stop.to_dict()], [None], "packets"):
            with self.assertRaisesRegex(TypeError, "^expected a Packet, not "):
                etcs.Telegram.build(named, wrong)

    def test_blank(self):
        """Each packet that SUPPORTED.md has to begin with, in an item."""
        with open(os.path.join(EXAMPLES, "..", "docs", "SUPPORTED.md"), encoding="utf-8") as file:
            found = [json.loads(line) for line in file if line.startswith('{"') and '"nid"' in line]
        begun = [tree for tree in found if "kind" not in tree]
        # those to the track are the second list, which begins with its packet 0
        begun, track = begun[begun.index({"fields": [["NID_VBCMK", 0]], "nid": 0}):], 33
        self.assertEqual((begun[track]["nid"], len(begun)), (0, track + 5))
        for place, tree in enumerate(begun):
            kind = "radio" if place < track else "train"
            packet = etcs.blank(tree["nid"], kind)
            self.assertEqual(packet.to_dict(), tree)
            if (kind, packet.nid) == ("radio", 0):
                etcs.encode(etcs.Telegram.build({}, [packet]))
                continue
            etcs.encode(etcs.Message.build(24 if kind == "radio" else 136, (), [packet], kind=kind))
        packet = etcs.blank(42)
        packet["NID_RADIO"] = 0xFFFFFFFFFFFFFFFF
        self.assertEqual(etcs.decode(etcs.encode(etcs.Telegram.build({}, [packet])), "short").packets, [packet])
        self.assertEqual((etcs.blank(200), etcs.blank(7, "train")), (etcs.Packet(200, 1, data=""), etcs.Packet(7, data="")))
        self.assertIsNot(etcs.blank(16).fields, etcs.blank(16).fields)
        for wrong in (-1, 256, "12", [12]):
            with self.assertRaises(etcs.BadArgument):
                etcs.blank(wrong)
        # packet 255 is the end of a telegram's packets, and to the track a number as others
        for kind in ("long", "short", "radio"):
            with self.assertRaisesRegex(etcs.BadArgument, "^packet 255 ends the packets of a telegram, and is none of them$"):
                etcs.blank(255, kind)
        self.assertEqual(etcs.blank(255, "train"), etcs.Packet(255, data=""))

    def test_fields(self):
        found = etcs.fields(SHORT, "short")
        self.assertEqual([each[:4] for each in found[:3]], [("Q_UPDOWN", 1, 0, 1), ("M_VERSION", 32, 1, 7), ("Q_MEDIA", 0, 8, 1)])
        self.assertEqual([each[:2] for each in found[10:15]], [("NID_PACKET", 44), ("Q_DIR", 2), ("L_PACKET", 24), ("OTHER_DATA", 1), ("NID_PACKET", 255)])
        self.assertEqual([each[:2] for each in found[15:]], [("FILL", 2 ** 64 - 1)] * 2 + [("PAD", 0)])
        self.assertEqual([each[2:4] for each in found[15:]], [(82, 64), (146, 64), (210, 6)])
        self.assertEqual([each[:2] for each in etcs.fields(RADIO, "radio")[-2:]], [("Q_SRSTOP", 1), ("PADDING", 0)])
        found[1] = found[1]._replace(number=33)
        self.assertEqual(etcs.decode(etcs.from_fields(found, "short"), "short")["M_VERSION"], 33)
        found[1] = found[1]._replace(number=34)
        with self.assertRaises(etcs.Refused) as caught:
            etcs.from_fields(found, "short")
        self.assertEqual((caught.exception.bit, caught.exception.variable), (6, "M_VERSION"))
        for wrong in (found[1]._replace(number=300), found[1]._replace(number=-1), found[1]._replace(number=33, var=81), found[1]._replace(width=70)):
            with self.assertRaises(etcs.NotAnItem):
                etcs.from_fields([found[0], wrong, *found[2:]], "short")
        for wrong in (("Q_UPDOWN", 1), 3, None, found):
            with self.assertRaises(etcs.NotAnItem):
                etcs.from_fields([wrong, *found[1:]], "short")
        with self.assertRaises(etcs.Truncated):
            etcs.from_fields(found[:1], "short")

    def test_edit(self):
        item = etcs.decode(RADIO, "radio")
        item.packets[0]["Q_SRSTOP"] = 0
        self.assertEqual(etcs.decode(etcs.encode(item), "radio"), item)
        for wrong in (2, -1, 1.0, "1", True, None):
            item.packets[0]["Q_SRSTOP"] = wrong
            with self.assertRaises(etcs.NotAnItem):
                etcs.encode(item)
        for tree in ({"nid": 1}, {"kind": "tram"}, {"kind": "short"}, {}):
            with self.assertRaises(etcs.NotAnItem):
                etcs.encode(tree)
            with self.assertRaises(etcs.NotAnItem):
                etcs.from_dict(tree)
        with self.assertRaises(etcs.NotAnItem):
            etcs.from_json("{")

    def test_faults(self):
        with self.assertRaises(etcs.Refused) as caught:
            etcs.decode(bytes.fromhex("0602C0"), "radio")
        self.assertEqual((caught.exception.bit, caught.exception.variable, str(caught.exception)), (17, "L_MESSAGE", "refused at bit 17, L_MESSAGE"))
        with self.assertRaises(etcs.Truncated) as caught:
            etcs.check(SHORT[:26], "short")
        self.assertEqual(caught.exception.bits, 208)
        with self.assertRaises(etcs.Truncated):
            etcs.check(b"", "short")
        with self.assertRaises(etcs.EtcsError):
            etcs.decode(SHORT + b"\0", "short")

    def test_bytes(self):
        for form in (bytearray, memoryview, lambda data: memoryview(data).cast("c")):
            self.assertEqual(etcs.check(form(SHORT), "short"), 27)
        for wrong in (3, True, "A000", [1, 2], (0, 0), None, memoryview(SHORT[:24]).cast("I"), range(27)):
            for call in (lambda: etcs.check(wrong, "short"), lambda: etcs.decode(wrong, "short"), lambda: list(etcs.items(wrong, "short")),
                         lambda: etcs.fields(wrong, "short"), lambda: etcs.show(wrong, "short"), lambda: etcs.Reader("short").feed(wrong)):
                with self.assertRaisesRegex(TypeError, "^expected bytes, a bytearray or a memoryview of bytes, not "):
                    call()
        with self.assertRaisesRegex(TypeError, "not str: bytes.fromhex"):
            etcs.decode("A000", "short")
        for wrong in (3, None, [b"{}"]):
            with self.assertRaises(TypeError):
                etcs.from_json(wrong)
            with self.assertRaises(TypeError):
                etcs.encode(wrong)
        # a subclass with a length of its own: the bytes that it holds count
        for form in (bytes, bytearray):
            longer = type("Longer", (form,), {"__len__": lambda self: 2**20, "__bytes__": lambda self: bytes(2**10)})
            self.assertEqual(etcs.decode(longer(SHORT), "short"), etcs.decode(SHORT, "short"))
            with self.assertRaises(etcs.Truncated) as caught:
                etcs.check(longer(SHORT[:26]), "short")
            self.assertEqual(caught.exception.bits, 208)
            line = json.dumps(etcs.decode(RADIO, "radio").to_dict()).encode()
            coded = type("Coded", (str,), {"encode": lambda self, *how: longer(line)})
            self.assertEqual(etcs.from_json(coded("{}")), etcs.decode(RADIO, "radio"))
            self.assertEqual([it.note for it in etcs.read_log([longer(b"A1")], "short")], ["1 byte, but a short telegram has 27"])
        released = memoryview(SHORT)
        released.release()
        with self.assertRaises(etcs.BadArgument):
            etcs.check(released, "short")

    def test_kinds(self):
        """A kind that there isn't, in each call that takes one."""
        calls = (lambda kind: etcs.check(SHORT, kind), lambda kind: etcs.decode(SHORT, kind), lambda kind: list(etcs.items(SHORT, kind)),
                 lambda kind: etcs.fields(SHORT, kind), lambda kind: etcs.from_fields(etcs.fields(SHORT, "short"), kind), lambda kind: etcs.blank(12, kind),
                 lambda kind: list(etcs.read_log([], [kind])), etcs.Reader, lambda kind: etcs.show(SHORT, kind), lambda kind: etcs.variables(SHORT, kind),
                 lambda kind: etcs.page(SHORT, kind))
        nested = ()
        for _ in range(5000):
            nested = (nested,)
        for call in calls:
            for wrong in ("tram", "", "Short", 2, ["short"], b"short", nested):
                with self.assertRaisesRegex(etcs.BadArgument, "^kind .* is none of long, short, radio, train$"):
                    call(wrong)
        for call in calls[:8]:
            with self.assertRaisesRegex(ValueError, "^kind None is none of long, short, radio, train$"):
                call(None)
        for call in (lambda: etcs.show(SHORT), lambda: etcs.variables(SHORT), lambda: etcs.page(SHORT), lambda: etcs.page([])):
            with self.assertRaisesRegex(etcs.BadArgument, "^kind '' is none of long, short, radio, train$"):
                call()

    def test_number(self):
        self.assertTrue(etcs.show(SHORT, "short", 2 ** 64 - 1).startswith("item 18446744073709551615 short 210 bits\n"))
        limits = "is a whole number from 0 to"
        for wrong, text in ((-1, "-1"), (2**64, "18446744073709551616"), (1.5, "1.5"), ("1", "'1'"), (None, "None"), (10**5000, "this int"), ([1] * 99, "this list")):
            for call in (lambda: etcs.show(SHORT, "short", wrong), lambda: etcs.show(etcs.decode(SHORT, "short"), number=wrong)):
                with self.assertRaises(etcs.BadArgument) as caught:
                    call()
                self.assertEqual(str(caught.exception), f"the number of an item {limits} 18446744073709551615, not {text}")
            with self.assertRaises(etcs.BadArgument) as caught:
                etcs.blank(wrong)
            self.assertEqual(str(caught.exception), f"NID_PACKET {limits} 255, not {text}")
        for wrong in (1.5, "5", None, [5]):
            with self.assertRaises(etcs.BadArgument):
                etcs.meaning("D_LINK", wrong, 1)
            with self.assertRaises(etcs.BadArgument):
                etcs.Packet(5, 1, [("D_LINK", wrong)]).meaning("D_LINK")
        for wrong in (-1, 32768, 2**64):
            with self.assertRaisesRegex(etcs.BadArgument, f"^the number of D_LINK is a whole number from 0 to 32767, not {wrong}$"):
                etcs.meaning("D_LINK", wrong, 1)
        self.assertEqual([etcs.meaning("D_LINK", 5, scale) for scale in (1.0, 1.5, [1], -1, 3)], ["5 m", "", "", "", ""])

    def test_own_errors(self):
        """Each is an EtcsError and a ValueError; where a name is sought it is a KeyError too."""
        for own in (etcs.Refused, etcs.Truncated, etcs.NotAnItem, etcs.BadArgument, etcs.NoVariable, etcs.BadLine, etcs.OtherKind):
            self.assertTrue(issubclass(own, etcs.EtcsError) and issubclass(own, ValueError), own)
            self.assertTrue(own.__name__ in etcs.__all__ and own.__module__ == "etcs", own)
            self.assertEqual(issubclass(own, KeyError), own is etcs.NoVariable)
        with self.assertRaises(etcs.NoVariable) as caught:
            etcs.decode(SHORT, "short")["D_LINK"]
        self.assertEqual((caught.exception.args, str(caught.exception)), (("D_LINK",), "'D_LINK'"))
        self.assertEqual(pickle.loads(pickle.dumps(caught.exception)).args, ("D_LINK",))
        for wrong in (["Q_SRSTOP"], [("Q_SRSTOP",)], [("Q_SRSTOP", 1, 2)], "Q"):
            for call in (lambda: etcs.Packet(137, 1, wrong), lambda: etcs.Message(24, wrong), lambda: etcs.Message(24, (), wrong), lambda: etcs.Telegram("short", wrong, [], "")):
                with self.assertRaises(etcs.NotAnItem):
                    call()
        with self.assertRaises(etcs.NotAnItem):
            etcs.Packet(42, 1, [("NID_RADIO", [10**5000])]).to_dict()

    def test_json(self):
        """from_json answers as the library does."""
        session = {"dir": 1, "fields": [["Q_RBC", 0], ["NID_C", 0], ["NID_RBC", 0], ["NID_RADIO", "00000000000000Af"], ["Q_SLEEPSESSION", 0]], "nid": 42}
        tree = {**etcs.decode(RADIO, "radio").to_dict(), "packets": [session], "padding": "0000"}
        line = json.dumps(tree)
        item = etcs.from_json(line)
        self.assertEqual(item.packets[0]["NID_RADIO"], 0xAF)
        for spelled in (line.encode(), bytearray(line.encode()), line.replace('"kind"', '"\\u006bind"'), f" {line} ", line.replace(":", " : "), line + "\n", line.replace("{", '{"kind": "tram", ', 1)):
            self.assertEqual(etcs.from_json(spelled), item)
        self.assertEqual(etcs.from_dict(tree), item)
        digits = "00000000000000Af"
        wrong = [line.replace(digits, each) for each in ("0x000000000000af", "+0000000000000af", "0000_0000_0000af", "00000000000000\uff10\uff11", "af", digits + "0")]
        wrong += [line.replace('"nid"', f'"{name}": 1, "nid"', 1) for name in ("further", "Kind", "data", "")]
        wrong += [line[:-1], line + line, line.replace('"M_ACK"', "M_ACK"), line.replace("[", "[1,", 1), "", "{}", "[]", "null", "NaN", "\ud800", "\ufeff" + line, line.encode("utf-16")]
        wrong += [line.replace(digits, "\udc80"), line.replace("radio", "train"), line.replace("radio", "tram"), "[" * 100000, '{"a":' * 100000, "1" * 5000, line.replace('"radio"', "5")]
        for each in wrong:
            with self.assertRaises(etcs.EtcsError, msg=each[:300]) as caught:
                etcs.from_json(each)
            self.assertTrue(str(caught.exception))
        further = {**tree, "packets": [{**session, "further": 1}]}
        nested = []
        for _ in range(100000):
            nested = [nested]
        circular = dict(tree)
        circular["packets"] = [circular]
        for each in ({**tree, "further": 1}, further, {**tree, "packets": [{**session, "fields": nested}]}, circular, {**tree, "nid": b""}, {**tree, "kind": []}, {**tree, "nid": 1 << 20000}):
            with self.assertRaises(etcs.EtcsError):
                etcs.encode(each)
        for each in ({**tree, "further": 1}, further):
            with self.assertRaises(etcs.NotAnItem):
                etcs.from_dict(each)
        for number in ("00000000000000af", 1.5, None, True, -1, 1 << 64):
            item.packets[0]["NID_RADIO"] = number
            with self.assertRaises(etcs.EtcsError):
                etcs.encode(item)

    def test_reasons(self):
        with self.assertRaises(etcs.Refused) as caught:
            etcs.decode(bytes.fromhex("0602C0"), "radio")
        fault = caught.exception
        self.assertEqual(fault.fields, [("NID_MESSAGE", 6, 0, 8, etcs.VARIABLES.index("NID_MESSAGE"))])
        self.assertEqual(fault.reason, "message 6 has 10 or 13 to 1023 bytes, not 11")
        self.assertEqual(pickle.loads(pickle.dumps(fault)).reason, fault.reason)
        # M_VERSION 34 of a telegram: bit 6 is its last but one, and 100010 begins 34 and 35
        sent = etcs.fields(SHORT, "short")
        sent[1] = sent[1]._replace(number=34)
        with self.assertRaises(etcs.Refused) as caught:
            etcs.from_fields(sent, "short")
        fault = caught.exception
        self.assertEqual((fault.bit, fault.variable, fault.fields), (6, "M_VERSION", sent[:1]))
        self.assertIn("M_VERSION admits", fault.reason)
        # the fields before a bit are those of the item whose bit was turned
        data, widths = example("short_linking.hex")[:27], dict(zip(VARIABLES, WIDTHS))
        for turned, fault in refused(data, "short"):
            before = fault.fields
            whole = sum(each.width for each in before)
            self.assertTrue(0 <= fault.bit - whole < widths[fault.variable])
            spelled = "".join(f"{each.number:0{each.width}b}" for each in before)
            self.assertEqual(spelled, f"{int.from_bytes(turned, 'big'):0216b}"[:whole])
            self.assertTrue(fault.reason)
        reader = etcs.Reader("radio")
        with self.assertRaises(etcs.Refused) as caught:
            reader.feed(RADIO + bytes.fromhex("0602C0"))
        self.assertEqual((caught.exception.item, caught.exception.reason), (2, "message 6 has 10 or 13 to 1023 bytes, not 11"))
        # a fault that somebody made has nothing to say
        self.assertEqual((etcs.Refused(3, "FILL").fields, etcs.Refused(3, "FILL").reason), ([], ""))

    def refused_as(self, digits, kind):
        """Why bytes are refused, as numbers."""
        with self.assertRaises(etcs.Refused) as caught:
            etcs.check(bytes.fromhex(digits), kind)
        fault = caught.exception
        self.assertEqual(pickle.loads(pickle.dumps(fault)).above, fault.above)
        return fault.cause, fault.number, fault.below, fault.above, fault.room, fault.packet

    def test_numbers_of_reasons(self):
        self.assertEqual(self.refused_as("0602C0", "radio"), ("spare", 11, 10, 13, None, None))
        self.assertEqual(self.refused_as("9F00", "train"), ("spare", None, None, 10, None, None))
        self.assertEqual(self.refused_as("A2", "short"), ("spare", 34, 33, None, None, None))
        # packet 12 has 73 bits, 89 with an entry; the first 12 bits of L_PACKET are those of 74 and 75
        self.assertEqual(self.refused_as("A0007F802000C32025", "short"), ("spare", None, 73, 89, 160, 12))
        # a packet 44 that leaves 7 of the 160 bits, where packet 255 needs 8
        self.assertEqual(self.refused_as("A100040C412C4B104CACACACACACACACACACACACACACACACACAC80", "short"), ("unfit", 153, 152, None, 160, 44))
        # in 37 bits: packet 135 would leave 14, 137 13, 136 has at least 38; 134 and 138 have any bits
        self.assertEqual(self.refused_as("1803800000000008003128062000", "radio"), ("unfit", 137, 134, 138, 37, None))
        # N_ITER 8 of packet 46, whose 45 bits after it are 7 or 15 entries
        self.assertEqual(self.refused_as("A0007F802000CB902604", "short"), ("unfit", None, 7, 15, 50, 46))
        none = ("Q_SCALE", "", b""), ("Q_SCALE", "short", SHORT), ("Q_SCALE", "short", b"", b"{}")
        for fault in (etcs.Refused(3, *each) for each in none):
            self.assertEqual((fault.cause, fault.number, fault.below, fault.above, fault.room, fault.packet), (None,) * 6)

    def test_numbers_by_the_tables(self):
        """Why bits are refused follows from share/etcs.tables.json alone (tests/tables_refusals.py)."""
        with open(os.path.join(TOP, "share", "etcs.tables.json"), encoding="utf-8") as file:
            tables = json.load(file)
        readers = {kind: tables_refusals.Reader(tables, kind) for kind in etcs.KINDS}
        for data, kind in all_items():
            for turned, fault in refused(data, kind):
                # also with the bytes up to the refused bit alone
                for given in (turned, turned[:fault.bit // 8 + 1]):
                    one, found = etcs.Refused(fault.bit, fault.variable, kind, given), readers[kind].refusal(given)
                    self.assertEqual((one.bit, one.variable), (found.bit, found.name))
                    self.assertEqual((one.cause, one.number, one.below, one.above, one.room, one.packet),
                                     (found.cause, found.number, found.below, found.above, found.room, found.packet))
                    self.assertEqual(one.reason, readers[kind].words(found))
                    self.compare_struct(given, kind, found)

    def compare_struct(self, data, kind, found):
        """What `etcs_refusal` writes is what follows from the tables."""
        reason, answer = _library._Reason(), _library._Answer()
        self.assertEqual(_library._lib.etcs_refusal(_library.KINDS[kind], data, len(data), reason, answer), 2)
        rest = (found.high - found.low).bit_length()
        width = dict(zip(VARIABLES, WIDTHS))[found.name]
        self.assertEqual((reason.bits, reason.count), (found.low >> rest, width - rest))
        here = (tables_refusals.ANY, tables_refusals.MESSAGE_LENGTH, tables_refusals.PACKET_NUMBER, tables_refusals.PACKET_LENGTH, tables_refusals.ROW)
        self.assertEqual(here[reason.here], found.here)
        numbers = [found.number, found.below, found.above, found.room, found.nid]
        self.assertEqual([reason.number, reason.below, reason.above, reason.room, reason.nid], [it or 0 for it in numbers])
        self.assertEqual(reason.has, sum(1 << place for place, it in enumerate(numbers) if it is not None))
        if found.cause == "unfit":
            self.assertTrue(found.low <= reason.unfit <= found.high)
        else:
            self.assertEqual(reason.unfit, 0)

    def test_reasons_of_trees(self):
        item = etcs.decode(RADIO, "radio")
        item.packets[0]["Q_SRSTOP"] = 2
        with self.assertRaises(etcs.NotAnItem) as caught:
            etcs.encode(item)
        self.assertTrue(caught.exception.reason.startswith(".packets[0].fields[0]"), caught.exception.reason)
        self.assertEqual(str(caught.exception), "no item of the kind has this tree: " + caught.exception.reason)
        self.assertEqual(pickle.loads(pickle.dumps(caught.exception)).reason, caught.exception.reason)
        with self.assertRaises(etcs.NotAnItem) as caught:
            etcs.encode({"kind": "tram"})
        self.assertEqual(caught.exception.reason, str(caught.exception))
        # JSON of a packet 68 with stored bits, from before it was typed, of which no packet has one bit
        tree = etcs.decode(SHORT, "short").to_dict()
        tree["packets"][0].update(nid=68, data="1")
        with self.assertRaises(etcs.Refused) as caught:
            etcs.encode(tree)
        self.assertEqual(caught.exception.fields, [])
        self.assertIn(f"refused at bit {caught.exception.bit} of the item, {caught.exception.variable}", caught.exception.reason)
        self.assertEqual(parts_of(caught.exception), (".packets[0].data", None, None, None))

    def wrong_as(self, call, value):
        """The path, the column, what is expected and what is found, by the exception for JSON or a tree."""
        with self.assertRaises(etcs.NotAnItem) as caught:
            call(value)
        fault = caught.exception
        parts = path, column, expected, found = parts_of(fault)
        self.assertEqual(parts_of(pickle.loads(pickle.dumps(fault))), parts)
        # the reason has the same parts
        self.assertTrue(path is None or fault.reason.startswith(f"{path}: {'' if expected is None else 'expected ' + expected}"), fault.reason)
        self.assertTrue(found is None or fault.reason.endswith(f", found {found}"), fault.reason)
        return parts

    def test_parts_of_reasons(self):
        line = json.dumps(etcs.decode(SHORT, "short").to_dict())
        tree = json.loads(line)
        tree["header"][9][0] = "Q_LIMK"
        self.assertEqual(self.wrong_as(etcs.encode, tree), (".header[9]", None, "Q_LINK", '"Q_LIMK"'))
        self.assertEqual(self.wrong_as(etcs.from_json, json.dumps(tree)), (".header[9]", None, "Q_LINK", '"Q_LIMK"'))
        tree["header"][9] = ["Q_LINK", 2]
        self.assertEqual(self.wrong_as(etcs.encode, tree), (".header[9]", None, None, None))
        tree["header"] = 7
        self.assertEqual(self.wrong_as(etcs.from_dict, tree), (".header", None, "a list of pairs", "7"))
        self.assertEqual(self.wrong_as(etcs.from_json, '{"kind":"short"}'), (".header", None, None, None))
        self.assertEqual(self.wrong_as(etcs.from_json, '{"kind":"radio","nid":256}'), (".nid", None, "a whole number from 0 to 255", "256"))
        self.assertEqual(self.wrong_as(etcs.from_json, '{"kind":"short","\u00e9":?}'), (None, 21, None, None))
        self.assertEqual(self.wrong_as(etcs.from_json, line[:40]), (None, 41, None, None))
        self.assertEqual(self.wrong_as(etcs.from_json, "[0,?]"), (None, 4, None, None))
        # without a kind there is no item to compare it with; nor is there for what is no JSON
        for call, value in ((etcs.from_json, '{"kind":"tram"}'), (etcs.from_json, "\ud800"), (etcs.from_dict, 7), (etcs.encode, {"kind": "tram"})):
            self.assertEqual(self.wrong_as(call, value), (None,) * 4)
        for fault in (etcs.NotAnItem("wrong"), etcs.Refused(3, "FILL"), etcs.Refused(3, "FILL", "short", SHORT)):
            self.assertEqual(parts_of(fault), (None,) * 4)
        # an item has nothing wrong
        self.assertEqual(parts_of(etcs.NotAnItem("", "short", line.encode())), (None,) * 4)

    def test_pieces(self):
        data = RADIO * 3
        for size in range(1, len(data) + 1):
            found = []
            with etcs.Reader("radio") as reader:
                for at in range(0, len(data), size):
                    found += reader.feed(data[at:at + size])
            self.assertEqual(found, [etcs.decode(RADIO, "radio")] * 3)
        reader = etcs.Reader("radio")
        self.assertEqual(len(reader.feed(RADIO + b"\x06\x02")), 1)
        with self.assertRaises(etcs.Truncated):
            reader.close()
        for _ in range(2):
            with self.assertRaises(etcs.Refused) as caught:
                reader.feed(b"\xC0")
            self.assertEqual((caught.exception.item, caught.exception.items), (2, []))

    def refusal_of(self, data, kind, size):
        """The piece with which a reader refuses a bit, from 0, or None for the end of the pieces; and the fault."""
        reader = etcs.Reader(kind)
        try:
            for number, at in enumerate(range(0, len(data), size)):
                self.assertEqual(reader.feed(data[at:at + size]), [])
            number = None
            reader.close()
        except etcs.Refused as fault:
            self.assertEqual((fault.item, fault.items), (1, []))
            return number, fault
        return self.fail("no bit is refused")

    def test_late_refusals(self):
        """A refused bit is reported when there are 1, 2, 3, 6, 12, .. bytes of the item, or all, or at the end of the input."""
        for name, kind in ("short_linking", "short"), ("long_line_ahead", "long"), ("radio_stop_in_sr", "radio"), ("train_position_report", "train"):
            data = example(f"{name}.hex")
            for turned, wanted in refused(data[:etcs.check(data, kind)], kind):
                # bits 8 to 17 of a message are L_MESSAGE
                count = int.from_bytes(turned[1:3], "big") >> 6 if kind in ("radio", "train") else len(turned)
                marks = {1, 2, 3, 6, 12, 24, 48, 96, 192, 384, 768, max(count, 3)}
                reach = wanted.bit // 8 + 1
                self.assertLess(min(mark for mark in marks if mark >= reach), 2 * reach)
                for size, end in (1, reach), (1, len(turned)), (5, len(turned)), (len(turned), len(turned)):
                    number, fault = self.refusal_of(turned[:end], kind, size)
                    self.assertEqual((fault.bit, fault.variable), (wanted.bit, wanted.variable))
                    ends = [*range(size, end, size), end]
                    read = (at for at, last in enumerate(ends) if last >= reach and any(last - size < mark <= last for mark in marks))
                    self.assertEqual(number, next(read, None))

    def test_few_readings(self):
        """An item of n bytes that come one by one is read from fewer than 3n bytes, counted each time that they are read."""
        read, fields_of_bytes = [], _library.fields
        for count in 3, 4, 13, 100, 767, 768, 769, 1023:
            # message 15 isn't typed: it is NID_MESSAGE, L_MESSAGE and bits that are kept
            data = (15 << 16 | count << 6).to_bytes(3, "big") + bytes(count - 3)
            read.clear()
            with mock.patch.object(_library, "fields", lambda front, kind: read.append(len(front)) or fields_of_bytes(front, kind)):
                reader = etcs.Reader("radio")
                found = [reader.feed(data[at:at + 1]) for at in range(count)]
            self.assertEqual(found, [[]] * (count - 1) + [[etcs.decode(data, "radio")]])
            self.assertEqual(read, [each for each in (1, 2, 3, 6, 12, 24, 48, 96, 192, 384, 768) if each < count] + [count])
            self.assertLess(sum(read), 3 * count)

    def test_reader_without_memory(self):
        """A call that runs out of memory leaves the reader as it was before the piece."""
        reader, fields_of_bytes = etcs.Reader("radio"), _library.fields
        self.assertEqual(reader.feed(RADIO[:5]), [])
        piece, calls = RADIO[5:] + RADIO + RADIO[:2], []

        def failing(front, kind):
            calls.append(front)
            if len(calls) == 2:
                raise MemoryError
            return fields_of_bytes(front, kind)

        with mock.patch.object(_library, "fields", failing):
            with self.assertRaises(MemoryError):
                reader.feed(piece)
            self.assertEqual(reader.count, 0)
            self.assertEqual(reader.feed(piece), [etcs.decode(RADIO, "radio")] * 2)
        self.assertEqual((reader.count, len(reader.feed(RADIO[2:]))), (2, 1))

    def test_items(self):
        self.assertEqual([at for at, _ in etcs.items(SHORT * 4, "short")], [0, 27, 54, 81])

    def test_signals(self):
        """A signal handler that calls in the middle of a call gets its own answer, and the call that it interrupts keeps its own."""
        long, kept = example("long_line_ahead.hex")[:104], example("radio_kept.hex")
        calls = [
            lambda: etcs.encode(etcs.decode(SHORT, "short")), lambda: etcs.encode(etcs.decode(long, "long")), lambda: etcs.show(long, "long"),
            lambda: etcs.fields(SHORT, "short"), lambda: etcs.check(long, "long"), lambda: etcs.fields(long, "long"),
            lambda: etcs.check(kept, "radio"), lambda: self.reason_of(bytes.fromhex("0602C0")),
        ]
        wanted, wrong, count, deep = [call() for call in calls], [], [0], [0]

        def ask(begin):
            for place in range(begin, begin + len(calls)):
                if calls[place % len(calls)]() != wanted[place % len(calls)]:
                    wrong.append(place % len(calls))

        def answer(number, frame):
            count[0] += 1
            if deep[0] == 8:  # on a slow machine handlers would interrupt one another without end
                return
            deep[0] += 1
            place = count[0] % len(calls)
            if calls[place]() != wanted[place]:
                wrong.append(place)
            deep[0] -= 1

        before = signal.signal(signal.SIGALRM, answer)
        try:
            signal.setitimer(signal.ITIMER_REAL, 0.0003, 0.0003)
            end = time.monotonic() + 3
            while time.monotonic() < end:
                ask(0)
        finally:
            signal.setitimer(signal.ITIMER_REAL, 0)
            signal.signal(signal.SIGALRM, before)
        self.assertGreater(count[0], 100)
        self.assertEqual(wrong, [])

    @staticmethod
    def reason_of(data):
        try:
            etcs.decode(data, "radio")
        except etcs.Refused as fault:
            return fault.bit, fault.variable, fault.reason, fault.fields

    def test_threads(self):
        wrong = []

        def work():
            for _ in range(2000):
                if etcs.encode(etcs.decode(SHORT, "short")) != SHORT:
                    wrong.append(1)

        threads = [threading.Thread(target=work) for _ in range(4)]
        for thread in threads:
            thread.start()
        for thread in threads:
            thread.join()
        self.assertEqual(wrong, [])


if __name__ == "__main__":
    unittest.main()
