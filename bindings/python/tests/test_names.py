"""Names in brackets, packets with entries, items that are built, and what errors say: numbers are worked out by hand from
docs/FORMAT.md and docs/SUPPORTED.md."""

import unittest

import etcs
from etcs._rows import OWN
from test_etcs import RADIO, example

HEADER = ["Q_UPDOWN", "M_VERSION", "Q_MEDIA", "N_PIG", "N_TOTAL", "M_DUP", "M_MCOUNT", "NID_C", "NID_BG", "Q_LINK"]
STOP = etcs.Packet(137, 1, [("Q_SRSTOP", 1)])
LINK = [("D_LINK", 100), ("Q_NEWCOUNTRY", 0), ("NID_BG", 2041), ("Q_LINKORIENTATION", 1), ("Q_LINKREACTION", 0), ("Q_LOCACC", 5)]


def links():
    """Three links, the second of which is in another country; and distances in 10 m."""
    second = [("D_LINK", 20), ("Q_NEWCOUNTRY", 1), ("NID_C", 99), ("NID_BG", 2042), *LINK[3:]]
    third = [("D_LINK", 30), ("Q_NEWCOUNTRY", 0), ("NID_BG", 2043), *LINK[3:]]
    return etcs.Packet(5, 1, [("Q_SCALE", 2), *LINK, ("N_ITER", 2), *second, *third])


def bits(*parts):
    """The bytes of numbers with their widths."""
    text = "".join(f"{number:0{width}b}" for number, width in parts)
    return int(text, 2).to_bytes(len(text) // 8, "big")


class Names(unittest.TestCase):
    def test_telegram(self):
        telegram = etcs.decode(example("short_linking.hex"), "short")
        self.assertEqual(("NID_BG" in telegram, "D_LINK" in telegram, "packets" in telegram, 511 in telegram, None in telegram), (True, False, False, False, False))
        self.assertEqual((telegram["NID_BG"], telegram.get("NID_BG"), telegram.get("D_LINK"), telegram.get("D_LINK", 7)), (511, 511, None, 7))
        self.assertEqual((list(telegram), telegram.all("NID_BG"), telegram.all("D_LINK")), (HEADER, [511], []))
        self.assertEqual({name: telegram[name] for name in telegram}["M_VERSION"], 33)
        for name in ("D_LINK", 0, None, ("NID_BG", 511)):
            with self.assertRaises(etcs.NoVariable):
                telegram[name]
        with self.assertRaises(etcs.NoVariable):
            telegram["D_LINK"] = 1
        self.assertTrue(telegram)

    def test_message(self):
        """Its own variables are found first: message 8 has a T_TRAIN of its own after the header's."""
        message = etcs.decode(RADIO, "radio")
        self.assertEqual((list(message), message["NID_LRBG"], message.get("M_ACK"), "NID_ENGINE" in message), (["T_TRAIN", "M_ACK", "NID_LRBG"], 16385, 0, False))
        message["NID_LRBG"] = 2
        self.assertEqual(etcs.encode(message), bits((24, 8), (13, 10), (0, 32), (0, 1), (2, 24), (137, 8), (1, 2), (24, 13), (1, 1), (0, 5)))
        self.assertEqual(etcs.decode(etcs.encode(message), "radio").header, [("T_TRAIN", 0), ("M_ACK", 0), ("NID_LRBG", 2)])
        order = etcs.Message.build(8, {"T_TRAIN": 1}, fields={"T_TRAIN": 2})
        self.assertEqual((order["T_TRAIN"], order.all("T_TRAIN"), list(order)), (2, [2, 1], ["T_TRAIN", "M_ACK", "NID_LRBG"]))
        order["T_TRAIN"] = 3
        self.assertEqual((order.header["T_TRAIN"], order.fields["T_TRAIN"], order.meaning("T_TRAIN")), (1, 3, "0.03 s"))

    def test_packet(self):
        packet = links()
        self.assertEqual(list(packet), ["Q_SCALE", "D_LINK", "Q_NEWCOUNTRY", "NID_BG", "Q_LINKORIENTATION", "Q_LINKREACTION", "Q_LOCACC", "N_ITER", "NID_C"])
        self.assertEqual((packet.get("NID_C"), packet.get("Q_FRONT"), packet.all("NID_BG")), (99, None, [2041, 2042, 2043]))


class Entries(unittest.TestCase):
    def test_links(self):
        """Which of three links has a NID_C."""
        first = links().entries()
        self.assertEqual(first.fields, [("Q_SCALE", 2), *LINK, ("N_ITER", 2)])
        self.assertEqual([[len(entry.groups) for entry in group] for group in first.groups], [[0, 0]])
        every = [first, *first.groups[0]]
        self.assertEqual([(it["NID_BG"], it.get("NID_C"), it.meaning("D_LINK")) for it in every], [(2041, None, "1000 m"), (2042, 99, "200 m"), (2043, None, "300 m")])
        self.assertEqual(("NID_C" in every[1], "NID_C" in every[2], "N_ITER" in every[1]), (True, False, False))
        with self.assertRaises(etcs.NoVariable):
            every[2]["NID_C"]
        self.assertEqual(links().entries(), first)
        self.assertEqual(repr(first.groups[0][1]), "D_LINK = 30\nQ_NEWCOUNTRY = 0\nNID_BG = 2043\nQ_LINKORIENTATION = 1\nQ_LINKREACTION = 0\nQ_LOCACC = 5")
        self.assertIn("\ngroups[0][1]\n  D_LINK = 30\n", repr(first))

    def test_nested(self):
        """Packet 27 of the long telegram of FORMAT.md: a first speed without entries, then two, the first with an entry."""
        telegram = etcs.decode(example("long_line_ahead.hex")[:104], "long")
        whole = telegram.packets[3].entries()
        self.assertEqual(whole.fields, [("Q_SCALE", 1), ("D_STATIC", 0), ("V_STATIC", 28), ("Q_FRONT", 0), ("N_ITER", 0), ("N_ITER", 2)])
        none, speeds = whole.groups
        self.assertEqual((none, [it.fields for it in speeds]), ([], [[("D_STATIC", 900), ("V_STATIC", 20), ("Q_FRONT", 1), ("N_ITER", 1)], [("D_STATIC", 1400), ("V_STATIC", 127), ("Q_FRONT", 0), ("N_ITER", 0)]]))
        self.assertEqual([[it.fields for it in speed.groups[0]] for speed in speeds], [[[("Q_DIFF", 0), ("NC_CDDIFF", 3), ("V_DIFF", 24)]], []])
        self.assertEqual((speeds[0].meaning("D_STATIC"), speeds[0].groups[0][0].meaning("V_DIFF")), ("900 m", "120 km/h"))
        # variables by the bit where they begin, as FORMAT.md has them
        entries = {it.bit: it.entry for it in etcs.variables(telegram)}
        self.assertEqual([entries[bit] for bit in (0, 119, 207, 212, 228, 444, 449, 454, 477, 482, 488, 495, 518, 523)], [(), (0,), (), (0,), (), (), (), (0,), (0,), (0, 0), (0, 0), (1,), (1,), ()])

    def test_others(self):
        """A group within one that is optional, characters, a packet without groups, one to the track, and one that is kept."""
        begun = [("Q_SCALE", 1), ("Q_TRACKINIT", 0), ("D_TRACKCOND", 10), ("L_TRACKCOND", 20), ("M_TRACKCOND", 3), ("N_ITER", 1), ("D_TRACKCOND", 30), ("L_TRACKCOND", 40), ("M_TRACKCOND", 3)]
        self.assertEqual([it.fields for it in etcs.Packet(68, 1, begun).entries().groups[0]], [begun[6:]])
        self.assertEqual(etcs.Packet(68, 1, [("Q_SCALE", 1), ("Q_TRACKINIT", 1), ("D_TRACKINIT", 7)]).entries().groups, [])
        # Q_DIFF 0 is followed by NC_CDDIFF, 1 and 2 by NC_DIFF
        kinds = [[("Q_DIFF", 0), ("NC_CDDIFF", 3), ("V_DIFF", 20)], [("Q_DIFF", 2), ("NC_DIFF", 1), ("V_DIFF", 24)], [("Q_DIFF", 1), ("NC_DIFF", 2), ("V_DIFF", 26)]]
        speeds = etcs.Packet(27, 1, [("Q_SCALE", 1), ("D_STATIC", 0), ("V_STATIC", 28), ("Q_FRONT", 0), ("N_ITER", 3), *kinds[0], *kinds[1], *kinds[2], ("N_ITER", 0)])
        self.assertEqual([[it.fields for it in group] for group in speeds.entries().groups], [kinds, []])
        # Q_TEXTCONFIRM isn't 0: Q_CONFTEXTDISPLAY and Q_TEXTREPORT, and for 1 of that three more
        begun = etcs.blank(72)
        place = begun.fields.index(("Q_TEXTCONFIRM", 0))
        begun.fields[place:] = [("Q_TEXTCONFIRM", 2), ("Q_CONFTEXTDISPLAY", 0), ("Q_TEXTREPORT", 1), ("NID_TEXTMESSAGE", 3), ("NID_C", 4), ("NID_RBC", 5), ("L_TEXT", 1), ("X_TEXT", 65)]
        self.assertEqual([it.fields for it in begun.entries().groups[0]], [[("X_TEXT", 65)]])
        self.assertEqual(etcs.decode(etcs.encode(etcs.Telegram.build({}, [begun, speeds])), "long").packets, [begun, speeds])
        text = next(it for it in etcs.decode(example("radio_text.hex"), "radio").packets if it.nid == 72)
        self.assertEqual(bytes(it["X_TEXT"] for it in text.entries().groups[0]), b"DOOR LEFT")
        self.assertEqual(STOP.entries(), etcs.Entry([("Q_SRSTOP", 1)]))
        # packet 5 to the track is a train running number, without any entry
        self.assertEqual(etcs.blank(5, "train").entries(), etcs.Entry([("NID_OPERATIONAL", 0)]))
        with self.assertRaisesRegex(etcs.NotAnItem, "^packet 44 is kept as bits$"):
            etcs.Packet(44, 2, data="1").entries()

    def test_wrong(self):
        """Variables that aren't those of the row: the first wrong one is named."""
        packet = links()
        packet["N_ITER"] = 3
        with self.assertRaisesRegex(etcs.NotAnItem, r"^\.fields\[21\]: expected D_LINK and its number, not the end$"):
            packet.entries()
        packet["N_ITER"] = 1
        with self.assertRaisesRegex(etcs.NotAnItem, r"^\.fields\[15\]: \('D_LINK', 30\) is after the row's end$"):
            packet.entries()
        for number in (2**60, -1, None, "2", True, 2.0):
            packet["N_ITER"] = number
            with self.assertRaises(etcs.NotAnItem):
                packet.entries()
        packet["N_ITER"] = 2
        packet.fields[10] = ("NID_BG", 1)
        with self.assertRaisesRegex(etcs.NotAnItem, r"^\.fields\[10\]: expected NID_C and its number, not \('NID_BG', 1\)$"):
            packet.entries()
        for wrong in (3, None, (), ("NID_C",), "NID_C"):
            packet.fields[10] = wrong
            with self.assertRaises(etcs.NotAnItem):
                packet.entries()


class Built(unittest.TestCase):
    def test_messages(self):
        """The messages of FORMAT.md and COOKBOOK.md."""
        message = etcs.Message.build(24, {"NID_LRBG": 16385}, [STOP])
        self.assertEqual((message, message.padding, etcs.encode(message)), (etcs.decode(RADIO, "radio"), "00000", RADIO))
        message = etcs.Message.build(24, {"NID_LRBG": 16385}, iter([STOP, etcs.blank(64)]))
        self.assertEqual((message.padding, etcs.encode(message).hex().upper()), ("000000", "180400000000000800312806280805C0"))
        message = etcs.Message.build(136, {"NID_ENGINE": 1234, "T_TRAIN": 200000}, [etcs.Packet(9, data="1011")])
        self.assertEqual((message.kind, message.padding, etcs.encode(message)), ("train", "00000", example("train_kept_packet.hex")))

    def test_own(self):
        """Message 2 with D_SR 500: 75 bits of the header, 2 and 15 of its own, 4 of PADDING; so it has 12 bytes."""
        whole = bits((2, 8), (12, 10), (0, 32), (1, 1), (0, 24), (1, 2), (500, 15), (0, 4))
        for own in ({"D_SR": 500}, [("D_SR", 500)], [("D_SR", 500), ("Q_SCALE", 1)], etcs.Variables([("Q_SCALE", 1), ("D_SR", 500)])):
            message = etcs.Message.build(2, [("M_ACK", 1)], fields=own)
            self.assertEqual((message.padding, etcs.encode(message)), ("0000", whole))
        self.assertEqual(etcs.encode(etcs.Message.build(2, [("M_ACK", 1)], fields={"D_SR": 500, "Q_SCALE": 2})), bits((2, 8), (12, 10), (0, 32), (1, 1), (0, 24), (2, 2), (500, 15), (0, 4)))

    def test_each(self):
        """Each message that is typed, alone and with packets; and with 0 to 7 bits of PADDING."""
        for kind, numbers in OWN.items():
            paddings = set()
            for nid in numbers:
                for count in range(9):
                    # a packet that is kept, with the 23 or 21 bits of a frame and one more for each
                    packets = [etcs.Packet(7, 1 if kind == "radio" else None, data="1" * count)] if count else []
                    message = etcs.Message.build(nid, packets=packets)
                    self.assertEqual(message.kind, kind)
                    self.assertEqual(etcs.decode(etcs.encode(message), kind), message)
                    paddings.add(len(message.padding))
            self.assertEqual(paddings, set(range(8)))

    def test_wrong(self):
        for words in ((24, {"NID_MN": 1}), (24, {"NID_C": 1}), (24, {"NOPE": 1}), (24, [("T_TRAIN",)]), (24, 5), (24, {"T_TRAIN": 1}, [], {"D_SR": 1}),
                      (24, {}, [etcs.Packet(137, 1, [("Q_SR", 1)])]), (2, {"NID_ENGINE": 1}), (15, {}), (136, {}, [], (), "radio"), (24, {}, [], (), "train")):
            with self.assertRaises(etcs.NotAnItem, msg=words):
                etcs.Message.build(*words)
        with self.assertRaisesRegex(etcs.NotAnItem, "^message 15 of the kind radio isn't typed: its bits are `data`$"):
            etcs.Message.build(15)
        with self.assertRaisesRegex(etcs.NotAnItem, "^the header of a radio message has no variable 'NID_ENGINE'$"):
            etcs.Message.build(2, {"NID_ENGINE": 1})
        for wrong in (-1, 256, "24", None, 24.0):
            with self.assertRaises(etcs.BadArgument):
                etcs.Message.build(wrong)
        for wrong in ("short", "tram", 3):
            with self.assertRaises(etcs.BadArgument):
                etcs.Message.build(24, kind=wrong)
        for wrong in (STOP, [STOP.to_dict()], [None], "packets"):
            with self.assertRaisesRegex(TypeError, "^expected a Packet, not "):
                etcs.Message.build(24, {}, wrong)
        # 8184 bits are 1,023 bytes: 75 of the header, and a packet of 23 and its own
        longest = etcs.Message.build(24, {}, [etcs.Packet(44, 1, data="1" * 8086)])
        self.assertEqual((len(etcs.encode(longest)), longest.padding), (1023, ""))
        with self.assertRaisesRegex(etcs.NotAnItem, "^the message has 8185 bits, and room for 8184$"):
            etcs.Message.build(24, {}, [etcs.Packet(44, 1, data="1" * 8087)])
        # a number that a variable can't have is refused by the library
        with self.assertRaises(etcs.NotAnItem):
            etcs.encode(etcs.Message.build(24, {"M_ACK": 2}))


class Errors(unittest.TestCase):
    def test_meaning(self):
        self.assertEqual((etcs.meaning("NID_PACKET", 5), etcs.meaning("NID_PACKET", 5, kind="train"), etcs.meaning("NID_MESSAGE", 24)), ("Linking", "Train running number", "General message"))
        for wrong in ("NOPE", "", "nid_bg", None, 5, ["D_LINK"]):
            with self.assertRaises(etcs.NoVariable):
                etcs.meaning(wrong, 1)
        with self.assertRaisesRegex(etcs.BadArgument, "^the number of V_STATIC is a whole number from 0 to 127, not 280$"):
            etcs.meaning("V_STATIC", 280)
        with self.assertRaisesRegex(etcs.BadArgument, "^kind 'tram' is none of "):
            etcs.meaning("V_STATIC", 28, kind="tram")
        # bits that are kept have up to 64 in a field
        self.assertEqual(etcs.meaning("FILL", 2**64 - 1), "")

    def test_from_dict(self):
        """What the library says, with the path."""
        whole = etcs.decode(RADIO, "radio").to_dict()
        for tree, reason in (
            ({"kind": "short"}, ".header: this member is missing"),
            ({key: value for key, value in whole.items() if key != "padding"}, ".padding: this member is missing"),
            ({**whole, "packets": [{"nid": 137, "dir": 1}]}, ".packets[0].fields: this member is missing"),
        ):
            with self.assertRaises(etcs.NotAnItem) as caught:
                etcs.from_dict(tree)
            self.assertEqual((caught.exception.reason, str(caught.exception)), (reason, f"no item of the kind has this tree: {reason}"))
        for tree, text in (({}, "the member kind is none of long, short, radio, train"), ({"kind": "tram"}, "the member kind is none of long, short, radio, train"), ([], r"expected the tree of an item, a dict, not \[\]")):
            with self.assertRaisesRegex(etcs.NotAnItem, f"^{text}$"):
                etcs.from_dict(tree)
        for tree in (None, 5, "short", {**whole, "packets": 5}, {**whole, "packets": [5]}, {**whole, "header": [5]}, {**whole, "packets": {1, 2}}, {"kind": ["short"]}, {b"kind": "short"}):
            with self.assertRaises(etcs.NotAnItem) as caught:
                etcs.from_dict(tree)
            self.assertTrue(caught.exception.reason)


if __name__ == "__main__":
    unittest.main()
