"""Logs by their paths, groups and passages with what clashed, and tables of pandas. Clashes are worked out by hand from
SUBSET-026, 3.16.2.4, as docs/FORMAT.md and etcs.h have them; logs.py compares logs and groups with the program's."""

import gzip
import importlib.util
import io
import os
import pathlib
import tempfile
import threading
import unittest
from unittest import mock

import etcs
from test_etcs import RADIO, SHORT, example

EXAMPLES = os.path.join(os.path.dirname(os.path.abspath(__file__)), "..", "..", "..", "examples")
LINKING = example("short_linking.hex")[:27]
LOG = f"12:00:03 {LINKING.hex()}\r\n\n# noon\n12:00:04 é A1\n12:00:05 {RADIO.hex()}\n"
READ = [(1, "12:00:03", "short", ""), (4, "12:00:04 é", None, "1 byte (A1), but a short telegram has 27"), (5, "12:00:05", "radio", "")]


def told(log):
    return [(it.number, it.front, it.kind, it.note) for it in log]


def telegram(**header):
    """A telegram of group 1 1."""
    return etcs.Telegram.build({"NID_C": 1, "NID_BG": 1, **header}, [])


class Logs(unittest.TestCase):
    def test_paths(self):
        with tempfile.TemporaryDirectory() as room:
            path = os.path.join(room, "btm.log")
            with open(path, "w", encoding="utf-8", newline="") as file:
                file.write(LOG)
            for log in path, pathlib.Path(path):
                self.assertEqual(told(etcs.read_log(log, "short,radio")), READ)
            with open(path, "rb") as file:
                self.assertEqual(told(etcs.read_log(file, "short,radio")), READ)
            with open(path, encoding="utf-8") as file:
                self.assertEqual(told(etcs.read_log(file, ["short", "radio"])), READ)
            with gzip.open(f"{path}.gz", "wb") as file:
                file.write(LOG.encode())
            with gzip.open(f"{path}.gz") as file:
                self.assertEqual(told(etcs.read_log(file, "short,radio")), READ)
            # as text in an encoding that it isn't in
            with open(path, encoding="ascii") as file:
                with self.assertRaisesRegex(etcs.BadArgument, r'^the log isn\'t ascii: open it as bytes, by open\(path, "rb"\), or give its path$'):
                    list(etcs.read_log(file, "short,radio"))
            # a file that is read by half is closed with its iterator
            lines = etcs.read_log(path, "short,radio")
            self.assertEqual(next(lines).number, 1)
            lines.close()
            with self.assertRaises(FileNotFoundError):
                list(etcs.read_log(os.path.join(room, "none.log"), "short"))
            with self.assertRaises(etcs.BadArgument):
                etcs.read_log(path, "tram")
        self.assertEqual(told(etcs.read_log(io.BytesIO(LOG.encode()), "short,radio")), READ)
        self.assertEqual(told(etcs.read_log((it for it in LOG.encode().split(b"\n")[:-1]), "short,radio")), READ)

    def test_items(self):
        """Items of lines are as those of `decode`, whatever is read first."""
        for data, kind in (LINKING, "short"), (example("long_line_ahead.hex")[:104], "long"), (RADIO, "radio"), (example("train_position_report.hex"), "train"):
            def read():
                return next(etcs.read_log([data.hex()], kind)).item
            item = etcs.decode(data, kind)
            self.assertEqual((read(), etcs.encode(read()), repr(read()), read().to_dict()), (item, data, repr(item), item.to_dict()))
            for member in type(item).__dataclass_fields__:
                self.assertEqual(getattr(read(), member), getattr(item, member))
                changed = read()
                setattr(changed, member, getattr(item, member))
                self.assertEqual((changed, etcs.encode(changed)), (item, data))
            changed = read()
            changed["T_TRAIN" if kind in ("radio", "train") else "NID_BG"] = 7
            item["T_TRAIN" if kind in ("radio", "train") else "NID_BG"] = 7
            self.assertEqual((changed, etcs.encode(changed)), (item, etcs.encode(item)))
            # what is set before anything is read stays
            header, changed, other = etcs.Variables([(name, 7 if name in ("NID_BG", "T_TRAIN") else number) for name, number in item.header]), read(), etcs.decode(data, kind)
            changed.header = other.header = header
            self.assertEqual((etcs.encode(changed), changed.packets, changed.header), (etcs.encode(other), item.packets, header))
            self.assertNotEqual(etcs.encode(other), data)
            changed = read()
            changed.packets = []
            self.assertEqual((changed.packets, etcs.encode(read())), ([], data))

    def test_bits(self):
        """A telegram may be written as its bits."""
        for data, kind, count in (LINKING, "short", 210), (example("long_line_ahead.hex")[:104], "long", 830):
            digits = f"{int.from_bytes(data, 'big'):0{8 * len(data)}b}"[:count]
            for kinds in (kind, "long,short", "long,short,radio,train"):
                line = next(etcs.read_log([f"12:00:03 {digits}"], kinds))
                self.assertEqual((line.front, line.kind, line.item, etcs.encode(line.item)), ("12:00:03", kind, etcs.decode(data, kind), data))
            # with a digit that is no bit, they are hexadecimal
            note = {"short": "105 bytes, but a short telegram has 27", "long": "415 bytes, but a long telegram has 104"}[kind]
            self.assertEqual([it.note for it in etcs.read_log([f"2{digits[1:]}"], kind)], [note])
            # of another kind, whatever is in front of them
            other = "long" if kind == "short" else "short"
            self.assertEqual(told(etcs.read_log([f"12:00:03 {digits}"], other)), [(1, "12:00:03", None, f"other: {count} bits, as a {kind} telegram has")])

    def test_text(self):
        """Text isn't bad unless `strict` is true: without digits, or with fewer than 20 and a letter before them."""
        text = ["state machine: idle", f"x{LINKING.hex()}", "retry 17", "idle: 123"]
        self.assertEqual(told(etcs.read_log(["", *text, "# A1"], "short")), [])
        missing = "no hexadecimal digits at its end"
        self.assertEqual(told(etcs.read_log(["", *text, "# A1"], "short", strict=True)), [
            (2, text[0], None, missing), (3, text[1], None, missing), (4, "retry", None, "1 byte (17), but a short telegram has 27"),
            (5, "idle:", None, "3 digits, an odd number")])
        self.assertEqual(told(etcs.read_log(["12:00:03 A113", "12:00:03 A11"], "short")), [
            (1, "12:00:03", None, "2 bytes (A113), but a short telegram has 27"), (2, "12:00:03", None, "3 digits, an odd number")])
        self.assertEqual([it.note for it in etcs.read_log([f"retry {'0' * 20}"], "short")], ["10 bytes (00000000..), but a short telegram has 27"])

    def test_runs(self):
        """An item may be in any run of 20 digits or more of a line; the last one counts."""
        item, ident = LINKING.hex(), "4bf92f3577b34da6a3ce929d0e0e4736"
        for line, front in (
            (f"12:00:03 {item} {ident}", "12:00:03"), (f"12:00:03 id={ident} {item}", f"12:00:03 id={ident}"),
            (f"12:00:03 {item} ; {ident} x {ident}", "12:00:03"), (f"12:00 # 7 {item} x {ident}", "12:00 # 7"), (f"{ident}/{item}!{ident}1", f"{ident}/"),
            # more bytes than the telegram has, in the last run and in one before it
            ("len=27 " + LINKING.hex(" "), "len=27"), (f"len=27 {LINKING.hex(' ')} x {ident}", "len=27"), (f"12:00:03 0102{item}", "12:00:03 0102"),
            (f"12:00:03 0102{item} x {ident}", "12:00:03 0102"), ("01 " + " ".join(f"0x{it:02X}" for it in LINKING), "01"),
            # another one before it isn't told
            (f"{RADIO.hex()} {item}", RADIO.hex()),
        ):
            for end in "", "\r\n":
                self.assertEqual([(it.front, it.kind, it.item) for it in etcs.read_log([line + end], "long,short")], [(front, "short", etcs.decode(LINKING, "short"))], line)
        # too few digits are no run, and after them none is searched for
        self.assertEqual([it.note for it in etcs.read_log([f"12:00 {item}1 {ident}"], "short")], ["16 bytes (4BF92F35..), but a short telegram has 27"])
        # the first run from the end that has a length of the kinds says why it is bad
        refused = f"20{item[2:]}"
        read = list(etcs.read_log([f"12:00 {item[:-2]} {refused} {ident}", f"{RADIO.hex()} {ident}"], "short"))
        self.assertEqual([(it.front, type(it.fault)) for it in read], [(f"12:00 {item[:-2]} {refused}", etcs.Refused), (RADIO.hex(), etcs.OtherKind)])
        self.assertEqual(read[1].note, f"other: 13 bytes ({RADIO.hex()[:8].upper()}..), as a radio message whose L_MESSAGE says so")

    def test_needs(self):
        """What another number of bytes needs: bytes that begin as a telegram does are one that was cut."""
        for count, begin, kinds, words in (
            (26, "A1", "short", "26 bytes, but a short telegram has 27"), (26, "A0", "long,short,radio", "26 bytes, but a short telegram has 27"),
            (65, "A1", "long,short", "65 bytes, but a short telegram has 27"), (66, "A1", "long,short", "66 bytes, but a long telegram has 104"),
            (26, "A1", "long,train", "26 bytes, but a long telegram has 104"), (26, "A2", "long,short", "26 bytes, which no item of these kinds has"),
            (26, "A2", "short", "26 bytes, but a short telegram has 27"), (26, "18", "short,radio", "26 bytes, which no item of these kinds has: L_MESSAGE is 0"),
            (26, "01", "short,radio", "26 bytes, which no item of these kinds has"), (26, "01", "radio", "26 bytes, but L_MESSAGE is 0"),
            (2, "18", "radio,train", "2 bytes, but a radio message has at least 3"),
        ):
            self.assertEqual([it.note for it in etcs.read_log([begin + "00" * (count - 1)], kinds)], [words])

    def test_numbers(self):
        """A message with a number that SUBSET-026 doesn't have is no item beside telegrams."""
        unknown = bytes([1]) + RADIO[1:]
        self.assertEqual([it.kind for it in etcs.read_log([unknown.hex()], "radio")], ["radio"])
        self.assertEqual(told(etcs.read_log([unknown.hex()], "short,radio")), [(1, "", None, "13 bytes, which no item of these kinds has")])

    def test_many_runs(self):
        """A line of many runs is read in time that grows with its length."""
        for joint in " ", "!":
            line = joint.join(["A113140C40FFC1402712"] * 20000)
            self.assertEqual([it.note for it in etcs.read_log([line + joint + LINKING.hex() + joint + line], "long")], ["other: 27 bytes (A113140C..), as a short telegram has"])

    def test_threads(self):
        """Threads that read the same item get the same members, whichever they read first."""
        data = example("long_line_ahead.hex")[:104]
        wanted = etcs.decode(data, "long")
        for _ in range(100):
            item, found, start = next(etcs.read_log([data.hex()], "long")).item, [], threading.Barrier(4)

            def read(names):
                start.wait()
                found.append([(name, getattr(item, name)) for name in names])

            orders = (["header", "packets", "fill"], ["packets", "fill", "header"], ["fill", "header", "packets"], ["packets", "header", "fill"])
            threads = [threading.Thread(target=read, args=(names,)) for names in orders]
            for thread in threads:
                thread.start()
            for thread in threads:
                thread.join()
            self.assertEqual(len(found), 4)
            for name, value in (it for each in found for it in each):
                self.assertIs(value, getattr(item, name))
                self.assertEqual(value, getattr(wanted, name))
            self.assertEqual((item, etcs.encode(item)), (wanted, data))


class Groups(unittest.TestCase):
    def test_clashes(self):
        """A first telegram, another that clashes with it, and why: the first cause in the order of etcs.h."""
        first = telegram(N_PIG=1, N_TOTAL=2, M_MCOUNT=7)
        for header, why in (
            ({"N_PIG": 3, "N_TOTAL": 2}, "the position is after the group's last"),
            ({"N_PIG": 3, "N_TOTAL": 2, "NID_BG": 2, "M_MCOUNT": 8}, "the position is after the group's last"),
            ({"N_PIG": 0, "N_TOTAL": 2, "M_DUP": 2}, "the position has no such neighbour to be a duplicate of"),
            ({"N_PIG": 2, "N_TOTAL": 2, "M_DUP": 1}, "the position has no such neighbour to be a duplicate of"),
            ({"N_PIG": 0, "N_TOTAL": 1, "NID_BG": 2, "M_MCOUNT": 8}, "the telegram is of another group"),
            ({"N_PIG": 0, "N_TOTAL": 2, "NID_C": 2, "M_MCOUNT": 7}, "the telegram is of another group"),
            ({"N_PIG": 0, "N_TOTAL": 1, "M_MCOUNT": 8}, "the telegram counts other balises in the group"),
            ({"N_PIG": 0, "N_TOTAL": 2, "M_MCOUNT": 8}, "the message counters don't agree"),
            ({"N_PIG": 0, "N_TOTAL": 2, "M_MCOUNT": 254}, "the message counters don't agree"),
            ({"N_PIG": 1, "N_TOTAL": 2, "M_MCOUNT": 255}, "another telegram is held at this position"),
        ):
            group, second = etcs.Group(1, 1), telegram(**header)
            self.assertTrue(group.add(first))
            self.assertFalse(group.add(second))
            self.assertEqual(group.clashed, [etcs.Clash(second, why, None)])
            self.assertEqual((str(group), group.telegrams, group.clashes), ("group 1 1 missing 0 2 clashes 1", {1: first}, 1))
        self.assertTrue(group.add(telegram(N_PIG=0, N_TOTAL=2, M_MCOUNT=255)))
        self.assertTrue(group.add(first))
        self.assertEqual((group.missing, group.is_complete), ([2], False))
        self.assertTrue(group.add(telegram(N_PIG=2, N_TOTAL=2, M_MCOUNT=7, M_DUP=2)))
        self.assertEqual((group.missing, group.is_complete, sorted(group.telegrams)), ([], True, [0, 1, 2]))

    def test_first(self):
        """The first telegram may be of another group, or clash by itself; nothing is missing from a group that holds nothing."""
        group = etcs.Group(2, 1)
        self.assertFalse(group.add(telegram()))
        self.assertFalse(group.add(telegram(N_PIG=1)))
        self.assertEqual([it.why for it in group.clashed], ["the telegram is of another group", "the position is after the group's last"])
        self.assertEqual((str(group), group.missing, group.is_complete), ("group 2 1 empty clashes 2", [], False))
        with self.assertRaises(etcs.NotAnItem):
            group.add(telegram(N_PIG=8))
        self.assertEqual(group.clashes, 2)

    def test_duplicates(self):
        """A duplicate stands for its neighbour: of positions 0 to 2, the first is the next one's duplicate."""
        group = etcs.Group(1, 1)
        self.assertTrue(group.add(telegram(N_PIG=0, N_TOTAL=2, M_DUP=1)))
        self.assertEqual((group.missing, str(group)), ([2], "group 1 1 missing 2"))

    def test_lines(self):
        """The line of the first telegram, and of each that clashed."""
        lines = [f"12:00:0{at} {etcs.encode(it).hex()}" for at, it in enumerate([telegram(M_MCOUNT=7), telegram(NID_BG=2), telegram(M_MCOUNT=8)])]
        found = etcs.groups(etcs.read_log([*lines, "A1", RADIO.hex()], "short,radio"))
        self.assertEqual([(str(it), it.line.number, it.line.front) for it in found], [("group 1 1 complete clashes 1", 1, "12:00:00"), ("group 1 2 complete", 2, "12:00:01")])
        self.assertEqual([(it.line.number, it.line.front, it.telegram["M_MCOUNT"], it.why) for it in found[0].clashed], [(3, "12:00:02", 8, "the message counters don't agree")])
        for wrong in (list(etcs.items(SHORT, "short")), [None], [5], ["A1"], [etcs.Packet(137, 1)], etcs.decode(SHORT, "short")):
            for call in etcs.groups, lambda log: list(etcs.passages(log)):
                with self.assertRaisesRegex(TypeError, "^expected lines of read_log, telegrams or messages, not "):
                    call(wrong)

    def test_passages(self):
        """A group that is passed three times, with M_MCOUNT 255, 7 and 8, and another one between and after them."""
        def passed(count, **header):
            return [telegram(N_PIG=place, N_TOTAL=1, M_MCOUNT=count, **header) for place in range(2)]
        sent = [*passed(255), *passed(7), *passed(8), *passed(255, NID_BG=2), *passed(8), *passed(8)[::-1], telegram(N_PIG=5), *passed(8, NID_BG=3)[:1]]
        found = list(etcs.passages(sent))
        # 255 agrees with 7, so that the second passage begins with the telegram that differs from the one at its position
        differs, counter = "another telegram is held at this position", "the message counters don't agree"
        self.assertEqual([(str(it), it.cause and it.cause.why) for it in found], [
            ("group 1 1 complete", None), ("group 1 1 complete", differs), ("group 1 1 complete", counter), ("group 1 2 complete", None),
            ("group 1 1 complete clashes 1", None), ("group 1 3 missing 1", None)])
        self.assertEqual((found[2].cause.telegram, found[4].clashed[0].telegram["N_PIG"]), (sent[4], 5))
        lines = etcs.read_log([f"12:00:{at:02} {etcs.encode(it).hex()}" for at, it in enumerate(sent)], "short")
        self.assertEqual([(it.line.number, it.line.front) for it in etcs.passages(lines)], [(1, "12:00:00"), (3, "12:00:02"), (5, "12:00:04"), (7, "12:00:06"), (9, "12:00:08"), (14, "12:00:13")])
        self.assertEqual(list(etcs.passages([])), [])


class Frames(unittest.TestCase):
    @unittest.skipUnless(importlib.util.find_spec("pandas"), "pandas isn't installed")
    def test_frame(self):
        """The links of two lines of a log; the first telegram is that of FORMAT.md."""
        log = [f"12:00:03 {LINKING.hex()}", "A1", f"12:00:05 {RADIO.hex()}"]
        table = etcs.frame(etcs.read_log(log, "short,radio"))
        self.assertEqual(list(table.columns), ["line", "front", "kind", "packet", "nid", "entry", "name", "number", "meaning"])
        self.assertEqual([str(table[it].dtype) for it in ("line", "packet", "nid", "number")], ["int64", "Int64", "Int64", "uint64"])
        links = table[table.name == "D_LINK"]
        self.assertEqual([tuple(it) for it in links.values], [(1, "12:00:03", "short", 0, 5, "", "D_LINK", 1180, "1180 m")])
        self.assertEqual([tuple(it) for it in table[table.name == "Q_SRSTOP"].values], [(3, "12:00:05", "radio", 0, 137, "", "Q_SRSTOP", 1, "go if in SR mode")])
        # 10 of the header, 3 and 9 of packet 5, and the number 255
        self.assertEqual((len(table[table.line == 1]), set(table[table.packet.isna()].name) & {"NID_BG", "FILL", "PAD", "NID_LRBG"}), (23, {"NID_BG", "NID_LRBG"}))
        self.assertTrue(table.equals(etcs.frame(log, "short,radio")))
        # items, and entries in entries
        long = etcs.decode(example("long_line_ahead.hex")[:104], "long")
        table = etcs.frame([etcs.decode(RADIO, "radio"), long])
        self.assertEqual([tuple(it) for it in table[table.name == "V_DIFF"][["line", "packet", "nid", "entry", "number"]].values], [(2, 3, 27, "0.0", 24)])
        self.assertEqual(list(table[(table.name == "D_STATIC")].entry), ["", "0", "1"])
        self.assertEqual((len(etcs.frame([])), str(etcs.frame([]).number.dtype)), (0, "uint64"))
        session = etcs.blank(42)
        session["NID_RADIO"] = 2**64 - 1
        self.assertEqual(etcs.frame([etcs.Telegram.build({}, [session])]).number.max(), 2**64 - 1)
        for wrong in ([5], "A1", [None], [etcs.Packet(137, 1)]):
            with self.assertRaisesRegex(TypeError, "^expected lines of read_log, or items, not "):
                etcs.frame(wrong)

    def test_no_pandas(self):
        with mock.patch.dict("sys.modules", {"pandas": None}):
            with self.assertRaisesRegex(ModuleNotFoundError, "etcs.frame makes tables of pandas, which has to be installed$"):
                etcs.frame([])


if __name__ == "__main__":
    unittest.main()
