"""Callers that pass what nobody should: bytes with a length of their own, items of which members are missing or anything, and
pickles that somebody changed. Nothing is read beyond the bytes, and errors are those of the module."""

import array
import copy
import ctypes
import json
import os
import pickle
import tempfile
import time
import unittest
from unittest import mock

import etcs
from etcs import _library, _parts
from test_etcs import RADIO, SHORT, all_items, example

LINE = json.dumps(etcs.decode(RADIO, "radio").to_dict()).encode()
HUGE = 1 << 40
#: what takes bytes of a kind
CALLS = {
    "check": lambda data: etcs.check(data, "short"),
    "decode": lambda data: etcs.decode(data, "short"),
    "items": lambda data: list(etcs.items(data, "short")),
    "fields": lambda data: etcs.fields(data, "short"),
    "show": lambda data: etcs.show(data, "short"),
    "variables": lambda data: etcs.variables(data, "short"),
    "feed": lambda data: etcs.Reader("short").feed(data),
    "reason": lambda data: etcs.Refused(3, "FILL", "short", data).reason,
    "before": lambda data: etcs.Refused(3, "FILL", "short", data).fields,
    "room": lambda data: etcs.Refused(3, "FILL", "short", data).room,
}
#: the same for the calls below them, which each user of the module may call too
LOW = {
    name: lambda data, call=getattr(_library, name): call(data, "short")
    for name in ("check", "is_item", "to_json", "fields", "if_fields", "explain", "refusal", "fields_before", "if_item")
}


def liars(form):
    """Subclasses that lie about themselves in each way that there is."""
    itself = {name: lambda self, *args: self for name in (
        "__getitem__", "__add__", "__radd__", "__iadd__", "rstrip", "strip", "split", "encode", "tobytes", "hex", "decode")}
    ways = [
        {"__len__": lambda self: HUGE}, {"__len__": lambda self: 0}, {"__len__": lambda self: -1}, {"__bytes__": lambda self: bytes(2**16)},
        {"__bool__": lambda self: False}, {"__iter__": lambda self: iter(())}, {"startswith": lambda self, *args: True, "endswith": lambda self, *args: True},
        {"__buffer__": lambda self, flags: memoryview(b"")}, itself, {**itself, "__len__": lambda self: HUGE, "__bytes__": lambda self: self},
    ]
    return [type("Liar", (form,), way) for way in ways]


class Bytes(unittest.TestCase):
    """The length that is given to the library is that of the bytes that are given to it."""

    def test_subclasses(self):
        for form in (bytes, bytearray):
            for liar in liars(form):
                for count in (27, 26, 5, 1, 0, 28):
                    data = (SHORT + b"\0")[:count]
                    for name, call in {**CALLS, **LOW}.items():
                        with self.subTest(name=name, count=count):
                            given = data if "__buffer__" not in vars(liar) or not _has_buffer() else b""
                            self.assertEqual(said(lambda: call(liar(data))), said(lambda: call(given)))

    def test_lines(self):
        text = etcs.decode(RADIO, "radio")
        for form in (bytes, bytearray):
            for liar in liars(form):
                if "__buffer__" in vars(liar):
                    continue
                self.assertEqual(etcs.from_json(liar(LINE)), text)
                self.assertEqual([it.note for it in etcs.read_log([liar(b"A1")], "short")], ["1 byte, but a short telegram has 27"])
                with self.assertRaises(etcs.NotAnItem):
                    etcs.from_json(liar(b"{}"))
                for call in (lambda line: str(etcs.NotAnItem("", "short", line)), lambda line: etcs.Refused(3, "FILL", "short", b"", line).reason):
                    self.assertEqual(said(lambda: call(liar(b"{"))), said(lambda: call(b"{")))

    def test_texts(self):
        """A text whose `encode` gives bytes that lie, or no bytes."""
        item = etcs.decode(RADIO, "radio")
        for form in (bytes, bytearray):
            for liar in liars(form):
                text = type("Text", (str,), {"encode": lambda self, *how, liar=liar: liar(LINE), "__len__": lambda self: HUGE})
                if "__buffer__" not in vars(liar):
                    self.assertEqual(etcs.from_json(text("{}")), item)
                    self.assertEqual(len(list(etcs.read_log([text("A1")], "short", strict=True))), 1)
        for wrong in ("{}", None, 5, [123], memoryview(array.array("I", [1]))):
            text = type("Text", (str,), {"encode": lambda self, *how: wrong})
            for call in (etcs.from_json, lambda line: list(etcs.read_log([line], "short"))):
                with self.assertRaises(TypeError):
                    call(text("{}"))

    def test_others(self):
        """What has a buffer, but isn't of bytes; and what only says that it is bytes."""
        class Seeming:
            __class__ = bytes

            def __len__(self):
                return HUGE

        view = memoryview(SHORT)
        for wrong in (array.array("B", SHORT), array.array("I", [1]), (ctypes.c_char * 27)(*SHORT), ctypes.create_string_buffer(27), ctypes.c_char_p(SHORT), ctypes.c_void_p(1),
                      ctypes.byref(ctypes.c_int()), memoryview(array.array("d", [1.0])), view[:24].cast("I"), memoryview((ctypes.c_uint16 * 4)()), Seeming(), "A1" * 27, range(27), [65], 5, None):
            for name, call in {**CALLS, **LOW}.items():
                with self.subTest(name=name), self.assertRaises(TypeError):
                    call(wrong)
        # views of bytes of whatever shape are bytes
        for form in (view, view.cast("c"), view[::1], memoryview(bytearray(SHORT)), view.cast("B", (3, 9)), memoryview(array.array("B", SHORT)), memoryview(SHORT[::-1])[::-1]):
            self.assertEqual(etcs.decode(form, "short"), etcs.decode(SHORT, "short"))

    def test_kinds(self):
        """A kind that lies is one of the four, or none."""
        liar = type("Kind", (str,), {"__hash__": lambda self: hash("long"), "__eq__": lambda self, other: True})("x")
        for call in (etcs.check, etcs.decode, etcs.fields, etcs.show, etcs.variables):
            self.assertEqual(said(lambda: call(SHORT, liar)), said(lambda: call(SHORT, "long")))
            with self.assertRaises(etcs.BadArgument):
                call(SHORT, type("Kind", (str,), {})("tram"))
        reader = etcs.Reader("short")
        for wrong in (None, "tram", 5, []):
            reader.kind = wrong
            with self.assertRaises(etcs.BadArgument):
                reader.feed(SHORT)

    def test_fields(self):
        """Refused fields take a time that is proportional to their number: as long as 8 times as many, at most 30 times."""
        sent = etcs.fields(SHORT, "short")
        sent[1] = sent[1]._replace(number=34)

        def seconds(count):
            every = sent + [sent[-2]._replace(number=1, width=1)] * count
            best = 1e9
            for _ in range(3):
                begun = time.process_time()
                with self.assertRaises(etcs.Refused) as caught:
                    etcs.from_fields(every, "short")
                best = min(best, time.process_time() - begun)
            self.assertEqual((caught.exception.bit, caught.exception.variable, caught.exception.fields), (6, "M_VERSION", sent[:1]))
            return best

        self.assertLess(seconds(160_000), 30 * seconds(20_000))


def _has_buffer():
    """Whether a class in Python may say what its buffer is."""
    return hasattr(bytes, "__buffer__")


def said(call):
    """What a call returns, or raises."""
    try:
        return call()
    except etcs.EtcsError as fault:
        return type(fault), str(fault)


RUBBISH = [None, 5, -1, 1.5, True, "", "x", "01", b"1", [], [5], [None], ["Q"], [("Q_SRSTOP",)], [("Q_SRSTOP", 1, 2)], [("Q_SRSTOP", "1")], [([], 1)], (), {}, {"a": 1}, set(), object(), print,
           etcs.Variables([5]), etcs.Variables([("Q", None)]), etcs.Variables(), [etcs.Packet(1)], float("nan"), 1 << 70]
#: what may be done with an item, all of which has to end, by a value or by an error of the module
USES = {
    "repr": repr, "str": str, "to_dict": lambda it: it.to_dict(), "encode": etcs.encode, "show": etcs.show, "variables": etcs.variables, "html": lambda it: it._repr_html_(),
    "name": lambda it: it["NID_BG"], "in": lambda it: "NID_BG" in it, "get": lambda it: it.get("NID_LRBG"), "all": lambda it: it.all("T_TRAIN"), "iter": list, "set": lambda it: it.__setitem__("NID_C", 1),
    "meaning": lambda it: it.meaning("NID_BG"), "equal": lambda it: it == copy.copy(it), "copy": copy.copy, "deepcopy": copy.deepcopy,
    "groups": lambda it: etcs.groups([it]), "passages": lambda it: list(etcs.passages([it])),
    "pages": lambda it: etcs.page(it), "hash": lambda it: None,
}
PACKET_USES = {
    "entries": lambda it: it.entries(), "in telegram": lambda it: etcs.Telegram.build({}, [it]), "in message": lambda it: etcs.Message.build(24, {}, [it]),
    "in item": lambda it: etcs.encode(etcs.Telegram("short", etcs.decode(SHORT, "short").header, [it], "")), "name": lambda it: it["Q_SRSTOP"], "in": lambda it: "Q_SRSTOP" in it,
    "repr": repr, "to_dict": lambda it: it.to_dict(), "iter": list, "meaning": lambda it: it.meaning("D_LINK"), "copy": copy.deepcopy, "set": lambda it: it.__setitem__("Q_SRSTOP", 1),
}


class Spoiled(unittest.TestCase):
    def uses(self, make, uses, what):
        """Uses a spoiled item; whatever its use changes is another's."""
        for name, use in uses.items():
            with self.subTest(use=name, what=what):
                item = make()
                try:
                    use(item)
                except (etcs.EtcsError, FileNotFoundError):  # the second if there is no program for a page
                    pass
                except TypeError as fault:
                    # a deep copy of what can't be copied
                    self.assertIn(name, ("copy", "deepcopy"), fault)

    def items(self):
        """Yields what makes items and packets: some read, some unread, some made."""
        kept = example("radio_kept.hex")
        for data, kind in (SHORT, "short"), (RADIO, "radio"), (example("train_position_report.hex"), "train"), (kept[:etcs.check(kept, "radio")], "radio"):
            yield lambda: etcs.decode(data, kind), USES
            yield lambda: next(etcs.read_log([data.hex()], kind)).item, USES
            yield lambda: etcs.from_dict(etcs.decode(data, kind).to_dict()), USES
            yield lambda: (etcs.decode(data, kind).packets or [etcs.Packet(137, 1, [("Q_SRSTOP", 1)])])[0], PACKET_USES

    def test_deleted(self):
        for make, uses in self.items():
            for member in type(make()).__dataclass_fields__:
                def spoiled():
                    item = make()
                    delattr(item, member)
                    return item
                self.uses(spoiled, uses, f"no {member}")
                with self.assertRaisesRegex(etcs.NoMember, f"^this (Telegram|Message|Packet) has no {member}$") as caught:
                    getattr(spoiled(), member)
                self.assertIsInstance(caught.exception, AttributeError)
                self.assertIsInstance(caught.exception, etcs.NotAnItem)
                self.assertFalse(hasattr(spoiled(), member))
                is_kept = getattr(make(), "data", None) is not None
                if uses is USES and member not in (("header", "fields", "packets", "padding") if is_kept else ("data",)):
                    with self.assertRaises(etcs.NotAnItem):
                        etcs.encode(spoiled())

    def test_replaced(self):
        for make, uses in self.items():
            for member in type(make()).__dataclass_fields__:
                for value in RUBBISH:
                    def spoiled():
                        item = make()
                        setattr(item, member, value)
                        return item
                    self.uses(spoiled, uses, f"{member} = {value!r}")

    def test_inside(self):
        """Lists that have become wrong."""
        for make, uses in self.items():
            for value in RUBBISH:
                for member in ("header", "fields", "packets"):
                    if member in type(make()).__dataclass_fields__:
                        def spoiled():
                            item = make()
                            getattr(item, member).append(value)
                            return item
                        self.uses(spoiled, uses, f"{member} + {value!r}")

    def test_no_other_attribute(self):
        telegram = etcs.decode(SHORT, "short")
        for name in ("nid", "padding", "__len__", "_later_", ""):
            with self.assertRaises(AttributeError) as caught:
                getattr(telegram, name)
            self.assertNotIsInstance(caught.exception, etcs.EtcsError)

    def test_words(self):
        """What the errors of the commonest faults say."""
        telegram = etcs.decode(SHORT, "short")
        telegram.packets = None
        with self.assertRaisesRegex(etcs.NotAnItem, r"^\.packets: expected a list of packets, not None$"):
            etcs.encode(telegram)
        telegram.packets = [etcs.Packet(137, 1, [("Q_SRSTOP", 1)]), 5]
        with self.assertRaisesRegex(etcs.NotAnItem, r"^\.packets\[1\]: expected a Packet, not 5$"):
            etcs.encode(telegram)
        telegram.packets.pop()
        telegram.header = 7
        for call in (lambda: telegram["NID_BG"], lambda: "NID_BG" in telegram):
            with self.assertRaisesRegex(etcs.NotAnItem, "^variables are pairs of names and numbers, or a mapping, not 7$"):
                call()
        del telegram.header
        with self.assertRaisesRegex(etcs.NoMember, "^this Telegram has no header$"):
            etcs.encode(telegram)
        self.assertEqual(repr(etcs.Telegram.__new__(etcs.Telegram)), "telegram")
        # a plain list of pairs is as good as Variables
        packet = etcs.Packet(137, 1)
        packet.fields = [("Q_SRSTOP", 0)]
        packet["Q_SRSTOP"] = 1
        self.assertEqual(packet, etcs.Packet(137, 1, [("Q_SRSTOP", 1)]))


class Pickles(unittest.TestCase):
    def everything(self):
        yield from (etcs.decode(data, kind) for data, kind in all_items())
        lines = list(etcs.read_log([f"12:00 {SHORT.hex()}", RADIO.hex(), "A1", "x"], "short,radio"))
        yield from lines
        yield from (it.item for it in lines if it.item)
        yield from [etcs.Packet(137, 1, [("Q_SRSTOP", 1)]), etcs.Variables([("Q_SRSTOP", 1)]), etcs.fields(SHORT, "short"), etcs.variables(SHORT, "short")]
        yield from etcs.decode(example("long_line_ahead.hex")[:104], "long").packets
        yield etcs.decode(example("long_line_ahead.hex")[:104], "long").packets[3].entries()

    def test_protocols(self):
        def fields_of(value):
            return [(*value[:4], value.note)] if isinstance(value, etcs.LogLine) else value
        copies = [copy.copy, copy.deepcopy, *(lambda it, number=number: pickle.loads(pickle.dumps(it, number)) for number in range(pickle.HIGHEST_PROTOCOL + 1))]
        for value in self.everything():
            for make in copies:
                again = make(value)
                self.assertEqual((type(again), fields_of(again)), (type(value), fields_of(value)))
                if isinstance(value, (etcs.Telegram, etcs.Message)):
                    self.assertEqual(etcs.encode(make(value)), etcs.encode(value))

    def test_read_before(self):
        """Items of which something was read, or set."""
        for number in range(pickle.HIGHEST_PROTOCOL + 1):
            telegram = etcs.decode(example("short_linking.hex")[:27], "short")
            telegram.packets[0]["D_LINK"] = 900
            telegram.fill
            again = pickle.loads(pickle.dumps(telegram, number))
            self.assertEqual((again, again.packets[0]["D_LINK"], etcs.encode(again)), (telegram, 900, etcs.encode(telegram)))
            self.assertIsNot(again.packets, telegram.packets)
            line = next(etcs.read_log([SHORT.hex()], "short"))
            line.item.fill = "0"
            self.assertEqual(pickle.loads(pickle.dumps(line, number)).item.fill, "0")
        shallow = copy.copy(telegram)
        shallow.packets[0]["D_LINK"] = 800
        self.assertEqual(telegram.packets[0]["D_LINK"], 800)
        deep = copy.deepcopy(telegram)
        deep.packets[0]["D_LINK"] = 700
        self.assertEqual(telegram.packets[0]["D_LINK"], 800)

    def test_errors(self):
        faults = [etcs.Refused(17, "L_MESSAGE", "radio", bytes.fromhex("0602C0")), etcs.Truncated(8), etcs.NotAnItem("x"), etcs.NoMember("x"), etcs.NoVariable("Q"), etcs.BadArgument("x"), etcs.BadLine("x"), etcs.OtherKind("x")]
        for fault in faults:
            for number in range(pickle.HIGHEST_PROTOCOL + 1):
                again = pickle.loads(pickle.dumps(fault, number))
                self.assertEqual((type(again), str(again), getattr(again, "reason", "")), (type(fault), str(fault), getattr(fault, "reason", "")))
            self.assertEqual(str(copy.deepcopy(fault)), str(fault))

    def test_groups(self):
        group = etcs.groups(etcs.read_log([example("group_in_order.hex").hex()[:54], example("group_in_order.hex").hex()[54:108]], "short"))[0]
        for number in range(pickle.HIGHEST_PROTOCOL + 1):
            again = pickle.loads(pickle.dumps(group, number))
            self.assertEqual((str(again), again.telegrams, again.missing), (str(group), group.telegrams, group.missing))

    def test_rubbish(self):
        """States that no item has are refused; members may be anything, as if they were assigned."""
        item, packet = etcs.decode(RADIO, "radio"), etcs.Packet(137, 1, [("Q_SRSTOP", 1)])
        states = [None, 5, [], "x", (1, 2), ({}, {}), {"_later": {}}, {"_later": 5}, {"_later": {"header": _parts.Later(b"", 0, 1)}}, {5: 1}, {"_unread": 5}, {"_unread": (RADIO, "radio", b"")}]
        states += [{"kind": kind, "_unread": unread} for kind, unread in (
            ("radio", (RADIO, "radio")), ("radio", (RADIO[:5], "radio", b"")), ("radio", (RADIO + b"0", "radio", b"")), ("short", (RADIO, "radio", b"")), ("short", (RADIO, "short", b"")),
            ("radio", (RADIO, "radio", b"", 1)), ("radio", (bytearray(RADIO), "radio", b"")), ("radio", (type("B", (bytes,), {})(RADIO), "radio", b"")), (["radio"], (RADIO, ["radio"], b"")),
            # the fields of another item, or what are none
            ("radio", (RADIO, "radio", _library.fields(SHORT, "short")[0])), ("radio", (RADIO, "radio", b"1")), ("radio", (RADIO, "radio", None)), ("radio", [RADIO, "radio", b""]))]
        for state in states:
            for form in (etcs.Telegram, etcs.Message, etcs.Packet):
                made = form.__new__(form)
                with self.assertRaises(etcs.NotAnItem):
                    made.__setstate__(state)
        for kind, form in (("short", etcs.Message), ("radio", etcs.Telegram)):
            made = form.__new__(form)
            with self.assertRaises(etcs.NotAnItem):
                made.__setstate__({"kind": kind, "_unread": (SHORT if kind == "short" else RADIO, kind, b"")})
        made = etcs.Message.__new__(etcs.Message)
        made.__setstate__({"kind": "radio", "_unread": (RADIO, "radio", b"")})
        self.assertEqual(made, item)
        for form in (etcs.Telegram, etcs.Message, etcs.Packet):
            made = form.__new__(form)
            made.__setstate__({})
            with self.assertRaises(etcs.NoMember):
                made.to_dict()

    def test_states(self):
        """Pickles of items of which a member is missing or anything else, or has another's."""
        for value in (etcs.decode(RADIO, "radio"), etcs.decode(SHORT, "short"), etcs.Packet(137, 1, [("Q_SRSTOP", 1)])):
            state = value.__getstate__()
            for member in state:
                for rubbish in RUBBISH:
                    for changed in ({**state, member: rubbish}, {key: it for key, it in state.items() if key != member}, {**state, "further": rubbish}):
                        made = type(value).__new__(type(value))
                        made.__setstate__(changed)
                        repr(made)
                        try:
                            made.to_dict()
                        except etcs.NotAnItem:
                            pass


class Frames(unittest.TestCase):
    def test_sandbox(self):
        """A page in a notebook can run its script, and can't reach the notebook."""
        with tempfile.TemporaryDirectory() as room:
            path = os.path.join(room, "etcs")
            with open(path, "w", encoding="ascii") as file:
                file.write("#!/bin/sh\necho '<!doctype html><script>\"x\"</script>'\n")
            os.chmod(path, 0o755)
            with mock.patch.dict(os.environ, {"ETCS_PROGRAM": path}):
                frame = etcs.decode(RADIO, "radio")._repr_html_()
        self.assertTrue(frame.startswith('<iframe sandbox="allow-scripts" srcdoc="&lt;!doctype html&gt;&lt;script&gt;&quot;x&quot;'), frame)
        self.assertNotIn("allow-same-origin", frame)


if __name__ == "__main__":
    unittest.main()
