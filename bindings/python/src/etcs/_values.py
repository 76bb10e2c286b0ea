"""Items and packets: telegrams and messages, and how they are built."""

from __future__ import annotations

import json
from dataclasses import dataclass
from typing import Any, Dict, Iterable, List, Literal, Optional, Sequence, Tuple, Union

from . import _library
from ._blanks import HEADER, PACKETS, ROOM
from ._entries import Entry, entry_of
from ._library import BadArgument, NotAnItem, shown
from ._page import frame_of
from ._parts import Made, Named, Pairs, Variables, as_variables, widths_of
from ._rows import FRAMES, HEADS, OWN
from ._trees import check_members, fault_of, pairs_of, variables_of

TelegramKind = Literal["long", "short"]
MessageKind = Literal["radio", "train"]
Kind = Literal["long", "short", "radio", "train"]

#: the kinds of items: balise telegrams of 830 and of 210 user bits, radio messages to the train and to the track
KINDS: Tuple[str, ...] = tuple(_library.KINDS)

#: the bits before a message's header, and the most bytes that it has
_LENGTH_BITS, _MOST_BYTES = 18, 1023


# ---- How items print.


def _indented(tree: str) -> str:
    return "".join(f"\n  {line}" for line in tree.split("\n"))


def _digits(bits: Any) -> str:
    """Bits; if there are many, only the first ones, or how many there are if all are alike."""
    if not isinstance(bits, str):
        return shown(bits)
    if len(bits) <= 32:
        return bits
    if bits == len(bits) * bits[0]:
        return f"{len(bits)} times {bits[0]}"
    return f"{bits[:32]}.., {len(bits)} bits"


def _part(value: Any) -> str:
    """A list of variables or of packets, each further in; of what is none of these, its text."""
    if not isinstance(value, list):
        return f"\n  {shown(value)}"
    lines = []
    for each in value:
        if isinstance(each, tuple) and len(each) == 2:
            name = each[0] if isinstance(each[0], str) else shown(each[0])
            lines.append(f"\n  {name} = {shown(each[1])}")
        else:
            lines.append(_indented(repr(each)) if isinstance(each, Packet) else f"\n  {shown(each)}")
    return "".join(lines)


def _tree(head: str, owner: Made, *members: str, bits: str = "") -> str:
    """The head, and below it members and bits, each further in; a member that was deleted is left out."""
    parts = [_part(getattr(owner, member)) for member in members if hasattr(owner, member)]
    return "".join([head, *parts, f"\n  {bits}" if bits else ""])


# ---- Packets.


@dataclass(repr=False, init=False)
class Packet(Named):
    """A packet: if it is typed, with its variables after L_PACKET; otherwise with its bits as digits in `data`."""

    nid: int
    dir: Optional[int]
    fields: Variables
    data: Optional[str]

    def __init__(self, nid: int, dir: Optional[int] = None, fields: Pairs = (), data: Optional[str] = None) -> None:
        self.nid, self.dir, self.fields, self.data = nid, dir, as_variables(fields), data

    def _bits(self, frame: int) -> int:
        """How many bits it takes behind a frame."""
        if self.data is None:
            return frame + sum(widths_of(self._list("fields")))
        if not isinstance(self.data, str):
            raise NotAnItem(f"the bits of packet {shown(self.nid)} are digits, not {shown(self.data)}")
        return frame + len(self.data)

    def __repr__(self) -> str:
        head = f"packet {_attribute(self, 'nid')}"
        if _attribute(self, "dir") not in ("None", ""):
            head += f", direction {_attribute(self, 'dir')}"
        data = getattr(self, "data", None)
        return _tree(head, self, "fields") if data is None else _tree(head, self, bits=f"bits {_digits(data)}")

    def entries(self) -> Entry:
        """Its variables as a tree: those outside of any entry, and in `groups` a list of entries for each N_ITER, or L_TEXT, in
        the order of sending; an entry may have groups of its own. Raises NotAnItem if the packet is kept as bits, or its
        variables aren't those of its row. The tree is a copy: to change a number, change `fields`.

            >>> linking = Packet(5, 1, [
            ...     ("Q_SCALE", 1), ("D_LINK", 100), ("Q_NEWCOUNTRY", 0), ("NID_BG", 1), ("Q_LINKORIENTATION", 1), ("Q_LINKREACTION", 0),
            ...     ("Q_LOCACC", 5), ("N_ITER", 1), ("D_LINK", 200), ("Q_NEWCOUNTRY", 1), ("NID_C", 99), ("NID_BG", 2), ("Q_LINKORIENTATION", 1),
            ...     ("Q_LINKREACTION", 0), ("Q_LOCACC", 5)])
            >>> first = linking.entries()
            >>> [(link["NID_BG"], link.get("NID_C"), link.meaning("D_LINK")) for link in [first, *first.groups[0]]]
            [(1, None, '100 m'), (2, 99, '200 m')]
        """
        if self.data is not None:
            raise NotAnItem(f"packet {shown(self.nid)} is kept as bits")
        return entry_of(self.nid, self.dir is not None, self._list("fields"))

    def to_dict(self) -> Dict[str, Any]:
        tree: Dict[str, Any] = {"nid": self.nid}
        if self.dir is not None:
            tree["dir"] = self.dir
        if self.data is not None:
            tree["data"] = self.data
        else:
            tree["fields"] = pairs_of(self.fields)
        return tree


def _attribute(owner: Made, member: str) -> str:
    """The text of a number; "" if it was deleted."""
    return shown(getattr(owner, member)) if hasattr(owner, member) else ""


def _checked_packets(packets: Any) -> List[Packet]:
    """A list of packets. Raises NotAnItem if it is none."""
    if not isinstance(packets, (list, tuple)):
        raise NotAnItem(f".packets: expected a list of packets, not {shown(packets)}")
    for place, packet in enumerate(packets):
        if not isinstance(packet, Packet):
            raise NotAnItem(f".packets[{place}]: expected a Packet, not {shown(packet)}")
    return list(packets)


def _given_packets(packets: Iterable[Packet]) -> List[Packet]:
    found = list(packets)
    for packet in found:
        _library.expect(packet, "a Packet", Packet)
    return found


def _named(given: Pairs, known: Sequence[Tuple[str, int]], what: str) -> List[Tuple[str, int]]:
    """The known variables with the numbers that are given, or else with those that they have here."""
    pairs = as_variables(given)
    widths_of(pairs)  # which raises NotAnItem if there is no such variable at all
    numbers = dict(pairs)
    for name in numbers:
        if all(name != each for each, _ in known):
            raise NotAnItem(f"{what} has no variable {shown(name)}")
    return [(name, numbers.get(name, least)) for name, least in known]


# ---- Telegrams.


@dataclass(repr=False, init=False)
class Telegram(Named):
    """A balise telegram. A name in brackets is a variable of its header."""

    _lists = ("header",)
    _kinds = ("long", "short")

    kind: TelegramKind
    header: Variables
    packets: List[Packet]
    fill: str

    def __init__(self, kind: TelegramKind, header: Pairs, packets: Iterable[Packet], fill: str) -> None:
        self.kind, self.header, self.packets, self.fill = kind, as_variables(header), list(packets), fill

    @classmethod
    def build(cls, header: Pairs, packets: Iterable[Packet], kind: Optional[TelegramKind] = None) -> Telegram:
        """The telegram of these packets, with ones in FILL for the bits that are left. Variables of the header may be in any
        order, and those that aren't given have their least number. Without a kind it is a short telegram, or a long one if
        the packets need it. Raises NotAnItem if the packets don't fit, or there is no such variable.

            >>> header = {"M_VERSION": 33, "M_MCOUNT": 255, "NID_C": 98, "NID_BG": 600, "Q_LINK": 1}
            >>> telegram = Telegram.build(header, [Packet(137, 1, [("Q_SRSTOP", 1)])])
            >>> telegram.kind, telegram["Q_UPDOWN"], len(telegram.fill), encode(telegram).hex()
            ('short', 1, 128, 'a1007f8c412c62500c7fffffffffffffffffffffffffffffffffc0')
        """
        pairs, packets = _named(header, HEADER, "the header of a telegram"), _given_packets(packets)
        bits = sum(packet._bits(8 if packet.dir is None else 23) for packet in packets)
        if kind is None:
            kind = "short" if bits <= ROOM["short"] else "long"
        room = _library.kind_number(kind, ROOM)
        if bits > room:
            raise NotAnItem(f"the packets have {bits} bits, and a {kind} telegram has room for {room}")
        return cls(kind, pairs, packets, "1" * (room - bits))

    def __repr__(self) -> str:
        head = f"{getattr(self, 'kind', '')} telegram".strip()
        return _tree(head, self, "header", "packets", bits=f"FILL {_digits(self.fill)}" if hasattr(self, "fill") else "")

    def _repr_html_(self) -> Optional[str]:
        """For notebooks: the page of `etcs.page`, if the program is found."""
        return frame_of(self)

    def to_dict(self) -> Dict[str, Any]:
        """The tree of its JSON."""
        packets = [packet.to_dict() for packet in _checked_packets(self.packets)]
        return {"kind": self.kind, "header": pairs_of(self.header), "packets": packets, "fill": self.fill}


# ---- Messages.


@dataclass(repr=False, init=False)
class Message(Named):
    """A radio message, to the train (kind `radio`) or to the track (`train`): a typed one, or one that is kept as bits in
    `data`. A name in brackets is a variable of its own, or else of its header."""

    _lists = ("fields", "header")
    _kinds = ("radio", "train")

    nid: int
    header: Variables
    fields: Variables
    packets: List[Packet]
    padding: str
    data: Optional[str]
    kind: MessageKind

    def __init__(self, nid: int, header: Pairs = (), fields: Pairs = (), packets: Iterable[Packet] = (), padding: str = "",
                 data: Optional[str] = None, kind: MessageKind = "radio") -> None:
        self.nid, self.header, self.fields, self.packets = nid, as_variables(header), as_variables(fields), list(packets)
        self.padding, self.data, self.kind = padding, data, kind

    @classmethod
    def build(cls, nid: int, header: Pairs = (), packets: Iterable[Packet] = (), fields: Pairs = (),
              kind: Optional[MessageKind] = None) -> Message:
        """The typed message of this number with these packets, and with the bits of PADDING that fill its last byte, all 0.
        Variables of the header, and in `fields` those of its own, may be in any order; those that aren't given have their
        least number, and Q_SCALE 1. Without a kind a message from 128 on is one to the track. Raises NotAnItem if the message
        isn't typed, if it would be too long, or if there is no such variable.

            >>> message = Message.build(24, {"NID_LRBG": 16385}, [Packet(137, 1, [("Q_SRSTOP", 1)])])
            >>> message.kind, message.padding, encode(message).hex()
            ('radio', '00000', '18034000000000080031280620')
        """
        nid = _library.whole(nid, "NID_MESSAGE", 255)
        if kind is None:
            kind = "radio" if nid < 128 else "train"
        frame = _library.kind_number(kind, FRAMES)
        if nid not in OWN[kind]:
            raise NotAnItem(f"message {nid} of the kind {kind} isn't typed: its bits are `data`")
        packets = _given_packets(packets)
        pairs, own = _named(header, HEADS[kind], f"the header of a {kind} message"), _named(fields, OWN[kind][nid], f"message {nid}")
        bits = _LENGTH_BITS + sum(widths_of([*pairs, *own])) + sum(packet._bits(frame) for packet in packets)
        if bits > 8 * _MOST_BYTES:
            raise NotAnItem(f"the message has {bits} bits, and room for {8 * _MOST_BYTES}")
        return cls(nid, pairs, own, packets, "0" * (-bits % 8), kind=kind)

    def __repr__(self) -> str:
        head = f"{getattr(self, 'kind', '')} message {_attribute(self, 'nid')}".strip()
        if getattr(self, "data", None) is not None:
            return _tree(head, self, bits=f"bits {_digits(self.data)}")
        padding = getattr(self, "padding", "")
        return _tree(head, self, "header", "fields", "packets", bits=f"PADDING {_digits(padding)}" if padding else "")

    def _repr_html_(self) -> Optional[str]:
        """For notebooks: the page of `etcs.page`, if the program is found."""
        return frame_of(self)

    def to_dict(self) -> Dict[str, Any]:
        """The tree of its JSON."""
        if self.data is not None:
            return {"kind": self.kind, "nid": self.nid, "data": self.data}
        return {
            "kind": self.kind, "nid": self.nid, "header": pairs_of(self.header), "fields": pairs_of(self.fields),
            "packets": [packet.to_dict() for packet in _checked_packets(self.packets)], "padding": self.padding,
        }


Item = Union[Telegram, Message]


def unread(data: bytes, kind: Any, sent: bytes) -> Item:
    """The item that the bytes are, with these fields; its members are made when one of them is read."""
    item: Item = Telegram.__new__(Telegram) if kind in ROOM else Message.__new__(Message)
    item.__dict__ = {"kind": kind, "_unread": (data, kind, sent)}
    return item


def blank(nid: int, kind: Kind = "radio") -> Packet:
    """A packet of this number to fill in, for items of the kind: with the least numbers, Q_SCALE 1 and no entries. If you change
    a count or a flag, its group must follow. A packet that isn't typed has no bits after its length. Raises BadArgument for
    255, which ends the packets of a telegram.

        >>> packet = blank(16)
        >>> packet["L_SECTION"] = 500
        >>> packet
        packet 16, direction 1
          Q_SCALE = 1
          L_SECTION = 500
    """
    _library.kind_number(kind)
    nid = _library.whole(nid, "NID_PACKET", 255)
    if nid == 255 and kind != "train":
        raise BadArgument("packet 255 ends the packets of a telegram, and is none of them")
    known = PACKETS["track" if kind == "train" else "train"]
    if nid not in known:
        return Packet(nid, None if kind == "train" else 1, data="")
    return _packet(json.loads(known[nid]))


# ---- Items of trees.


def _packet(tree: Dict[str, Any]) -> Packet:
    if "data" in tree:
        return Packet(tree["nid"], tree.get("dir"), data=tree["data"])
    return Packet(tree["nid"], tree.get("dir"), variables_of(tree["fields"]))


def _item(tree: Dict[str, Any]) -> Item:
    """The item of a tree that has all members."""
    kind = tree["kind"]
    if kind in ("long", "short"):
        return Telegram(kind, variables_of(tree["header"]), [_packet(each) for each in tree["packets"]], tree["fill"])
    if "data" in tree:
        return Message(tree["nid"], data=tree["data"], kind=kind)
    packets = [_packet(each) for each in tree["packets"]]
    return Message(tree["nid"], variables_of(tree["header"]), variables_of(tree["fields"]), packets, tree["padding"], kind=kind)


def from_dict(tree: Dict[str, Any]) -> Item:
    """The item of a JSON tree, as to_dict returns it. Raises NotAnItem if it doesn't have the members of one; whether there is
    an item with these values is checked by `encode`.

        >>> try:
        ...     from_dict({"kind": "short"})
        ... except NotAnItem as fault:
        ...     print(fault.reason)
        .header: this member is missing
    """
    try:
        item = _item(tree)
        if isinstance(item, Telegram):
            check_members(tree, "kind", "header", "packets", "fill")
        elif item.data is not None:
            check_members(tree, "kind", "nid", "data")
        else:
            check_members(tree, "kind", "nid", "header", "fields", "packets", "padding")
        for packet in tree.get("packets", ()):
            check_members(packet, "nid", "dir", "data" if "data" in packet else "fields")
        return item
    except (KeyError, TypeError, ValueError, AttributeError) as fault:
        raise fault_of(tree, fault) from None
