"""Items from the fields that the library writes, and the fields of items, which it reads.

An item's members are made from its fields when they are read: it keeps what the library wrote (`Later`), and hands unchanged
members back as they came. This, and handling whole lists at a time, makes `decode` and `encode` fast.
"""

from __future__ import annotations

import json
from array import array
from typing import Any, Dict, FrozenSet, List, Optional, Tuple, Union

from . import _library
from ._blanks import HEADER, PACKETS
from ._parts import Later, kept, unread_bytes
from ._rows import HEADS
from ._trees import line_of
from ._values import Item, Message, Packet, Telegram
from ._variables import VARIABLES, WIDTHS

_NID_PACKET, _OTHER_DATA, _FILL, _PADDING, _PAD = map(VARIABLES.index, ("NID_PACKET", "OTHER_DATA", "FILL", "PADDING", "PAD"))
#: how many bytes a field has
_SIZE = 16

#: the numbers of the packets that are typed
_TYPED: Dict[str, FrozenSet[int]] = {
    way: frozenset(nid for nid, tree in packets.items() if "fields" in json.loads(tree)) for way, packets in PACKETS.items()}

#: for each kind its way, and the variables before a message's own
_WAYS = {"long": "train", "short": "train", "radio": "train", "train": "track"}
_HEADS = {kind: tuple(name for name, _ in head) for kind, head in HEADS.items()}


# ---- Items from fields.


def item_of(sent: bytes, kind: Any) -> Item:
    """The item of the kind with the fields that the library wrote."""
    item: Item = Message.__new__(Message) if kind in _HEADS else Telegram.__new__(Telegram)
    item.__dict__ = members_of(sent, kind)
    return item


def members_of(sent: bytes, kind: Any) -> Dict[str, Any]:
    """The members of the item of the kind with these fields; those in `_later` are made when they are read."""
    # a variable's number is below 256, so it is its first byte
    names = sent[8::_SIZE]
    if kind in _HEADS:
        return _of_message(kind, names, sent)
    packets, end = _packets_of("train", len(HEADER), len(names), names, sent)
    later = {"header": Later(sent, 0, len(HEADER)), "fill": Later(sent, end + 1, len(names) - 1)}
    return {"kind": kind, "packets": packets, "_later": later}


def _of_message(kind: Any, names: bytes, sent: bytes) -> Dict[str, Any]:
    nid = sent[0]
    if names[2] == _OTHER_DATA:
        return dict(Message(nid, data=Later(sent, 2, len(names)).digits(), kind=kind).__dict__)
    own, end = 2 + len(_HEADS[kind]), len(names)
    if names[-1] == _PADDING:
        end -= 1
    first = names.find(_NID_PACKET, own)
    first = end if first < 0 else first
    packets, _ = _packets_of(_WAYS[kind], first, end, names, sent)
    later = {"header": Later(sent, 2, own), "fields": Later(sent, own, first)}
    return {"kind": kind, "nid": nid, "packets": packets, "padding": Later(sent, end, len(names)).digits(), "data": None, "_later": later}


def _packets_of(way: str, at: int, last: int, names: bytes, sent: bytes) -> Tuple[List[Packet], int]:
    """The packets from a place on, and where they end: at packet 255 of a telegram, or at the last place."""
    packets, typed = [], _TYPED[way]
    while at < last:
        nid, direction = sent[at * _SIZE], None
        if way == "track":
            begin = at + 2
        elif nid == 255:
            break
        elif nid == 0:
            begin = at + 1
        else:
            begin, direction = at + 3, sent[(at + 1) * _SIZE]
        end = names.find(_NID_PACKET, begin)
        end = last if end < 0 else end
        row = Later(sent, begin, end)
        if names[begin] != _OTHER_DATA if begin < end else nid in typed:
            packet = Packet.__new__(Packet)
            packet.nid, packet.dir, packet.data = nid, direction, None
            packet.__dict__["_later"] = {"fields": row}
        else:
            packet = Packet(nid, direction, data=row.digits())
        packets.append(packet)
        at = end
    return packets, at


# ---- Fields of items.

#: a variable and its width as one number, as the library takes them after the variable's number
_META: Dict[str, int] = {name: var | width << 32 for var, (name, width) in enumerate(zip(VARIABLES, WIDTHS))}
_HEADER = tuple(name for name, _ in HEADER)
_HEADER_META = [var | WIDTHS[var] << 32 for var in range(len(HEADER))]
#: the variables before a packet's row
_FRAMES = {name: [_META[each] for each in name.split()] for name in ("NID_PACKET", "NID_PACKET L_PACKET", "NID_PACKET Q_DIR L_PACKET")}
_MESSAGE = [_META["NID_MESSAGE"], _META["L_MESSAGE"]]
#: those that may be a row's
_ROW = {name: meta for name, meta in _META.items() if name not in (
    "NID_PACKET", "Q_DIR", "L_PACKET", "NID_MESSAGE", "L_MESSAGE", "OTHER_DATA", "FILL", "PADDING", "PAD")}
_PAIRS = {tuple, list}
_INT = {int}


class _Unusual(Exception):
    """The item isn't as `decode` makes items, so it must go through its JSON."""


def _packed(numbers: List[Any], metas: List[int]) -> bytes:
    """Fields as the library takes them."""
    if set(map(type, numbers)) != _INT:
        raise _Unusual
    packed = array("Q", bytes(_SIZE * len(numbers)))
    packed[::2], packed[1::2] = array("Q", numbers), array("Q", metas)
    return packed.tobytes()


def _row(owner: Any, member: str, wanted: Optional[Tuple[str, ...]] = None) -> bytes:
    """The fields of a member with variables: exactly these, or any that a row may have."""
    unchanged = kept(owner, member)
    if unchanged is not None:
        return unchanged
    pairs = owner.__dict__[member]
    if not pairs and wanted is None:
        return b""
    names, numbers = _columns(pairs)
    if wanted is not None and names != wanted:
        raise _Unusual
    # the header's M_VERSION is a variable of its own
    metas = _HEADER_META if wanted is _HEADER else list(map(_ROW.__getitem__, names))
    return _packed(numbers, metas)


def _bits(var: int, owner: Any, member: str) -> bytes:
    """The fields of a member with bits."""
    unchanged = kept(owner, member)
    if unchanged is not None:
        return unchanged
    digits = owner.__dict__[member]
    if type(digits) is not str or digits.strip("01"):
        raise _Unusual
    if not digits:
        return b""
    pieces = [digits[at:at + 64] for at in range(0, len(digits), 64)]
    return _packed([int(it, 2) for it in pieces], [var | len(it) << 32 for it in pieces])


def _width(packed: bytes) -> int:
    """How many bits fields have."""
    return sum(memoryview(packed).cast("I")[3::4].tolist()) if packed else 0


def _packet(packet: Any, way: str) -> bytes:
    """The fields of a packet."""
    if type(packet) is not Packet:
        raise _Unusual
    nid, typed = packet.nid, packet.data is None
    if typed != (nid in _TYPED[way]):
        raise _Unusual
    row = _row(packet, "fields") if typed else _bits(_OTHER_DATA, packet, "data")
    if packet.dir is not None:
        if way == "track" or nid == 0:
            raise _Unusual
        return _packed([nid, packet.dir, 23 + _width(row)], _FRAMES["NID_PACKET Q_DIR L_PACKET"]) + row
    if way == "track":
        return _packed([nid, 21 + _width(row)], _FRAMES["NID_PACKET L_PACKET"]) + row
    if nid != 0:
        raise _Unusual
    return _packed([nid], _FRAMES["NID_PACKET"]) + row


#: packet 255, and PAD
_END = _packed([255], _FRAMES["NID_PACKET"])
_PADS = {kind: _packed([0], [_PAD | bits << 32]) for kind, bits in (("long", 2), ("short", 6))}


def _columns(pairs: Any) -> Any:
    if not set(map(type, pairs)) <= _PAIRS or set(map(len, pairs)) != {2}:
        raise _Unusual
    return zip(*pairs)


def fields_of(item: Item) -> Optional[bytes]:
    """The fields of an item, packed; None if it isn't as `decode` makes items, so that it must go through its JSON. The library
    checks whether there is such an item; if so, it is the one with this JSON."""
    item._read()
    try:
        return _telegram(item) if isinstance(item, Telegram) else _message(item)
    except (_Unusual, AttributeError, KeyError, OverflowError, TypeError, ValueError):
        return None


def _telegram(item: Telegram) -> bytes:
    if type(item) is not Telegram:
        raise _Unusual
    packets = [_packet(packet, "train") for packet in item.packets]
    return b"".join([_row(item, "header", _HEADER), *packets, _END, _bits(_FILL, item, "fill"), _PADS[item.kind]])


def _message(item: Message) -> bytes:
    if type(item) is not Message:
        raise _Unusual
    if item.data is not None:
        rest = _bits(_OTHER_DATA, item, "data")
    else:
        packets = [_packet(packet, _WAYS[item.kind]) for packet in item.packets]
        rest = b"".join([_row(item, "header", _HEADS[item.kind]), _row(item, "fields"), *packets, _bits(_PADDING, item, "padding")])
    length, left = divmod(18 + _width(rest), 8)
    if left:
        raise _Unusual
    return _packed([item.nid, length], _MESSAGE) + rest


# ---- Bytes of items.


def encode(item: Union[Item, Dict[str, Any]]) -> bytes:
    """The bytes of an item or of its JSON tree. Raises NotAnItem if there is no such item, and Refused if a packet was stored
    as bits, its number is typed now, and no item has these bits."""
    if not isinstance(item, (Telegram, Message, dict)):
        raise TypeError(f"expected a Telegram, a Message or a tree, not {type(item).__name__}")
    if isinstance(item, dict):
        return _of_tree(item)
    data = unread_bytes(item)
    if data is not None:
        return data
    packed = fields_of(item)
    data = None if packed is None else _library.if_item(packed, item.kind)
    return _of_tree(item.to_dict()) if data is None else data


def _of_tree(tree: Dict[str, Any]) -> bytes:
    return _library.from_json(line_of(tree), tree.get("kind", ""))
