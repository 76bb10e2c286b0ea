"""Balise telegrams and radio messages of ETCS, over the proved library libetcs.

    >>> import etcs
    >>> message = etcs.decode(bytes.fromhex("18034000000000080031280620"), "radio")
    >>> message.nid, message.packets[0].nid, message.packets[0]["Q_SRSTOP"]
    (24, 137, 1)
    >>> message.packets[0]["Q_SRSTOP"] = 0
    >>> etcs.encode(message).hex()
    '18034000000000080031280600'
    >>> etcs.decode(bytes.fromhex("0602C0"), "radio")
    Traceback (most recent call last):
    etcs.Refused: refused at bit 17, L_MESSAGE

An item prints as a tree, and a refusal has a reason, computed when it is read:

    >>> message
    radio message 24
      T_TRAIN = 0
      M_ACK = 0
      NID_LRBG = 16385
      packet 137, direction 1
        Q_SRSTOP = 0
      PADDING 00000
    >>> try:
    ...     etcs.decode(bytes.fromhex("0602C0"), "radio")
    ... except etcs.Refused as fault:
    ...     print(fault.reason)
    ...     print(fault.cause, fault.number, fault.below, fault.above)
    message 6 has 10 or 13 to 1023 bytes, not 11
    spare 11 10 13

`decode` and `encode` convert between bytes and values, `check` finds where an item ends, `items` and `Reader` read many,
`show` returns the program's text, `fields` each variable with its bit; `read_log`, `groups`, `passages` and `frame` are for
logs; `Telegram.build`, `Message.build` and `blank` make items. The library, which is proved, determines what is accepted,
refused and written; this module passes it on.

Telegrams, messages and packets are looked up by the names of variables: `item["NID_BG"]`, `in`, `get`, `all`, and iteration
by names. For a telegram these are the variables of its header, for a message its own and then those of its header.
`packet.entries()` has the entries of its lists.

The module keeps nothing between two calls, so threads may call it freely (and run in parallel, since ctypes releases
the interpreter's lock), and so may a signal handler or a finalizer that runs during a call; only one of them at a time
may use a Reader. Pass bytes, a bytearray or a memoryview of bytes; anything else raises TypeError. An unknown kind, or
a number that isn't whole or is out of range, raises BadArgument, which is an EtcsError like all errors of the module.
Whatever is assigned to the members of an item, its use ends in a value or an EtcsError; after an error the item is as before.
Items can be copied, and pickled with every protocol.
"""

from __future__ import annotations

import re
from types import TracebackType
from typing import Any, Generic, Iterable, Iterator, List, Optional, Tuple, Type, TypeVar, Union, overload

from . import _library
from ._entries import Entry
from ._explained import Variable, explained
from ._fields import encode, item_of
from ._frame import frame
from ._groups import Clash, Group, groups, passages
from ._library import BadArgument, Cause, Data, EtcsError, Field, NoMember, NotAnItem, NoVariable, Refused, Truncated, bytes_of
from ._log import BadLine, LogLine, OtherKind, read_log
from ._meanings import meaning
from ._page import program, written_page
from ._parts import Variables
from ._values import KINDS, Item, Kind, Message, MessageKind, Packet, Telegram, TelegramKind, blank, from_dict
from ._variables import VARIABLES

__all__ = [
    "BadArgument", "BadLine", "Cause", "Clash", "Entry", "EtcsError", "Field", "Group", "Item", "KINDS", "Kind", "LogLine",
    "Message", "NoMember", "NoVariable", "NotAnItem", "OtherKind", "Packet", "Reader", "Refused", "Telegram", "Truncated", "VARIABLES",
    "Variable", "Variables", "blank", "check", "decode", "encode", "fields", "frame", "from_dict", "from_fields", "from_json",
    "groups", "items", "meaning", "page", "passages", "read_log", "show", "variables",
]
__version__ = "0.2.0"

# the module that reports of errors and pickles name
for _public in (
    BadArgument, BadLine, Clash, Entry, EtcsError, Field, Group, LogLine, Message, NoMember, NoVariable, NotAnItem, OtherKind,
    Packet, Refused, Telegram, Truncated, Variable, Variables, blank, encode, frame, from_dict, groups, meaning, passages, read_log,
):
    _public.__module__ = "etcs"


_LONGEST = {"long": 104, "short": 27, "radio": 1023, "train": 1023}
_Read = TypeVar("_Read", bound=Item)

#: where a line of JSON most likely gives its kind
_KIND = re.compile(rb'"kind"[ \t\r\n]*:[ \t\r\n]*"([a-z]+)"')


def from_json(line: Union[str, Data]) -> Item:
    """The item of a line of JSON. Raises NotAnItem or Refused, as the library does for this line."""
    if isinstance(line, str):
        try:
            line = line.encode()
        except UnicodeEncodeError as fault:
            raise NotAnItem(f"not UTF-8: {fault.reason}") from None
    line = bytes_of(line)
    first = ([""] + [each.decode() for each in _KIND.findall(line)])[-1]
    # only one kind can accept the line, whatever its member seems to be
    faults = []
    for kind in [each for each in KINDS if each == first] + [each for each in KINDS if each != first]:
        try:
            item: Item = _front(_library.from_json(line, kind), kind)[0]
            return item
        except NotAnItem as fault:
            faults.append(fault)
    raise faults[0] if first in KINDS else NotAnItem(f"not JSON, or its member kind is none of {', '.join(KINDS)}", line=line)


def check(data: Data, kind: Kind) -> int:
    """The number of bytes that the item at the front takes. Raises Refused or Truncated."""
    return _library.check(bytes_of(data), kind)


def _front(data: bytes, kind: str) -> Tuple[Any, int]:
    sent, taken = _library.fields(data, kind)
    return item_of(sent, kind), taken


@overload
def decode(data: Data, kind: TelegramKind) -> Telegram: ...
@overload
def decode(data: Data, kind: MessageKind) -> Message: ...
@overload
def decode(data: Data, kind: Kind) -> Item: ...


def decode(data: Data, kind: Kind) -> Item:
    """The one item that the bytes are. Raises Refused, Truncated, or EtcsError if bytes follow the item."""
    data = bytes_of(data)
    item: Item
    item, taken = _front(data, kind)
    if taken < len(data):
        left = len(data) - taken
        raise EtcsError(f"{left} bytes follow the item" if left > 1 else "1 byte follows the item")
    return item


@overload
def items(data: Data, kind: TelegramKind) -> Iterator[Tuple[int, Telegram]]: ...
@overload
def items(data: Data, kind: MessageKind) -> Iterator[Tuple[int, Message]]: ...
@overload
def items(data: Data, kind: Kind) -> Iterator[Tuple[int, Item]]: ...


def items(data: Data, kind: Kind) -> Iterator[Tuple[int, Item]]:
    """Yields the items one after another, each with the place of its first byte. Raises as `decode` does."""
    data, at = bytes_of(data), 0
    _library.kind_number(kind)
    while at < len(data):
        item, taken = _front(data[at:at + _LONGEST[kind]], kind)
        yield at, item
        at += taken


def show(data: Union[Data, Item], kind: Optional[Kind] = None, number: int = 1) -> str:
    """The text of an item, or of the one at the start of bytes of the kind, as `etcs show` prints it. `number` is the item's
    number in the text, from 0 to 2**64 - 1; any other raises BadArgument."""
    if isinstance(data, (Telegram, Message)):
        return _library.show(encode(data), data.kind, number)
    return _library.show(bytes_of(data), kind or "", number)


def page(data: Union[Data, Item, Iterable[Item]], kind: Optional[Kind] = None) -> str:
    """A page for a browser of an item, of several items of a kind, or of bytes of the kind, which may be refused: the output of
    the program's `explain --to html`. It runs the program, `etcs` on the path or the one that ETCS_PROGRAM names, since no call
    of the library writes a page. Raises FileNotFoundError if there is no program."""
    if isinstance(data, (Telegram, Message)):
        data = [data]
    if not isinstance(data, (bytes, bytearray, memoryview)):
        every: List[Item] = []
        for item in data:
            _library.expect(item, "a Telegram or a Message", Telegram, Message)
            every.append(item)
        data, kind = b"".join(map(encode, every)), every[0].kind if every else kind
    _library.kind_number(kind or "")
    written = written_page(bytes_of(data), kind or "")
    if written is None:
        path = program()
        raise FileNotFoundError(f"{path} writes no page" if path else "no program etcs on the path, and no ETCS_PROGRAM")
    return written


def fields(data: Data, kind: Kind) -> List[Field]:
    """All variables of the item at the start, in the order of sending, from the first of the header to PAD or PADDING. Up to
    64 bits of FILL, OTHER_DATA, PADDING or PAD are one field; there is an X_TEXT for each byte."""
    return _library.placed(_library.fields(bytes_of(data), kind)[0])


def variables(data: Union[Data, Item], kind: Optional[Kind] = None) -> List[Variable]:
    """The variables of an item, or of the one at the start of bytes of the kind, each with what its number means. They are
    those of `fields`.

        >>> telegram = Telegram.build({"NID_C": 98, "NID_BG": 600}, [Packet(137, 1, [("Q_SRSTOP", 1)])])
        >>> for variable in variables(telegram):
        ...     if variable.nid == 137:
        ...         print(variable.bit, variable.name, variable.number, variable.meaning)
        50 NID_PACKET 137 Stop if in Staff Responsible
        58 Q_DIR 1 nominal
        60 L_PACKET 24 
        73 Q_SRSTOP 1 go if in SR mode
    """
    if isinstance(data, (Telegram, Message)):
        return explained(encode(data), data.kind)
    return explained(bytes_of(data), kind or "")


def from_fields(sent: Iterable[Field], kind: Kind) -> bytes:
    """The bytes of the item with these fields, as `fields` returns them. Raises Refused, Truncated or NotAnItem.

    To change one: `sent[12] = sent[12]._replace(number=900)`. `bit` is ignored: places follow from the widths.
    """
    return _library.from_fields(_library.pack(list(sent)), kind)


class Reader(Generic[_Read]):
    """Reads items of a kind from pieces of any length, single bytes too.

        reader = etcs.Reader("radio")
        for piece in pieces:
            for item in reader.feed(piece):
                ...
        reader.close()

    An item comes with the piece that completes it. The bytes of an item that isn't whole are kept, and read anew when all are
    there (27, 104, or as many as L_MESSAGE gives), and before that when 1, 2, 3, 6, 12, 24 and so on up to 768 of them are. So
    the time for an item is proportional to its bytes, and a refused bit may be reported late: if it is in byte n of the item,
    counted from 1, then with the piece that brings byte n or one of the n - 1 bytes after it, at the latest with the item's
    last byte, or by `close`. Bit and variable are those that `check` reports.
    """

    @overload
    def __init__(self: Reader[Telegram], kind: TelegramKind) -> None: ...
    @overload
    def __init__(self: Reader[Message], kind: MessageKind) -> None: ...
    @overload
    def __init__(self: Reader[Item], kind: Kind) -> None: ...

    def __init__(self, kind: Kind) -> None:
        _library.kind_number(kind)
        self.kind: Kind = kind
        #: how many items were read
        self.count = 0
        self._held = bytearray()
        self._fault: Optional[Refused] = None

    def _due(self) -> int:
        """At how many bytes of an item, more than are held, it is read next."""
        held = len(self._held)
        if held < 3:
            return held + 1
        whole = _LONGEST[self.kind] if self.kind in ("long", "short") else self._held[1] << 2 | self._held[2] >> 6  # L_MESSAGE
        return min(whole, 3 << (held // 3).bit_length())

    def _refuse(self, fault: Refused, found: List[_Read]) -> None:
        """Notes a fault, which each later call raises, with the items of the piece before it."""
        self.count += len(found)
        fault.items, fault.item, self._fault = found, self.count + 1, fault

    def feed(self, piece: Data) -> List[_Read]:
        """The items that become whole with this piece. Raises Refused, now and in each later call; its `items` are the items
        before the refused one, and its `item` is the number of that one, from 1."""
        if self._fault:
            raise self._fault
        data = bytes_of(piece)
        _library.kind_number(self.kind)
        if len(self._held) + len(data) < self._due():
            self._held += data
            return []
        data = bytes(self._held) + data
        found: List[_Read] = []
        at = 0
        while at < len(data):
            try:
                item, taken = _front(data[at:at + _LONGEST[self.kind]], self.kind)
            except Truncated:
                break
            except Refused as fault:
                self._refuse(fault, found)
                raise
            found.append(item)
            at += taken
        self.count += len(found)
        self._held = bytearray(data[at:])
        return found

    def close(self) -> None:
        """Ends the input. Raises Truncated inside an item, or Refused, as `feed` does, if the item is refused."""
        if self._fault:
            raise self._fault
        if self._held:
            try:
                _library.check(bytes(self._held), self.kind)
            except Refused as fault:
                self._refuse(fault, [])
                raise

    def __enter__(self) -> Reader[_Read]:
        return self

    def __exit__(self, kind: Optional[Type[BaseException]], fault: Optional[BaseException], trace: Optional[TracebackType]) -> None:
        if kind is None:
            self.close()
