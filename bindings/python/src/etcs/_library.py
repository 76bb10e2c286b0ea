"""The calls of etcs.h by ctypes: bytes in, bytes and numbers out, statuses as exceptions."""

from __future__ import annotations

import ctypes
import json
import os
import threading
from array import array
from functools import lru_cache
from itertools import accumulate, repeat
from operator import attrgetter, index
from typing import Any, List, Literal, Mapping, NamedTuple, NoReturn, Optional, Tuple, Union

from ._variables import VARIABLES, WIDTHS

#: why no number of a refused variable may come
Cause = Literal["spare", "unfit"]

#: the kinds by their numbers in the library
KINDS = {"long": 1, "short": 2, "radio": 3, "train": 4}

_OK, _MORE, _REFUSED, _NO_ROOM, _NO_MEMORY, _UNKNOWN_KIND, _BAD_JSON, _BAD_FIELDS = range(8)
#: why a line of hexadecimal gives no bytes
EMPTY_LINE, NO_DIGITS, ODD_DIGITS = 8, 9, 10
#: why a telegram doesn't belong to the group of those before it, in the words of the program's `group`
CLASHES = {
    11: "the position is after the group's last",
    12: "the position has no such neighbour to be a duplicate of",
    13: "the telegram is of another group",
    14: "the telegram counts other balises in the group",
    15: "the message counters don't agree",
    16: "another telegram is held at this position",
}
_SENT = attrgetter("number", "var", "width")
_CAUSES: Tuple[Cause, ...] = ("spare", "unfit")
#: by which bits of `has` a refusal has its numbers
_HAS = {"number": 1, "below": 2, "above": 4, "room": 8}

#: how many bits a variable takes, by its name
WIDTHS_BY_NAME = dict(zip(VARIABLES, WIDTHS))

#: no item has more bytes
_LONGEST = 1023
_TELEGRAM_BYTES = {"long": 104, "short": 27}

#: what is accepted as bytes
Data = Union[bytes, bytearray, memoryview]


class Field(NamedTuple):
    """A variable as it is sent."""

    name: str
    number: int
    #: the bit where it begins, from 0, and how many bits it takes
    bit: int
    width: int
    #: which variable, by its place in VARIABLES
    var: int


class Refusal(NamedTuple):
    """Why a bit is refused; all members are None if none is."""

    cause: Optional[Cause] = None
    number: Optional[int] = None
    below: Optional[int] = None
    above: Optional[int] = None
    room: Optional[int] = None


class Misfit(NamedTuple):
    """Where JSON isn't that of an item, and what is wrong there; a member is None if the reason doesn't have it."""

    path: Optional[str] = None
    column: Optional[int] = None
    expected: Optional[str] = None
    found: Optional[str] = None


class EtcsError(ValueError):
    """Bytes or values that aren't an item, or a wrong argument."""


class BadArgument(EtcsError):
    """An unknown kind, a number that isn't whole or is out of range, or a memoryview that was released."""


class NoVariable(EtcsError, KeyError):
    """There is no variable of this name, or one is set by a name that occurs several times."""


class _OfJson:
    """What is wrong with a line of JSON, or a tree. Each member is computed when it is read, and None if there is none."""

    _kind = ""
    _line: Optional[bytes] = None

    @property
    def path(self) -> Optional[str]:
        """The first part that is wrong, as jq writes it: `.packets[0].fields[3]`."""
        return self._misfit().path

    @property
    def column(self) -> Optional[int]:
        """The character of a line, from 1, at which it stops being JSON, or is nested too deep; one more than it has if it
        ends inside a value."""
        return self._misfit().column

    @property
    def expected(self) -> Optional[str]:
        """What has to be at the path, if that is one thing: `D_LINK`, `an object`, `a whole number from 0 to 255`. The
        wording may change between versions."""
        return self._misfit().expected

    @property
    def found(self) -> Optional[str]:
        """What is there in its place: `"D_LIMK"`, a number, `a list`. The wording may change between versions."""
        return self._misfit().found

    def _misfit(self) -> Misfit:
        if self._line is None:
            return Misfit()
        # where a line without a kind stops being JSON is the same for each kind
        return misfit(self._line, self._kind) if self._kind else Misfit(column=misfit(self._line, "long").column)


class Refused(_OfJson, EtcsError):
    """No item of the kind continues with the bit `bit` (from 0), which the variable `variable` holds.

    All members but these two are computed when they are read, so a refusal costs nothing that isn't used. A number is None if
    there is none, and all are for JSON in which stored bits are refused; `path` is then where they are.

        >>> import etcs
        >>> try:
        ...     etcs.decode(bytes.fromhex("0602C0"), "radio")
        ... except etcs.Refused as fault:
        ...     print(fault.bit, fault.variable, fault.fields[0].name, fault.fields[0].number)
        ...     print(fault.reason)
        ...     print(fault.cause, fault.number, fault.below, fault.above)
        17 L_MESSAGE NID_MESSAGE 6
        message 6 has 10 or 13 to 1023 bytes, not 11
        spare 11 10 13
    """

    #: from a Reader: the items before it, and which item this one is
    items: Optional[List[Any]] = None
    item: Optional[int] = None
    _data = b""

    def __init__(self, bit: int, variable: str, kind: str = "", data: bytes = b"", line: Optional[bytes] = None) -> None:
        super().__init__(bit, variable)
        self.bit, self.variable = bit, variable
        self._kind, self._data, self._line = kind, data, line

    @property
    def fields(self) -> List[Field]:
        """Variables before the one that holds the bit, as `etcs.fields` returns them; none for JSON in which stored bits
        are refused."""
        return [] if self._line is not None or not self._kind else fields_before(self._data, self._kind)

    @property
    def reason(self) -> str:
        """Why the bit is refused, a sentence without a capital or a full stop. The wording may change between versions."""
        if not self._kind:
            return ""
        return explain(self._data, self._kind) if self._line is None else explain_json(self._line, self._kind)

    @property
    def cause(self) -> Optional[Cause]:
        """Why no number of the variable may come that begins with its bits up to `bit`: "spare", the tables have none, or
        "unfit", they have one or more, but none fits into what is left."""
        return self._refusal().cause

    @property
    def number(self) -> Optional[int]:
        """The number of the variable, if the bytes, up to 1,023, have all its bits."""
        return self._refusal().number

    @property
    def below(self) -> Optional[int]:
        """The greatest number that the variable may have here of those below all that begin with its bits up to `bit`."""
        return self._refusal().below

    @property
    def above(self) -> Optional[int]:
        """The least number that the variable may have here of those above all that begin with its bits up to `bit`."""
        return self._refusal().above

    @property
    def room(self) -> Optional[int]:
        """For a variable of a packet's row, how many bits of the packet are left, with the variable; for NID_PACKET and
        L_PACKET, how many bits are left of the telegram's user bits or the message, from the packet's first bit on."""
        return self._refusal().room

    @property
    def packet(self) -> Optional[int]:
        """The number of the packet that the variable is in, if its NID_PACKET comes before the bit."""
        if self.variable in ("NID_PACKET", "PAD"):
            return None
        return next((each.number for each in reversed(self.fields) if each.name == "NID_PACKET"), None)

    def _refusal(self) -> Refusal:
        return refusal(self._data, self._kind) if self._kind and self._line is None else Refusal()

    def __str__(self) -> str:
        return f"refused at bit {self.bit}, {self.variable}"


class Truncated(EtcsError):
    """The bytes begin an item and end inside it."""

    def __init__(self, bits: int) -> None:
        super().__init__(bits)
        self.bits = bits

    def __str__(self) -> str:
        return f"truncated after {self.bits} bits"


class NotAnItem(_OfJson, EtcsError):
    """No item of the kind has these values.

    `reason` is the reason, for a tree or JSON with the path of the first part that is wrong. It is computed when it is read,
    or when the exception is printed, and so are its parts: `path`, `column`, `expected` and `found`.

        >>> import etcs
        >>> message = etcs.decode(bytes.fromhex("18034000000000080031280620"), "radio")
        >>> message.packets[0]["Q_SRSTOP"] = 2
        >>> try:
        ...     etcs.encode(message)
        ... except etcs.NotAnItem as fault:
        ...     print(fault.reason)
        .packets[0].fields[0]: Q_SRSTOP admits 0 and 1, not 2
        >>> try:
        ...     etcs.from_json('{"kind":"short","header":7}')
        ... except etcs.NotAnItem as fault:
        ...     print(fault.path, "|", fault.expected, "|", fault.found)
        .header | a list of pairs | 7
    """

    _text = ""

    def __init__(self, text: str, kind: str = "", line: Optional[bytes] = None) -> None:
        super().__init__(text)
        self._text, self._kind, self._line = text, kind, line

    @property
    def reason(self) -> str:
        """The reason, a sentence without a capital or a full stop. The wording may change between versions."""
        return explain_json(self._line, self._kind) if self._line is not None and self._kind else self._text

    def __str__(self) -> str:
        return f"{self._text}: {self.reason}" if self._kind else self._text


class NoMember(NotAnItem, AttributeError):
    """A member of an item, such as its header, was deleted."""


class _Answer(ctypes.Structure):
    _fields_ = [("taken", ctypes.c_size_t), ("written", ctypes.c_size_t), ("bit", ctypes.c_size_t), ("var", ctypes.c_char * 32)]


class _Reason(ctypes.Structure):
    _fields_ = [
        *((name, ctypes.c_uint64) for name in ("bits", "count", "number", "below", "above", "unfit", "room")),
        *((name, ctypes.c_uint32) for name in ("cause", "here", "nid", "has")),
    ]


class _Telegram(ctypes.Structure):
    _fields_ = [("kind", ctypes.c_uint32), ("bytes", ctypes.c_uint8 * 104)]


class _Group(ctypes.Structure):
    _fields_ = [("missing", ctypes.c_uint8 * 8), ("is_complete", ctypes.c_uint32)]


def _load() -> ctypes.CDLL:
    here = os.path.dirname(os.path.abspath(__file__))
    for path in (os.environ.get("ETCS_LIBRARY"), os.path.join(here, "libetcs.so.1"), os.path.join(here, "..", "..", "..", "out", "libetcs.so.1")):
        if path and os.path.exists(path):
            return ctypes.CDLL(path)
    return ctypes.CDLL("libetcs.so.1")


_lib = _load()
_bytes, _size, _number, _answer, _out = ctypes.c_char_p, ctypes.c_size_t, ctypes.c_uint32, ctypes.POINTER(_Answer), ctypes.c_void_p
for _name, _types in {
    "etcs_check": [_number, _bytes, _size, _answer],
    "etcs_show": [_number, ctypes.c_uint64, _bytes, _size, _out, _size, _answer],
    "etcs_to_json": [_number, _bytes, _size, _out, _size, _answer],
    "etcs_from_json": [_number, _bytes, _size, _out, _size, _answer],
    "etcs_fields": [_number, _bytes, _size, _out, _size, _answer],
    "etcs_places": [_number, _bytes, _size, _out, _size, _answer],
    "etcs_from_fields": [_number, _bytes, _size, _out, _size, _answer],
    "etcs_explain": [_number, _bytes, _size, _out, _size, _answer],
    "etcs_refusal": [_number, _bytes, _size, ctypes.POINTER(_Reason), _answer],
    "etcs_fields_before": [_number, _bytes, _size, _out, _size, _answer],
    "etcs_explain_json": [_number, _bytes, _size, _out, _size, _answer],
    "etcs_json_reason": [_number, _bytes, _size, _out, _size, _answer],
    "etcs_meaning": [_number, _number, ctypes.c_uint64, _number, _out, _size, _answer],
    "etcs_line_bytes": [_bytes, _size, _out, _size, _answer],
    "etcs_line_front": [_bytes, _size],
    "etcs_assemble": [_out, _size, _out, _answer],
    "etcs_version": [_out, _size, _answer],
}.items():
    getattr(_lib, _name).argtypes = _types
    getattr(_lib, _name).restype = _size if _name == "etcs_line_front" else _number


class _Buffers(threading.local):
    """A thread's buffers that no call is using."""

    def __init__(self) -> None:
        self.free: List[ctypes.Array[ctypes.c_char]] = []


_buffers = _Buffers()


def bytes_of(data: Data) -> bytes:
    """The bytes of an argument that is accepted as bytes. Nothing else is: bytes(3) would be three zeros.

    Their type is bytes itself, whose length nobody can redefine: the calls take it as the length of the buffer.
    """
    if type(data) is bytes:
        return data
    try:
        if isinstance(data, (bytes, bytearray)) or isinstance(data, memoryview) and data.format in ("B", "b", "c"):
            return memoryview(data).tobytes()  # of a subclass, which may have a length of its own, the bytes themselves
        what = f"memoryview of format {data.format!r}" if isinstance(data, memoryview) else type(data).__name__
    except ValueError as fault:
        raise BadArgument(f"no bytes: {fault}") from None
    except TypeError:  # its class only seems to be one of these
        what = type(data).__name__
    hint = ": bytes.fromhex makes them of digits" if isinstance(data, str) else ""
    raise TypeError(f"expected bytes, a bytearray or a memoryview of bytes, not {what}{hint}")


def expect(value: Any, words: str, *types: type) -> None:
    """Raises a TypeError unless the value is of one of the types."""
    if not isinstance(value, types):
        raise TypeError(f"expected {words}, not {type(value).__name__}")


def shown(value: Any) -> str:
    """A value as it is shown in a sentence: only its type if its text is long, or if it has none."""
    try:
        text = repr(value)
    except (RecursionError, ValueError):  # it is nested too deep, or a number of thousands of digits
        text = ""
    return text if 0 < len(text) <= 80 else f"this {type(value).__name__}"


def kind_number(kind: Any, kinds: Mapping[str, int] = KINDS) -> int:
    """The number of a kind."""
    number = kinds.get(kind) if isinstance(kind, str) else None
    if number is None:
        raise BadArgument(f"kind {shown(kind)} is none of {', '.join(kinds)}")
    return number


def whole(number: Any, what: str, most: Optional[int] = None) -> int:
    """A whole number as an int; from 0 to `most`, if there is such a limit."""
    try:
        found: Optional[int] = int(index(number))
    except TypeError:
        found = None
    if found is None or most is not None and not 0 <= found <= most:
        limits = "" if most is None else f" from 0 to {most}"
        raise BadArgument(f"{what} is a whole number{limits}, not {shown(number)}")
    return found


def _raise(status: int, answer: _Answer, kind: str, data: bytes, line: Optional[bytes] = None) -> NoReturn:
    """Raises the exception for a status, about bytes of a kind or about a line of JSON."""
    if status == _MORE:
        raise Truncated(8 * len(data))
    if status == _REFUSED:
        raise Refused(answer.bit, answer.var.decode(), kind, data[:_LONGEST], line)
    if status == _NO_MEMORY:
        raise MemoryError("libetcs")
    if status == _BAD_JSON:
        raise NotAnItem("no item of the kind has this tree", kind, line)
    if status == _BAD_FIELDS:
        raise NotAnItem("no item of the kind has these fields")
    raise RuntimeError(f"unexpected status {status} from libetcs")


def _call(call: Any, *before: Any, wide: int = 1, done: Tuple[int, ...] = (_OK,)) -> Tuple[int, _Answer, bytes]:
    """A call's status and answer, and what it wrote, in parts of `wide` bytes, if the status is one of `done`; it is called
    once more if the buffer has no room.

    Answer and buffer belong to this call alone until it returns, so that a signal handler or a finalizer may call meanwhile.
    """
    answer, free = _Answer(), _buffers.free
    try:
        buffer = free.pop()
    except IndexError:
        buffer = ctypes.create_string_buffer(16384)
    status = call(*before, buffer, len(buffer) // wide, answer)
    if status == _NO_ROOM:
        buffer = ctypes.create_string_buffer(answer.written * wide)
        status = call(*before, buffer, len(buffer) // wide, answer)
    written = ctypes.string_at(buffer, answer.written * wide) if status in done else b""
    if not free:
        free.append(buffer)
    return status, answer, written


def _checked(data: bytes, kind: str) -> Tuple[int, _Answer]:
    answer = _Answer()
    return _lib.etcs_check(kind_number(kind), data, len(data), answer), answer


def check(data: Data, kind: str) -> int:
    data = bytes_of(data)
    status, answer = _checked(data, kind)
    if status:
        _raise(status, answer, kind, data)
    return answer.taken  # type: ignore[no-any-return]


def is_item(data: Data, kind: str) -> bool:
    """Whether the bytes are an item, and nothing follows it."""
    data = bytes_of(data)
    status, answer = _checked(data, kind)
    if status == _NO_MEMORY:
        _raise(status, answer, kind, data)
    return status == _OK and answer.taken == len(data)


def show(data: Data, kind: str, number: int) -> str:
    data = bytes_of(data)
    number = whole(number, "the number of an item", 2 ** 64 - 1)
    status, answer, text = _call(_lib.etcs_show, kind_number(kind), number, data, len(data))
    if status:
        _raise(status, answer, kind, data)
    return text.decode("ascii")


def to_json(data: Data, kind: str) -> Tuple[bytes, int]:
    data = bytes_of(data)
    status, answer, line = _call(_lib.etcs_to_json, kind_number(kind), data, len(data))
    if status:
        _raise(status, answer, kind, data)
    return line, answer.taken


def from_json(line: Data, kind: str) -> bytes:
    line = bytes_of(line)
    if not isinstance(kind, str) or kind not in KINDS:
        raise NotAnItem(f"the member kind is none of {', '.join(KINDS)}")
    status, answer, data = _call(_lib.etcs_from_json, KINDS[kind], line, len(line))
    if status:
        _raise(status, answer, kind, b"", line)
    return data


def fields(data: Data, kind: str) -> Tuple[bytes, int]:
    """The fields of the item at the front, 16 bytes each, and how many bytes the item takes."""
    data = bytes_of(data)
    status, answer, sent = _call(_lib.etcs_fields, kind_number(kind), data, len(data), wide=16)
    if status:
        _raise(status, answer, kind, data)
    return sent, answer.taken


def if_fields(data: Data, kind: str) -> bytes:
    """The fields of the item that the bytes are; none if they are no item, or something follows it."""
    data = bytes_of(data)
    status, answer, sent = _call(_lib.etcs_fields, kind_number(kind), data, len(data), wide=16)
    if status == _NO_MEMORY:
        _raise(status, answer, kind, data)
    return sent if status == _OK and answer.taken == len(data) else b""


def places(data: Data, kind: str) -> List[Tuple[int, int, int]]:
    """The places of the fields of the item at the front: packet, entry, and entry inside that, each from 1, and 0 if in none."""
    data = bytes_of(data)
    status, answer, found = _call(_lib.etcs_places, kind_number(kind), data, len(data), wide=24)
    if status:
        _raise(status, answer, kind, data)
    numbers = memoryview(found).cast("Q").tolist()
    return list(zip(numbers[::3], numbers[1::3], numbers[2::3]))


def columns(sent: bytes) -> Tuple[List[int], List[int], List[int]]:
    """Numbers, variables and widths of fields."""
    view = memoryview(sent)
    rest = view.cast("I")
    return view.cast("Q")[::2].tolist(), rest[2::4].tolist(), rest[3::4].tolist()


def placed(sent: bytes) -> List[Field]:
    """Fields with the bits where they begin."""
    numbers, sent_vars, widths = columns(sent)
    rows = zip(map(VARIABLES.__getitem__, sent_vars), numbers, accumulate([0, *widths]), widths, sent_vars)
    # the same as Field(*row) for each, without a Python call for each
    return list(map(tuple.__new__, repeat(Field), rows))  # type: ignore[arg-type]


def _first_bytes(packed: bytes) -> bytes:
    """The bits of fields that have their widths, up to the last whole byte of those that an item may have."""
    bits = number = 0
    for each, _, width in zip(*columns(packed)):
        number, bits = number << width | each, bits + width
        if bits >= 8 * _LONGEST:  # the refused bit is among these
            break
    return (number >> bits % 8).to_bytes(bits // 8, "big")


def pack(sent: List[Field]) -> bytes:
    """Fields as the library reads them."""
    packed = array("Q", bytes(16 * len(sent)))
    if sent:
        rest = memoryview(packed).cast("B").cast("I")
        try:
            numbers, sent_vars, widths = zip(*map(_SENT, sent))
            packed[::2] = array("Q", numbers)
            rest[2::4], rest[3::4] = memoryview(array("I", sent_vars)), memoryview(array("I", widths))
        except (AttributeError, OverflowError, TypeError) as fault:
            raise NotAnItem(f"not a field: {fault}") from None
    return packed.tobytes()


def from_fields(packed: Data, kind: str) -> bytes:
    packed = bytes_of(packed)
    status, answer, data = _call(_lib.etcs_from_fields, kind_number(kind), packed, len(packed) // 16)
    if status == _MORE:
        raise Truncated(sum(columns(packed)[2]))
    if status:
        _raise(status, answer, kind, _first_bytes(packed) if status == _REFUSED else b"")
    return data


def if_item(packed: Data, kind: str) -> Optional[bytes]:
    """The bytes of the item with these fields, or None for whatever reason."""
    packed = bytes_of(packed)
    status, _, data = _call(_lib.etcs_from_fields, kind_number(kind), packed, len(packed) // 16)
    return None if status else data


def explain(data: Data, kind: str) -> str:
    """Why a bit of the bytes is refused; "" if none is."""
    data = bytes_of(data)
    status, answer, text = _call(_lib.etcs_explain, kind_number(kind), data, len(data), done=(_REFUSED,))
    if status not in (_OK, _MORE, _REFUSED):
        _raise(status, answer, kind, data)
    return text.decode()


def refusal(data: Data, kind: str) -> Refusal:
    """Why a bit of the bytes is refused, as numbers."""
    data = bytes_of(data)
    reason, answer = _Reason(), _Answer()
    status = _lib.etcs_refusal(kind_number(kind), data, len(data), reason, answer)
    if status not in (_OK, _MORE, _REFUSED):
        _raise(status, answer, kind, data)
    if status != _REFUSED:
        return Refusal()
    numbers = {name: getattr(reason, name) for name, bit in _HAS.items() if reason.has & bit}
    return Refusal(_CAUSES[reason.cause], **numbers)


def fields_before(data: Data, kind: str) -> List[Field]:
    """The fields before a refused bit; none if no bit is refused."""
    data = bytes_of(data)
    status, answer, sent = _call(_lib.etcs_fields_before, kind_number(kind), data, len(data), wide=16, done=(_REFUSED,))
    if status not in (_OK, _MORE, _REFUSED):
        _raise(status, answer, kind, data)
    return placed(sent)


def explain_json(line: Data, kind: str) -> str:
    """Why a line isn't the JSON of an item; "" if it is."""
    line = bytes_of(line)
    status, answer, text = _call(_lib.etcs_explain_json, kind_number(kind), line, len(line), done=(_REFUSED, _BAD_JSON))
    if status not in (_OK, _REFUSED, _BAD_JSON):
        _raise(status, answer, kind, b"", line)
    return text.decode()


def misfit(line: Data, kind: str) -> Misfit:
    """Where a line isn't the JSON of an item, and what is wrong there."""
    line = bytes_of(line)
    status, answer, text = _call(_lib.etcs_json_reason, kind_number(kind), line, len(line), done=(_REFUSED, _BAD_JSON))
    if status not in (_OK, _REFUSED, _BAD_JSON):
        _raise(status, answer, kind, b"", line)
    if not text:
        return Misfit()
    members = json.loads(text)
    return Misfit(*(members[name] for name in Misfit._fields))


def assemble(telegrams: List[Tuple[bytes, str]]) -> Tuple[int, List[int], bool]:
    """What telegrams, each with its kind, make together: 0, the missing positions, and whether no telegram is missing; or the
    number of the clash of one of them with those before it."""
    held = (_Telegram * len(telegrams))()
    for place, (data, kind) in enumerate(telegrams):
        data = bytes_of(data)
        if len(data) != _TELEGRAM_BYTES.get(kind):
            raise BadArgument(f"{len(data)} bytes are no telegram of the kind {shown(kind)}")
        held[place].kind = KINDS[kind]
        ctypes.memmove(held[place].bytes, data, len(data))
    group, answer = _Group(), _Answer()
    status = _lib.etcs_assemble(held, len(held), ctypes.byref(group), answer)
    if status not in (_OK, *CLASHES):
        data, kind = telegrams[min(answer.taken, len(telegrams) - 1)]
        _raise(status, answer, kind, data)
    return status, [place for place, flag in enumerate(group.missing) if flag], bool(group.is_complete)


@lru_cache(maxsize=8192)
def meaning(kind: str, var: int, number: int, scale: Optional[int]) -> str:
    """What a number of a variable of an item of the kind means; "" if it has no meaning."""
    status, answer, text = _call(_lib.etcs_meaning, KINDS[kind], var, number, scale if scale in (0, 1, 2) else 3)
    if status:
        _raise(status, answer, kind, b"")
    return text.decode("ascii")


def line_bytes(line: Data) -> Tuple[int, bytes, int]:
    """0 and the bytes of the digits of a line; or why there are none, and the number of digits if it is odd."""
    line = bytes_of(line)
    status, answer, data = _call(_lib.etcs_line_bytes, line, len(line))
    if status not in (_OK, EMPTY_LINE, NO_DIGITS, ODD_DIGITS):
        _raise(status, answer, "", b"")
    return status, data, answer.taken


def line_front(line: Data) -> bytes:
    """The text before the digits of a line."""
    line = bytes_of(line)
    start = 3 if line.startswith(b"\xef\xbb\xbf") else 0
    count: int = _lib.etcs_line_front(line, len(line))
    return line[start:start + count]
