"""Logs, line by line, as the program's `log` reads them."""

from __future__ import annotations

import os
import re
from typing import Any, Iterable, Iterator, List, NamedTuple, Optional, Sequence, Tuple, Union

from . import _library
from ._library import BadArgument, Data, EtcsError, Refused
from ._runs import ENOUGH, Run, last_run, runs_before
from ._values import Item, Kind, unread

#: a longer line is bad
_MOST_LINE = 1 << 20
_BYTES = {"long": 104, "short": 27}
_BITS = {"long": 830, "short": 210}
#: up to so many bytes a telegram that was cut is a short one, if both sizes are requested
_MOST_CUT_SHORT = 65
#: the messages that SUBSET-026 has
_MESSAGES = frozenset((
    2, 3, 6, 8, 9, 15, 16, 18, 24, 27, 28, 32, 33, 34, 37, 38, 39, 40, 41, 43, 45,
    129, 130, 132, 136, 137, 138, 146, 147, 149, 150, 153, 154, 155, 156, 157, 158, 159))
_LETTER = re.compile(rb"[A-Za-z]")


class BadLine(EtcsError):
    """A line without bytes, or with a number of bytes that no item of the kinds has. Text is one only if `strict` is true."""


class OtherKind(EtcsError):
    """A line of the length of an item of a kind that wasn't requested, and of no item of the kinds that were."""


class LogLine(NamedTuple):
    """A line of a log: an item, or a fault."""

    #: from 1; blank lines, comments and text count too
    number: int
    #: the text before the item's digits, such as a time; before the last digits, if there is no item
    front: str
    kind: Optional[Kind]
    item: Optional[Item]
    #: Refused, BadLine or OtherKind, if it isn't an item
    fault: Optional[EtcsError]

    @property
    def note(self) -> str:
        """What `etcs log` reports for a line that isn't an item, without the line's number; "" for an item."""
        if self.fault is None:
            return ""
        return f"{self.fault}: {self.fault.reason}" if isinstance(self.fault, Refused) else str(self.fault)


# ---- What a line is.


class _Asked:
    """What was requested."""

    def __init__(self, kinds: Sequence[Kind], strict: bool) -> None:
        both: Tuple[Kind, ...] = ("long", "short")
        #: those kinds that are telegrams, the long ones first
        self.telegrams: List[Kind] = [kind for kind in both if kind in kinds]
        self.radio, self.train = "radio" in kinds, "train" in kinds
        self.messages = self.radio or self.train
        self.strict = strict

    def way(self, data: bytes) -> Kind:
        """The kind of a message: if both directions are requested, that of its number."""
        return "train" if self.train and (not self.radio or 129 <= data[0] <= 159) else "radio"

    def may_be_message(self, data: bytes) -> bool:
        """Whether the bytes may be a message: beside telegrams only one whose number SUBSET-026 has."""
        return self.messages and bool(data) and (not self.telegrams or data[0] in _MESSAGES)

    def has_length(self, data: bytes) -> bool:
        """Whether an item of the kinds has this length."""
        return any(_has_length(data, kind) for kind in self.telegrams) or self.messages and _is_its_length(data)

    def candidates(self, data: bytes) -> Iterator[Tuple[Kind, bytes, bool]]:
        """Yields what a run may be: each kind with its bytes, and whether these are the last of more."""
        for kind in self.telegrams:
            packed = _of_bits(data, kind)
            if packed is not None or len(data) == _BYTES[kind]:
                yield kind, packed or data, False
        if self.may_be_message(data):
            yield self.way(data), data, False
        for kind in self.telegrams:
            if len(data) > _BYTES[kind]:
                yield kind, data[-_BYTES[kind]:], True


def _of_bits(data: bytes, kind: str) -> Optional[bytes]:
    """The bytes of a telegram if the digits of a run are its bits."""
    if 2 * len(data) != _BITS[kind]:
        return None
    digits = data.hex()
    if digits.strip("01"):
        return None
    return int(digits.ljust(8 * _BYTES[kind], "0"), 2).to_bytes(_BYTES[kind], "big")


def _has_length(data: bytes, kind: str) -> bool:
    """Whether a telegram of the kind has as many bytes, or the digits are its bits."""
    return len(data) == _BYTES[kind] or _of_bits(data, kind) is not None


def _is_its_length(data: bytes) -> bool:
    """Whether L_MESSAGE is this number of bytes."""
    return len(data) > 2 and len(data) == data[1] * 4 + data[2] // 64


def _fault(last: Run, runs: Sequence[Run], asked: _Asked) -> Optional[EtcsError]:
    """Why the runs of a line, the last one first, aren't an item of the kinds; None if the line is text, which isn't bad."""
    named = bool(last.front)
    whole = [run.data for run in runs if run.data]
    of_length = next(filter(asked.has_length, whole), None)
    if of_length is not None:
        return _bytes_fault(of_length, named, asked)
    for data in whole:
        other = _other(data, named)
        if other:
            return OtherKind(f"other: {other}")
    if not asked.strict and (not last.digits or last.digits < ENOUGH and _LETTER.search(last.front)):
        return None
    if last.status == _library.NO_DIGITS:
        return BadLine("no hexadecimal digits at its end")
    if last.status == _library.ODD_DIGITS:
        return BadLine(f"{last.digits} digit{'' if last.digits == 1 else 's'}, an odd number")
    return _bytes_fault(last.data, named, asked)


def _other(data: bytes, named: bool) -> str:
    """Which items have this length; "" if none have."""
    for kind in _BYTES:
        if _of_bits(data, kind) is not None:
            return f"{_BITS[kind]} bits, as a {kind} telegram has"
    for kind, count in _BYTES.items():
        if len(data) == count:
            return f"{_count(data, named)}, as a {kind} telegram has"
    return f"{_count(data, named)}, as a radio message whose L_MESSAGE says so" if _is_its_length(data) else ""


def _bytes_fault(data: bytes, named: bool, asked: _Asked) -> EtcsError:
    """Why these bytes aren't an item of the kinds."""
    whole = ((candidate, kind) for kind, candidate, is_last in asked.candidates(data) if not is_last and (kind in _BYTES or _is_its_length(data)))
    refused = next((_refusal(*it) for it in whole), None)
    return refused or BadLine(_count_fault(data, named, asked))


def _refusal(data: bytes, kind: Kind) -> Optional[Refused]:
    """Where the bytes are refused."""
    try:
        _library.check(data, kind)
    except Refused as fault:
        return fault
    except EtcsError:
        pass
    return None


def _count(data: bytes, named: bool) -> str:
    """How many bytes there are and, if they are named, the first four."""
    text = f"{len(data)} byte{'' if len(data) == 1 else 's'}"
    return f"{text} ({data[:4].hex().upper()}{'..' if len(data) > 4 else ''})" if named else text


def _count_fault(data: bytes, named: bool, asked: _Asked) -> str:
    """Which numbers of bytes items of the kinds have. What begins as a telegram does is one that was cut."""
    text = _count(data, named)
    if asked.telegrams and data[0] in (0xA0, 0xA1):
        kind = asked.telegrams[0 if len(data) > _MOST_CUT_SHORT else -1]
        return f"{text}, but a {kind} telegram has {_BYTES[kind]}"
    if not asked.messages and len(asked.telegrams) == 1:
        return f"{text}, but a {asked.telegrams[0]} telegram has {_BYTES[asked.telegrams[0]]}"
    length = f"L_MESSAGE is {data[1] * 4 + data[2] // 64}" if len(data) > 2 and asked.may_be_message(data) else ""
    if not asked.telegrams:
        return f"{text}, but {length or 'a radio message has at least 3'}"
    return f"{text}, which no item of these kinds has" + (f": {length}" if length else "")


def _item(number: int, run: Run, asked: _Asked) -> Optional[LogLine]:
    """The item that a run is."""
    for kind, candidate, is_last in asked.candidates(run.data):
        sent = _library.if_fields(candidate, kind)
        if sent:
            front = run.front_of(len(candidate)) if is_last else run.front
            return LogLine(number, _text(front), kind, unread(candidate, kind, sent), None)
    return None


def _text(front: bytes) -> str:
    return front.decode("utf-8", "replace")


def _line(number: int, raw: bytes, asked: _Asked) -> Optional[LogLine]:
    """What a line is; None if it is blank, a comment or text that isn't bad."""
    last = last_run(raw)
    if last is None:
        return None
    found = _item(number, last, asked)
    if found is not None:
        return found
    runs = [last]
    for run in runs_before(last):
        found = _item(number, run, asked)
        if found is not None:
            return found
        runs.append(run)
    fault = _fault(last, runs, asked)
    return None if fault is None else LogLine(number, _text(last.front), None, None, fault)


# ---- Logs.

#: the log as it is accepted: its path, a file that is open, or lines
Log = Union[str, "os.PathLike[str]", Iterable[Union[str, Data]]]


def read_log(log: Log, kinds: Union[str, Iterable[Kind]], *, strict: bool = False) -> Iterator[LogLine]:
    """Reads a log as the program's `log` does, each line by itself: yields an item or a fault for each, with its number and the
    text before its digits, and nothing for blank lines, comments and text such as `state machine: idle`; with `strict` text is
    bad. Another item before that of a line isn't reported. `kinds` is one kind or several, a list or separated by commas. `log`
    is the path of a file, a file of text or bytes that is open, or lines, such as a list. Raises TypeError if it is none of
    these, such as the text itself, and at a line that is neither str nor bytes; OSError if the file can't be read; BadArgument
    at a line of a file of text that isn't in the encoding with which the file was opened.

        >>> import etcs
        >>> log = ["12:00:03 A1 13 14 0C 40 FF C1 40 27 A1 27 23 18 40 08 C0 7F FF FF FF FF FF FF FF FF FF C0", "# noon", "12:00:04 A2"]
        >>> for line in etcs.read_log(log, "short"):
        ...     print(line.number, line.front, line.item["NID_BG"] if line.item else line.note)
        1 12:00:03 511
        3 12:00:04 1 byte (A2), but a short telegram has 27
    """
    each: Any = tuple(kinds.split(",") if isinstance(kinds, str) else kinds)
    for kind in each or [""]:
        _library.kind_number(kind)
    if isinstance(log, (bytes, bytearray, memoryview)) or isinstance(log, str) and ("\n" in log or "\r" in log):
        raise TypeError(f"expected a path, an open file or lines, not the text of a log: {type(log).__name__}.splitlines makes lines")
    if not isinstance(log, (str, os.PathLike, Iterable)):
        raise TypeError(f"expected a path, an open file or lines, not {type(log).__name__}")
    return _lines(log, _Asked(each, strict))


def _lines(log: Log, asked: _Asked) -> Iterator[LogLine]:
    """Yields what the lines of a log are."""
    if isinstance(log, (str, os.PathLike)):
        with open(log, "rb") as file:
            yield from _lines(file, asked)
        return
    for number, raw in enumerate(_bytes_of_lines(log), 1):
        if len(raw) > _MOST_LINE and _length(raw) > _MOST_LINE:
            yield LogLine(number, "", None, None, BadLine(f"line longer than {_MOST_LINE:,} characters"))
            continue
        found = _line(number, raw.rstrip(b"\n"), asked)
        if found is not None:
            yield found


def _bytes_of_lines(lines: Iterable[Union[str, Data]]) -> Iterator[bytes]:
    """Yields the bytes of lines."""
    try:
        for line in lines:
            yield _library.bytes_of(line.encode("utf-8", "replace") if isinstance(line, str) else line)
    except UnicodeDecodeError as fault:
        raise BadArgument(f"the log isn't {fault.encoding}: open it as bytes, by open(path, \"rb\"), or give its path") from None


def _length(raw: bytes) -> int:
    """How many bytes a line has before its end."""
    return len(raw) - (2 if raw.endswith(b"\r\n") else 1 if raw.endswith((b"\n", b"\r")) else 0)
