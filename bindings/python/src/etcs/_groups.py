"""The balise groups of telegrams, and a train's passages over them."""

from __future__ import annotations

from typing import Dict, Iterable, Iterator, List, NamedTuple, Optional, Tuple, Union

from . import _library
from ._fields import encode
from ._library import CLASHES
from ._log import LogLine
from ._values import Message, Telegram

_POSITION, _DUPLICATE, _GROUP = 11, 12, 13


class Clash(NamedTuple):
    """A telegram that doesn't belong to its group."""

    telegram: Telegram
    #: its first clash with those that are held, in the words of the program's `group`
    why: str
    #: its line, if it is from a log
    line: Optional[LogLine]


class _Sent:
    """A telegram that is added to groups."""

    def __init__(self, telegram: Telegram, line: Optional[LogLine]) -> None:
        self.telegram, self.line = telegram, line
        # the bytes come first: those of an item of a log are at hand until something of it is read
        self.data = encode(telegram), telegram.kind
        self.names = telegram["NID_C"], telegram["NID_BG"]


class Group:
    """A balise group: the telegrams that are held, at most one per position, and those that clashed with them. Which ones these
    are and what is missing are the library's answers (SUBSET-026, 3.16.2.4)."""

    def __init__(self, nid_c: int, nid_bg: int) -> None:
        self.nid_c, self.nid_bg = nid_c, nid_bg
        #: by N_PIG
        self.telegrams: Dict[int, Telegram] = {}
        self.clashed: List[Clash] = []
        #: the line of the first telegram, if it is from a log
        self.line: Optional[LogLine] = None
        #: of a passage that begins because its first telegram clashes with the passage before it: that clash
        self.cause: Optional[Clash] = None
        self._held: Dict[int, Tuple[bytes, str]] = {}
        self._missing: List[int] = []
        self._is_complete = False

    def add(self, telegram: Telegram, line: Optional[LogLine] = None) -> bool:
        """Holds a telegram of the group, or adds it to those that clashed; returns whether it is held. Raises NotAnItem if there
        is no such telegram; the group is then unchanged."""
        _library.expect(telegram, "a Telegram", Telegram)
        return self._add(_Sent(telegram, line)) == 0

    def _add(self, sent: _Sent) -> int:
        """The same; returns 0, or the number of the clash."""
        telegram, line = sent.telegram, sent.line
        status, missing, is_complete = _library.assemble([*self._held.values(), sent.data])
        if not status and sent.names != (self.nid_c, self.nid_bg):
            status = _GROUP
        if not self._held and not self.clashed:
            self.line = line
        if status:
            self.clashed.append(Clash(telegram, CLASHES[status], line))
            return status
        self._missing, self._is_complete = missing, is_complete
        self._held.setdefault(telegram["N_PIG"], sent.data)
        self.telegrams.setdefault(telegram["N_PIG"], telegram)
        return status

    @property
    def clashes(self) -> int:
        """How many telegrams clashed."""
        return len(self.clashed)

    @property
    def missing(self) -> List[int]:
        """The positions for which neither a telegram nor a duplicate is held; none if nothing is held."""
        return list(self._missing)

    @property
    def is_complete(self) -> bool:
        return self._is_complete

    def __str__(self) -> str:
        """The line of `etcs log --groups`."""
        missing = " ".join(map(str, self.missing))
        state = "empty" if not self._held else f"missing {missing}" if missing else "complete"
        clashes = f" clashes {self.clashes}" if self.clashes else ""
        return f"group {self.nid_c} {self.nid_bg} {state}{clashes}"

    def __repr__(self) -> str:
        return f"<{self}>"


#: what telegrams are taken from
Telegrams = Iterable[Union[LogLine, Telegram, Message]]


def _telegrams(log: Telegrams) -> Iterator[_Sent]:
    """The telegrams with their lines."""
    for each in log:
        line = each if isinstance(each, LogLine) else None
        item = each.item if isinstance(each, LogLine) else each
        if isinstance(item, Telegram):
            yield _Sent(item, line)
        elif line is None:
            _library.expect(item, "lines of read_log, telegrams or messages", Message)


def groups(telegrams: Telegrams) -> List[Group]:
    """The balise groups of telegrams, by NID_C and NID_BG, in the order in which they begin. Lines of a log are accepted too, and
    messages are skipped: `groups(read_log(lines, "long,short"))` are the groups of `etcs log --kind long,short --groups`."""
    found: Dict[Tuple[int, int], Group] = {}
    for sent in _telegrams(telegrams):
        if sent.names not in found:
            found[sent.names] = Group(*sent.names)
        found[sent.names]._add(sent)
    return list(found.values())


def passages(telegrams: Telegrams) -> Iterator[Group]:
    """Yields the groups of telegrams one after another, as a train passes them: a group begins anew with the first telegram of
    another group, and with one that clashes with those that are held. Takes what `groups` takes.

        >>> import etcs
        >>> sent = [etcs.Telegram.build({"NID_C": 1, "NID_BG": 1, "M_MCOUNT": count}, []) for count in (7, 7, 8)]
        >>> [(str(group), group.cause.why if group.cause else "") for group in etcs.passages(sent)]
        [('group 1 1 complete', ''), ('group 1 1 complete', "the message counters don't agree")]
    """
    group: Optional[Group] = None
    for each in _telegrams(telegrams):
        cause = None
        if group is not None and each.names == (group.nid_c, group.nid_bg):
            # with these two it clashes by itself, in whatever group
            if group._add(each) in (0, _POSITION, _DUPLICATE):
                continue
            cause = group.clashed.pop()
        if group is not None:
            yield group
        group = Group(*each.names)
        group._add(each)
        group.cause = cause
    if group is not None:
        yield group
