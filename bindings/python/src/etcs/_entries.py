"""The entries of packets: which variables belong together where the row of a packet has groups that are repeated."""

from __future__ import annotations

import re
from dataclasses import dataclass
from functools import lru_cache
from typing import Any, Callable, Dict, Iterable, List, NamedTuple, Optional, Sequence, Tuple

from ._library import NotAnItem, shown
from ._parts import Named, Variables, meaning_in
from ._rows import ROWS


class _When(NamedTuple):
    """Items of a row that are there if the number of a variable passes a test."""

    var: str
    test: str
    items: Tuple[Any, ...]


class _Many(NamedTuple):
    """Items that are there as often as the number before them says."""

    items: Tuple[Any, ...]


_TESTS: Dict[str, Callable[[int], bool]] = {
    "IsZero": lambda number: number == 0,
    "IsOne": lambda number: number == 1,
    "IsOneOrTwo": lambda number: number in (1, 2),
    "IsNotZero": lambda number: number != 0,
}


@dataclass(repr=False, init=False)
class Entry(Named):
    """The variables of a packet, or of an entry in it, and its groups of entries: a list for each N_ITER or L_TEXT, in the order
    of sending. A name in brackets is one of its own variables."""

    fields: Variables
    groups: List[List[Entry]]

    def __init__(self, fields: Iterable[Tuple[str, int]] = (), groups: Iterable[List[Entry]] = ()) -> None:
        self.fields, self.groups = Variables(fields), list(groups)
        self._scale: Optional[int] = None

    def meaning(self, name: str) -> str:
        """What the number of the first variable of the name means, by the Q_SCALE of the packet."""
        return meaning_in(self._with(name), name, self._scale)

    def __repr__(self) -> str:
        lines = [f"{name} = {number}" for name, number in self.fields]
        for place, group in enumerate(self.groups):
            for index, entry in enumerate(group):
                lines += [f"groups[{place}][{index}]", *(f"  {line}" for line in repr(entry).split("\n"))]
        return "\n".join(lines)


def _nested(words: Sequence[str]) -> Tuple[Any, ...]:
    """The items of a row of words: groups with the words that they take."""
    items: List[Any] = []
    at = 0
    while at < len(words):
        word = words[at]
        at += 1
        if word[0] not in "([":
            items.append(word)
            continue
        head = word.strip("()[]").split()
        inner = _nested(words[at:at + int(head[-1])])
        items.append(_Many(inner) if len(head) == 1 else _When(head[0], head[1], inner))
        at += int(head[-1])
    return tuple(items)


@lru_cache(maxsize=None)
def _row(nid: int) -> Tuple[Any, ...]:
    return _nested(re.findall(r"\([^)]*\)|\[[^\]]*\]|\w+", ROWS[nid]))


class _Walk:
    """Goes along the variables of a packet by its row, and puts each into its entry."""

    def __init__(self, pairs: Sequence[Tuple[str, int]]) -> None:
        self.pairs, self.at = pairs, 0
        self._numbers: Dict[str, Any] = {}

    def row(self, items: Iterable[Any], entry: Entry) -> None:
        """Takes the variables of the items, as those of an entry."""
        for item in items:
            if isinstance(item, str):
                self._take(item, entry)
            elif isinstance(item, _Many):
                self._repeat(item, entry)
            elif _TESTS[item.test](self._numbers[item.var]):
                self.row(item.items, entry)

    def _take(self, name: str, entry: Entry) -> None:
        pair = self.pairs[self.at] if self.at < len(self.pairs) else None
        if not isinstance(pair, (tuple, list)) or len(pair) != 2 or pair[0] != name or type(pair[1]) is not int:
            raise NotAnItem(f".fields[{self.at}]: expected {name} and its number, not {'the end' if pair is None else shown(pair)}")
        entry.fields.append((name, pair[1]))
        self._numbers[name] = pair[1]
        self.at += 1

    def _repeat(self, item: _Many, entry: Entry) -> None:
        group: List[Entry] = []
        entry.groups.append(group)
        for _ in range(self.pairs[self.at - 1][1]):
            inner = Entry()
            inner._scale = self._numbers.get("Q_SCALE")
            group.append(inner)
            self.row(item.items, inner)


def entry_of(nid: Any, to_train: bool, pairs: Variables) -> Entry:
    """The variables of a packet as a tree of entries. Raises NotAnItem if they aren't those of its row."""
    if not (to_train and type(nid) is int and nid in ROWS):
        return Entry(pairs)
    walk, whole = _Walk(pairs), Entry()
    walk.row(_row(nid), whole)
    if walk.at < len(pairs):
        raise NotAnItem(f".fields[{walk.at}]: {shown(pairs[walk.at])} is after the row's end")
    return whole
