"""The variables of items, each with its packet, its entry and what its number means."""

from __future__ import annotations

from typing import List, NamedTuple, Optional, Tuple

from . import _library


class Variable(NamedTuple):
    """A variable of an item, with what its number means."""

    name: str
    number: int
    #: as `explain` writes it; "" if the number has no meaning
    meaning: str
    #: the bit where it begins, from 0, and how many bits it takes
    bit: int
    width: int
    #: its packet: the place among the item's packets, from 0, and NID_PACKET; None before and after the packets
    packet: Optional[int]
    nid: Optional[int]
    #: its entry in the packet: the index, from 0, in each repeated group around it, the outermost first; () outside of entries
    entry: Tuple[int, ...] = ()


def explained(data: bytes, kind: str) -> List[Variable]:
    """The fields of the item at the front, with their places and what they mean."""
    sent = _library.placed(_library.fields(data, kind)[0])
    found: List[Variable] = []
    nid: Optional[int] = None
    scale: Optional[int] = None
    for (name, number, bit, width, var), (packet, entry, inner) in zip(sent, _library.places(data, kind)):
        if name == "NID_PACKET":
            nid, scale = number, None
        elif name == "Q_SCALE":
            scale = number
        meaning = _library.meaning(kind, var, number, scale)
        is_inside = packet > 0 and (nid != 255 or kind not in ("short", "long"))  # packet 255 closes a telegram
        indices = tuple(index - 1 for index in (entry, inner) if index)
        found.append(Variable(name, number, meaning, bit, width, packet - 1 if is_inside else None, nid if is_inside else None, indices))
    return found
