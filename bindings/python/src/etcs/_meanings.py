"""The meanings of numbers, in the words of the program's `explain`."""

from __future__ import annotations

from typing import Optional

from . import _library
from ._library import NoVariable
from ._variables import VARIABLES, WIDTHS

#: the first variable of each name: M_VERSION is the name of two, whose numbers mean the same
_NUMBERS = {name: place for place, name in reversed(list(enumerate(VARIABLES)))}
#: bits that are kept as they are, of which a field has up to 64
_KEPT = ("FILL", "OTHER_DATA", "PADDING", "PAD")


def meaning(name: str, number: int, scale: Optional[int] = None, kind: str = "radio") -> str:
    """What a number of the variable means, in the words of the program's `explain`; "" if it has no meaning. `scale` is the
    Q_SCALE of its packet or message, without which a distance has none. For NID_PACKET it is the standard's name of the packet
    in items of the kind: `train` has other packets than the other three. Raises NoVariable if there is no such variable, and
    BadArgument if the number doesn't fit its bits.

        >>> import etcs
        >>> etcs.meaning("D_LINK", 1180, 2), etcs.meaning("V_STATIC", 28), etcs.meaning("V_STATIC", 127)
        ('11800 m', '140 km/h', 'end of profile')
        >>> etcs.meaning("NID_PACKET", 5), etcs.meaning("NID_PACKET", 5, kind="train"), etcs.meaning("NID_MESSAGE", 136)
        ('Linking', 'Train running number', 'Train Position Report')
    """
    _library.kind_number(kind)
    var = _NUMBERS.get(name) if isinstance(name, str) else None
    if var is None:
        raise NoVariable(name)
    number = _library.whole(number, f"the number of {name}", 2 ** (64 if name in _KEPT else WIDTHS[var]) - 1)
    return _library.meaning(kind, var, number, int(scale) if scale in (0, 1, 2) else None)
