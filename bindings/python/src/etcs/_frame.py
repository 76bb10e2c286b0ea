"""Tables for pandas, which is imported when the first one is made."""

from __future__ import annotations

import importlib
import os
from typing import Any, Iterable, Iterator, Tuple, Union

from . import _library
from ._explained import explained
from ._fields import encode
from ._library import Data
from ._log import LogLine, read_log
from ._values import Item, Kind, Message, Telegram

#: bits that are kept as they are, which have no rows
_BITS = ("FILL", "OTHER_DATA", "PADDING", "PAD")
_TYPES = {"line": "int64", "packet": "Int64", "nid": "Int64", "number": "uint64"}
_COLUMNS = ("line", "front", "kind", "packet", "nid", "entry", "name", "number", "meaning")


def frame(log: Union[str, os.PathLike[str], Iterable[Union[LogLine, Item, str, Data]]],
          kinds: Union[None, str, Iterable[Kind]] = None) -> Any:
    """A table of pandas with a row for each variable of each item of a log, other than bits that are kept as they are. `log` is
    what `read_log` yields, or items; or with `kinds` what `read_log` takes. Lines that aren't items have no rows. Raises
    ModuleNotFoundError if pandas isn't installed.

    Columns: `line`, the line's number, or that of the item from 1; `front`, the text before its digits; `kind`; `packet`, its
    place among the item's packets, and `nid`, its number, both missing outside of packets; `entry`, the index in each repeated
    group around it, as "1" or "0.2", or "" outside of entries; `name`, `number` and `meaning`.

        etcs.frame("btm.log", "long,short").to_csv("btm.csv", index=False)
    """
    try:
        pandas = importlib.import_module("pandas")
    except ModuleNotFoundError as fault:
        raise ModuleNotFoundError(f"{fault}: etcs.frame makes tables of pandas, which has to be installed") from None
    rows = list(_rows(log if kinds is None else read_log(log, kinds)))  # type: ignore[arg-type]
    return pandas.DataFrame(rows, columns=_COLUMNS).astype(_TYPES)


def _rows(log: Iterable[Any]) -> Iterator[Tuple[Any, ...]]:
    """Yields the rows of the items."""
    for count, each in enumerate(log, 1):
        number, front, item = count, "", each
        if isinstance(each, LogLine):
            number, front, item = each.number, each.front, each.item
            if item is None:
                continue
        _library.expect(item, "lines of read_log, or items", Telegram, Message)
        for it in explained(encode(item), item.kind):
            if it.name not in _BITS:
                entry = ".".join(map(str, it.entry))
                yield number, front, item.kind, it.packet, it.nid, entry, it.name, it.number, it.meaning
