"""The JSON trees of items: their NID_RADIO, their text, and why one is the tree of no item."""

from __future__ import annotations

import json
import re
from typing import Any, Dict, Iterable, List, Tuple

from . import _library
from ._library import KINDS, NotAnItem, shown
from ._parts import Variables, as_variables

#: members in the order of their names, as the library writes them and reads them fastest
_to_json = json.JSONEncoder(separators=(",", ":"), sort_keys=True).encode


def pairs_of(variables: Iterable[Tuple[str, int]]) -> List[List[Any]]:
    """The pairs of variables. JSON has the 64 bits of NID_RADIO as digits, since not every reader of JSON has such large
    numbers."""
    try:
        return [[name, _radio_digits(number) if name == "NID_RADIO" else number] for name, number in as_variables(variables)]
    except (TypeError, ValueError) as fault:
        raise fault if isinstance(fault, NotAnItem) else NotAnItem(f"a variable is a pair of its name and its number: {fault}") from None


def _radio_digits(number: int) -> str:
    if type(number) is not int:
        raise NotAnItem(f"NID_RADIO is a whole number, not {shown(number)}")
    return f"{number:016x}"


def _radio_number(digits: str) -> int:
    if not re.fullmatch("[0-9A-Fa-f]{16}", digits):
        raise NotAnItem(f"NID_RADIO is 16 hexadecimal digits, not {digits!r}")
    return int(digits, 16)


def variables_of(pairs: Iterable[Any]) -> Variables:
    """The variables of pairs."""
    return Variables([(name, _radio_number(number) if name == "NID_RADIO" else number) for name, number in pairs])


def line_of(tree: Any) -> bytes:
    """The JSON of a tree. Raises NotAnItem if it has none."""
    try:
        return _to_json(tree).encode()
    except (RecursionError, TypeError, ValueError) as fault:
        raise NotAnItem(f"not a tree of JSON: {fault}") from None


def check_members(tree: Dict[str, Any], *members: str) -> None:
    """Raises NotAnItem if a tree has members that it shouldn't have."""
    further = [shown(each) for each in tree if each not in members]
    if further:
        raise NotAnItem(f"unknown member: {', '.join(further)}")


def fault_of(tree: Any, fault: Exception) -> NotAnItem:
    """Why a tree isn't that of an item: as the library says; or as was found here, if it finds nothing wrong."""
    if not isinstance(tree, dict):
        return NotAnItem(f"expected the tree of an item, a dict, not {shown(tree)}")
    kind = tree.get("kind")
    if not isinstance(kind, str) or kind not in KINDS:
        return NotAnItem(f"the member kind is none of {', '.join(KINDS)}")
    try:
        line = line_of(tree)
    except NotAnItem as other:
        return other
    if _library.explain_json(line, kind):
        return NotAnItem("no item of the kind has this tree", kind, line)
    return fault if isinstance(fault, NotAnItem) else NotAnItem(f"not the tree of an item: {fault!r}")
