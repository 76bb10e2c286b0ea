"""What items and packets have in common: lists of variables, names in brackets, and members that are made when they are read."""

from __future__ import annotations

from operator import is_
from typing import (
    TYPE_CHECKING, Any, ClassVar, Dict, Iterable, Iterator, List, Mapping, Optional, SupportsIndex, Tuple, Union, overload,
)

from . import _library
from ._meanings import meaning
from ._library import NoMember, NotAnItem, NoVariable, columns, shown
from ._variables import VARIABLES

#: variables as they are accepted: pairs of name and number in the order of sending, or a mapping
Pairs = Union[Mapping[str, int], Iterable[Tuple[str, int]]]

_NOTHING = object()


class Variables(List[Tuple[str, int]]):
    """Variables with their numbers in the order of sending: a list of pairs with look-up by name."""

    __slots__ = ()

    @overload
    def __getitem__(self, key: str) -> int: ...
    @overload
    def __getitem__(self, key: SupportsIndex) -> Tuple[str, int]: ...
    @overload
    def __getitem__(self, key: slice) -> List[Tuple[str, int]]: ...

    def __getitem__(self, key: Union[str, SupportsIndex, slice]) -> Any:
        """By a name, the number of the first variable of that name; by a place, the pair."""
        if isinstance(key, str):
            found = self._first(key)
            if found is _NOTHING:
                raise NoVariable(key)
            return found
        return super().__getitem__(key)

    @overload
    def __setitem__(self, key: str, number: int) -> None: ...
    @overload
    def __setitem__(self, key: SupportsIndex, number: Tuple[str, int]) -> None: ...
    @overload
    def __setitem__(self, key: slice, number: Iterable[Tuple[str, int]]) -> None: ...

    def __setitem__(self, key: Any, number: Any) -> None:
        """By a name that occurs once, or by a place."""
        if isinstance(key, str):
            places = [place for place, (name, _) in enumerate(pairs_in(self)) if name == key]
            if not places:
                raise NoVariable(key)
            if len(places) > 1:
                raise NoVariable(f"{key} occurs {len(places)} times, at the places {places}")
            key, number = places[0], (key, number)
        super().__setitem__(key, number)

    def __contains__(self, key: object) -> bool:
        if isinstance(key, str):
            return self._first(key) is not _NOTHING
        return super().__contains__(key)

    def _first(self, name: str) -> Any:
        """The number of the first variable of the name, or _NOTHING."""
        try:
            for each, number in self:
                if each == name:
                    return number
        except (TypeError, ValueError):
            raise NotAnItem("a variable is a pair of its name and its number") from None
        return _NOTHING

    def all(self, name: str) -> List[int]:
        """The numbers of all variables of the name."""
        return [number for each, number in pairs_in(self) if each == name]

    @overload
    def get(self, name: str) -> Optional[int]: ...
    @overload
    def get(self, name: str, default: int) -> int: ...
    @overload
    def get(self, name: str, default: None) -> Optional[int]: ...

    def get(self, name: str, default: Optional[int] = None) -> Optional[int]:
        """The number of the first variable of the name, or the default."""
        found = self._first(name)
        return default if found is _NOTHING else found


def pairs_in(variables: Iterable[Any]) -> Iterator[Tuple[str, int]]:
    """The pairs of a list. Raises NotAnItem at what is no pair."""
    for each in variables:
        if not isinstance(each, (tuple, list)) or len(each) != 2 or not isinstance(each[0], str):
            raise NotAnItem(f"a variable is a pair of its name and its number, not {shown(each)}")
        yield each[0], each[1]


def as_variables(pairs: Pairs) -> Variables:
    """Variables of what is accepted as such. Raises NotAnItem."""
    if isinstance(pairs, Variables):
        return pairs
    if not isinstance(pairs, (tuple, list)) and isinstance(pairs, Mapping):
        return Variables(pairs_in(pairs.items()))
    if isinstance(pairs, str) or not isinstance(pairs, Iterable):
        raise NotAnItem(f"variables are pairs of names and numbers, or a mapping, not {shown(pairs)}")
    return Variables(pairs_in(pairs))


def widths_of(variables: Iterable[Tuple[str, int]]) -> List[int]:
    """How many bits each variable takes. Raises NotAnItem if there is none of its name."""
    widths = []
    for name, _ in pairs_in(variables):
        if name not in _library.WIDTHS_BY_NAME:
            raise NotAnItem(f"there is no variable {shown(name)}")
        widths.append(_library.WIDTHS_BY_NAME[name])
    return widths


class Later:
    """Fields of an item as the library wrote them, those from a place up to another; and what was made of them."""

    __slots__ = "sent", "begin", "end", "made"

    def __init__(self, sent: bytes, begin: int, end: int) -> None:
        self.sent, self.begin, self.end = sent, begin, end
        self.made: Any = None

    def packed(self) -> bytes:
        return self.sent[16 * self.begin:16 * self.end]

    def variables(self) -> Variables:
        numbers, sent_vars, _ = columns(self.packed())
        self.made = tuple(zip(map(VARIABLES.__getitem__, sent_vars), numbers))
        return Variables(self.made)

    def digits(self) -> str:
        """The bits of fields that are kept as they are."""
        if self.begin == self.end:
            return ""
        numbers, _, widths = columns(self.packed())
        self.made = "".join([f"{number:0{width}b}" for number, width in zip(numbers, widths)])
        return self.made

    def is_unchanged(self, value: Any) -> bool:
        """Whether a member has the very objects that were made: objects that are equal to them may not be admitted."""
        if type(value) is Variables and type(self.made) is tuple:
            return len(value) == len(self.made) and all(map(is_, value, self.made))
        return value is not None and value is self.made


class Made:
    """A class whose members may be made when they are read.

    Before that an instance has, in `_later`, the fields of the members that aren't made yet; or, in `_unread`, the bytes of
    the item, its kind and its fields, of which all members but `kind` are made as soon as one is read.
    """

    #: the kinds of items that are its instances
    _kinds: ClassVar[Tuple[str, ...]] = ()

    if not TYPE_CHECKING:

        def __getattr__(self, name):
            if name not in type(self).__dataclass_fields__:
                raise AttributeError(f"{type(self).__name__} has no attribute {name!r}")
            members = self.__dict__
            self._read()
            if name not in members and isinstance(later := _later_of(self, name), Later):
                # of two threads that read it at once both get what the first one made
                members.setdefault(name, later.digits() if name == "fill" else later.variables())
            if name not in members:
                raise NoMember(f"this {type(self).__name__} has no {name}")
            return members[name]

        def __delattr__(self, name):
            self._read()
            getattr(self, name)  # what isn't made yet would be made again
            object.__delattr__(self, name)
            if isinstance(later := self.__dict__.get("_later"), dict):
                later.pop(name, None)

        def __getstate__(self):
            """What is pickled and copied: the bytes of an item of which nothing was read, or the members."""
            if unread_bytes(self) is None:
                for name in type(self).__dataclass_fields__:
                    getattr(self, name, None)
            state = {name: value for name, value in self.__dict__.items() if name != "_later"}
            if "_unread" in state:
                state["_unread"] = *state["_unread"][:2], b""  # the fields follow from the bytes
            return state

        def __setstate__(self, state):
            """Raises NotAnItem if the pickle isn't one of an item or packet; members may still be anything, as if assigned."""
            if type(state) is not dict or "_later" in state or not all(type(name) is str for name in state):
                raise NotAnItem(f"not the pickle of a {type(self).__name__}")
            if "_unread" in state:
                data, kind, sent = state["_unread"] if _is_unread(state) else (b"", "", b"")
                if sent or kind not in self._kinds or not _library.is_item(data, kind):
                    raise NotAnItem(f"not the bytes of a {type(self).__name__}")
            self.__dict__.update(state)

    def _read(self) -> None:
        """Makes the members of the bytes, if there are only these."""
        members = self.__dict__
        unread = members.get("_unread")
        if unread is not None:
            from ._fields import members_of  # which needs the classes of items
            data, kind, sent = unread
            for name, value in members_of(sent or _library.fields(data, kind)[0], kind).items():
                members.setdefault(name, value)  # of what was set meanwhile, or made by another thread, the first one counts
            members.pop("_unread", None)


def _later_of(owner: Any, member: str) -> Optional[Later]:
    """The fields of a member as the library wrote them, whether or not it was made since."""
    later = owner.__dict__.get("_later")
    found = later.get(member) if type(later) is dict else None
    return found if type(found) is Later else None


def kept(owner: Any, member: str) -> Optional[bytes]:
    """The fields of a member as the library wrote them, if it wasn't changed."""
    later, members = _later_of(owner, member), owner.__dict__
    if later is None or member in members and not later.is_unchanged(members[member]):
        return None
    return later.packed()


def unread_bytes(item: Any) -> Optional[bytes]:
    """The bytes of an item of which nothing was read or set."""
    members: Dict[str, Any] = item.__dict__
    if not _is_unread(members):
        return None
    data: bytes = members["_unread"][0]
    return data


def _is_unread(members: Dict[str, Any]) -> bool:
    """Whether these members are a kind and the bytes of an item of that kind, with its fields."""
    unread = members.get("_unread")
    if members.keys() != {"kind", "_unread"} or type(unread) is not tuple:
        return False
    return tuple(map(type, unread)) == (bytes, str, bytes) and unread[1] == members["kind"]


class Named(Made):
    """A class that finds names in its variables."""

    #: its members that have variables, in the order in which a name is looked up; they are sent in the opposite order
    _lists: ClassVar[Tuple[str, ...]] = ("fields",)

    def _list(self, member: str) -> Variables:
        """A list of variables. Raises NotAnItem if it was deleted or replaced by what is none."""
        found: Any = getattr(self, member)
        if isinstance(found, Variables):
            return found
        made = as_variables(found)
        setattr(self, member, made)
        return made

    def _with(self, name: str) -> Variables:
        """The first list that has a name."""
        for member in self._lists:
            if self._list(member)._first(name) is not _NOTHING:
                return self._list(member)
        raise NoVariable(name)

    def __getitem__(self, name: str) -> int:
        number: int
        for member in self._lists:
            number = self._list(member)._first(name)
            if number is not _NOTHING:
                return number
        raise NoVariable(name)

    def __setitem__(self, name: str, number: int) -> None:
        self._with(name)[name] = number

    def __contains__(self, name: object) -> bool:
        return isinstance(name, str) and any(self._list(member)._first(name) is not _NOTHING for member in self._lists)

    def __iter__(self) -> Iterator[str]:
        """The names of the variables in the order of sending, each once."""
        return iter(dict.fromkeys(name for member in reversed(self._lists) for name, _ in pairs_in(self._list(member))))

    def all(self, name: str) -> List[int]:
        """The numbers of all variables of the name."""
        return [number for member in self._lists for number in self._list(member).all(name)]

    @overload
    def get(self, name: str) -> Optional[int]: ...
    @overload
    def get(self, name: str, default: int) -> int: ...
    @overload
    def get(self, name: str, default: None) -> Optional[int]: ...

    def get(self, name: str, default: Optional[int] = None) -> Optional[int]:
        """The number of the first variable of the name, or the default."""
        try:
            return self[name]
        except NoVariable:
            return default

    def meaning(self, name: str) -> str:
        """What the number of the first variable of the name means, as `etcs.meaning` returns it with the Q_SCALE before it."""
        return meaning_in(self._with(name), name)


def meaning_in(variables: Iterable[Tuple[str, int]], name: str, scale: Optional[int] = None) -> str:
    """What the number of the first variable of the name means, by the Q_SCALE before it or by this one."""
    for each, number in pairs_in(variables):
        if each == "Q_SCALE":
            scale = number
        if each == name:
            return meaning(name, number, scale)
    raise NoVariable(name)
