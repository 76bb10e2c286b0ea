"""The runs of digits of a line of a log: the last one as `etcs_line_bytes` finds it, then those in front of it."""

from __future__ import annotations

import re
from typing import Iterator, NamedTuple, Optional

from . import _library

#: a run before the last one has as many digits
ENOUGH = 20
#: how many characters are searched for a run first
_WINDOW = 256
_MARK = b"\xef\xbb\xbf"
_BLANKS = b" \t\r"
#: what begins a comment or a byte order mark, which only whole lines have, as others that part words in the same way
_PLAIN = bytes.maketrans(b"#;/\xef", b"!,!!")
_PART = re.compile(rb"[0-9A-Za-z]")
_JOINT = re.compile(rb"[^0-9A-Za-z]")
_DIGITS = re.compile(rb"(?:0[xX])?([0-9A-Fa-f]+)")


class Run(NamedTuple):
    """A run of digits."""

    #: the line without its byte order mark
    line: bytes
    #: how many characters are in front of it, without the blanks at their end
    start: int
    status: int
    #: none if it has an odd number of digits, or no digits
    data: bytes
    #: how many digits it has
    digits: int

    @property
    def front(self) -> bytes:
        return self.line[:self.start]

    def front_of(self, count: int) -> bytes:
        """What is in front of its last bytes."""
        left = self.digits - 2 * count
        for word in _DIGITS.finditer(self.line, self.start):
            size = word.end() - word.start(1)
            if left < size:
                return self.line[:word.end() - size + left if left else word.start()].rstrip(_BLANKS)
            left -= size
        return self.front


def last_run(raw: bytes) -> Optional[Run]:
    """The last run of a line, which may have no digits; None if the line is blank or a comment."""
    status, data, odd = _library.line_bytes(raw)
    if status == _library.EMPTY_LINE:
        return None
    line = raw[len(_MARK):] if raw.startswith(_MARK) else raw
    return Run(line, len(_library.line_front(raw)), status, data, 2 * len(data) or (odd if status == _library.ODD_DIGITS else 0))


def runs_before(run: Run) -> Iterator[Run]:
    """Yields the runs of 20 digits or more before one, the last one first."""
    if run.digits < ENOUGH:
        return
    text = run.front.translate(_PLAIN)
    found = _last_of(run.line, text, len(text))
    while found is not None:
        yield found
        found = _last_of(run.line, text, found.start)


def _last_of(line: bytes, text: bytes, end: int) -> Optional[Run]:
    """The last run of 20 digits or more of a text that ends here.

    It is searched for in the last characters alone, from where a part of a word begins, and in twice as many as long as none
    is found there after another part. So a line of many runs isn't read again for each of them.
    """
    window = _WINDOW
    while end >= ENOUGH:
        joint = _JOINT.search(text, end - window, end) if window < end else None
        start = joint.end() if joint else 0
        if joint or window >= end:
            found = last_run(text[start:end])
            if found is not None and found.digits >= ENOUGH and (start == 0 or _PART.search(found.front)):
                return found._replace(line=line, start=start + found.start)
            if start == 0:
                return None
        window *= 2
    return None
