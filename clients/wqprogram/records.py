"""A server's record of one name, and the parts of it that a program reads."""

import re
from typing import NamedTuple, Optional

from .limits import MAX_NAME, MAX_NUMBER


class Record(NamedTuple):
    """The record of one name. `ctick` and `csec` are of its creation, `otick` and `osec` of its last change."""

    name: bytes
    kind: str
    size: int
    mtime_ms: int
    exists: bool
    ctick: int
    csec: int
    otick: int
    osec: int

    @property
    def basename(self) -> bytes:
        return self.name.rsplit(b"/", 1)[-1]

    @property
    def suffix(self) -> Optional[bytes]:
        """The rest of the basename after its last dot, if it has one."""
        return self.basename.rsplit(b".", 1)[1] if b"." in self.basename else None

    @property
    def mtime(self) -> int:
        """The modification time in whole seconds, rounded down."""
        return self.mtime_ms // 1000


NUMBER = re.compile(rb"0|-?[1-9][0-9]{0,18}")
LETTERS = b"fdlbcpsD?"


class Clocks(NamedTuple):
    """The tick and the second of the pass that saw a file come, and those of the last that saw it change."""

    ctick: int
    csec: int
    otick: int
    osec: int


class RowFault(Exception):
    """A row says no file."""


def record_of_row(row: bytes, clocks: Clocks, exists: bool) -> Record:
    """The record of a file that a row of a script says: the letter of its kind, its size, its modification time in
    milliseconds and its name, with one blank between two."""
    parts = row.split(b" ", 3)
    if len(parts) < 4:
        raise RowFault("a record is a letter, a size, a time and a name, as 'f 12 1000 src/a.c'")
    letter, size, mtime_ms, name = parts
    if len(letter) != 1 or letter not in LETTERS:
        raise RowFault(f"the letter of a kind is one of {' '.join(LETTERS.decode())}")
    record = Record(
        name, letter.decode(), number_of("the size", size), number_of("the time", mtime_ms), exists, *clocks
    )
    if not is_in_range(record.size, record.mtime_ms):
        raise RowFault("a size is a number from 0 to 2^62, and a time one from -2^62 to 2^62")
    if not is_valid_name(name):
        raise RowFault("a name is a path below the root: UTF-8, of 1 to 4,096 bytes, without empty parts, . and ..")
    return record


def number_of(subject: str, word: bytes) -> int:
    if NUMBER.fullmatch(word) is None:
        raise RowFault(f"{subject} is no whole number")
    return int(word)


def is_in_range(size: int, mtime_ms: int) -> bool:
    return 0 <= size <= MAX_NUMBER and -MAX_NUMBER <= mtime_ms <= MAX_NUMBER


def is_valid_name(name: bytes) -> bool:
    try:
        name.decode("utf-8")
    except UnicodeDecodeError:
        return False
    if not 1 <= len(name) <= MAX_NAME or 0 in name:
        return False
    return not any(part in (b"", b".", b"..") for part in name.split(b"/"))
