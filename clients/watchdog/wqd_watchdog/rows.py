"""What is known of files, and which of it differs from what a tool has heard."""

import os
from typing import Any, Dict, List, NamedTuple, Optional, Tuple


class Row(NamedTuple):
    """A file, or what a link leads to. The time is in milliseconds."""

    is_directory: bool
    size: int
    time: int


def row_of(found: os.stat_result) -> Row:
    return Row(found.st_mode & 0o170000 == 0o040000, found.st_size, found.st_mtime_ns // 1_000_000)


class File(NamedTuple):
    """A file of a list of the server."""

    name: str
    exists: bool
    type: str
    size: int
    time: int


# The fields that the server is asked for.
FIELDS = ["exists", "mtime_ms", "name", "size", "type"]


def file_of(value: Dict[str, Any]) -> Any:
    """A file in place of its object as soon as that was read, since a list may have a million. Another object stays."""
    if "mtime_ms" not in value:
        return value
    return File(value["name"], value["exists"], value["type"], value["size"], value["mtime_ms"])


class Change(NamedTuple):
    """A file before and now; nothing if it was not there, or is not."""

    path: str
    before: Optional[Row]
    now: Optional[Row]


class Changes:
    """The files that changed since the last time that they were taken. One that is as before has not changed."""

    def __init__(self) -> None:
        self.pairs: Dict[str, Tuple[Optional[Row], Optional[Row]]] = {}

    def note(self, path: str, before: Optional[Row], now: Optional[Row]) -> None:
        self.pairs[path] = (self.pairs[path][0] if path in self.pairs else before, now)

    def taken(self) -> List[Change]:
        """The changes by their paths."""
        found = [Change(path, before, now) for path, (before, now) in sorted(self.pairs.items()) if before != now]
        self.pairs = {}
        return found


def difference(before: Dict[str, Row], now: Dict[str, Row]) -> List[Change]:
    """The changes from one picture of a tree to another."""
    changes = Changes()
    for path in before.keys() | now.keys():
        changes.note(path, before.get(path), now.get(path))
    return changes.taken()
