"""The events of watchdog for changes, in an order in which they lead from one picture to the other."""

from typing import Iterator, List, Optional

from watchdog.events import (
    DirCreatedEvent,
    DirDeletedEvent,
    DirModifiedEvent,
    FileCreatedEvent,
    FileDeletedEvent,
    FileModifiedEvent,
    FileSystemEvent,
)

from .rows import Change, Row


def events_of(changes: List[Change]) -> Iterator[FileSystemEvent]:
    """First what went, the deepest first; then what was written; then what came, the outermost first. The changes are
    in the order of their paths. A file in the place of a directory went and came."""
    for path, before, now in reversed(changes):
        if before and not is_alike(before, now):
            yield DirDeletedEvent(path) if before.is_directory else FileDeletedEvent(path)
    for path, before, now in changes:
        if now and is_alike(before, now):
            yield DirModifiedEvent(path) if now.is_directory else FileModifiedEvent(path)
    for path, before, now in changes:
        if now and not is_alike(before, now):
            yield DirCreatedEvent(path) if now.is_directory else FileCreatedEvent(path)


def is_alike(before: Optional[Row], now: Optional[Row]) -> bool:
    return before is not None and now is not None and before.is_directory == now.is_directory
