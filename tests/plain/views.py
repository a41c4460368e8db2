"""What passes over a tree make known. Each record is computed from the whole history of its name."""

from typing import Callable, Dict, List, NamedTuple, Optional

from wqprogram.limits import MAX_NUMBER, MAX_ROWS
from wqprogram.records import Record, is_in_range, is_valid_name


class Sight(NamedTuple):
    """What a pass saw of one file."""

    kind: str
    size: int
    mtime_ms: int


class Row(NamedTuple):
    name: bytes
    sight: Sight


class Pass(NamedTuple):
    """What a pass saw of the tree, and the second at which it was made."""

    second: int
    sights: Dict[bytes, Sight]


class View(NamedTuple):
    tick: int
    records: List[Record]


class ListingFault(Exception):
    """The rows make no pass."""


def pass_of(second: int, rows: List[Row]) -> Pass:
    """The pass that these rows say, or their first fault."""
    if len(rows) > MAX_ROWS:
        raise ListingFault("too many rows")
    if not 0 <= second <= MAX_NUMBER:
        raise ListingFault("second out of range")
    sights: Dict[bytes, Sight] = {}
    for row in rows:
        if not is_valid_name(row.name):
            raise ListingFault("name not valid")
        if not is_in_range(row.sight.size, row.sight.mtime_ms):
            raise ListingFault("number out of range")
        if row.name in sights:
            raise ListingFault("name twice")
        sights[row.name] = row.sight
    return Pass(second, sights)


class History:
    """The passes over one root that differed from the one before, the first one first."""

    def __init__(self) -> None:
        self.passes: List[Pass] = []

    def add(self, new_pass: Pass) -> None:
        last_sights = self.passes[-1].sights if self.passes else {}
        if new_pass.sights != last_sights:
            self.passes.append(new_pass)

    def sighting(self, number: int, name: bytes) -> Optional[Sight]:
        """What a pass saw of a name. Passes count from 1, and before them nothing exists."""
        return self.passes[number - 1].sights.get(name) if number > 0 else None

    def second_of(self, number: int) -> int:
        return self.passes[number - 1].second

    def greatest(self, holds: Callable[[int], bool]) -> int:
        """The last pass of which this holds."""
        return next(number for number in range(len(self.passes), 0, -1) if holds(number))

    def record_of(self, name: bytes) -> Record:
        """The record of a name that some pass saw."""

        def is_seen(number: int) -> bool:
            return self.sighting(number, name) is not None

        def has_come(number: int) -> bool:
            return is_seen(number) and not is_seen(number - 1)

        def has_changed(number: int) -> bool:
            return self.sighting(number, name) != self.sighting(number - 1, name)

        last_sight = self.sighting(self.greatest(is_seen), name)
        created = self.greatest(has_come)
        changed = self.greatest(has_changed)
        assert last_sight is not None
        kind, size, mtime_ms = last_sight
        return Record(
            name,
            kind,
            size,
            mtime_ms,
            exists=is_seen(len(self.passes)),
            ctick=created,
            csec=self.second_of(created),
            otick=changed,
            osec=self.second_of(changed),
        )

    def view(self) -> View:
        names = {name for one_pass in self.passes for name in one_pass.sights}
        return View(len(self.passes), [self.record_of(name) for name in sorted(names)])
