"""Clock ids and clock specs."""

import re
from typing import List, NamedTuple, Optional

from .json_values import is_whole_number
from .limits import MAX_CURSOR_NAME, MAX_NUMBER

DECIMAL = re.compile(r"0|[1-9][0-9]{0,18}")


class Instance(NamedTuple):
    """The numbers that name a root of a server in clock ids: the two of the server, and the one of the root."""

    start: int
    pid: int
    root: int


class Bound(NamedTuple):
    """What a clock spec stands for: `fresh`, or the number of a `tick` or a `second`."""

    kind: str
    number: int = 0


FRESH = Bound("fresh")


class BadClockSpec(Exception):
    """The value is no clock spec."""


class NamedCursor(Exception):
    """The value is a clock spec, and names this cursor."""

    def __init__(self, name: str) -> None:
        super().__init__(name)
        self.name = name


def bound_of(value: object, instance: Optional[Instance]) -> Bound:
    """The bound of a clock spec in JSON, at this instance. Without one each clock id is of another root."""
    if isinstance(value, str):
        return bound_of_text(value, instance)
    if isinstance(value, int) and is_whole_number(value) and value >= 0:
        return Bound("second", value)
    raise BadClockSpec


def instance_of(text: str) -> Instance:
    """The server and the root of a clock id."""
    numbers = numbers_of(text)
    if len(numbers) != 4:
        raise ValueError(f"{text!r} is no clock id, as c:START:PID:ROOT:TICK")
    start, pid, root, _ = numbers
    return Instance(start, pid, root)


def bound_of_text(text: str, instance: Optional[Instance]) -> Bound:
    """A clock id of this instance is its tick. One of another root or server, and one of the older form, is fresh."""
    if text.startswith("n:") and 1 <= len(text[2:].encode()) <= MAX_CURSOR_NAME:
        raise NamedCursor(text[2:])
    numbers = numbers_of(text)
    if len(numbers) not in (2, 4):
        raise BadClockSpec
    *named, tick = numbers
    return Bound("tick", tick) if instance is not None and named == list(instance) else FRESH


def numbers_of(text: str) -> List[int]:
    """The numbers of a clock id, or none if one of its parts is no number."""
    parts = [number_of(part) for part in text[2:].split(":")]
    numbers = [number for number in parts if number is not None]
    return numbers if text.startswith("c:") and len(numbers) == len(parts) else []


def number_of(digits: str) -> Optional[int]:
    """The number that is written so: decimal, in one way, at most 2^62."""
    if DECIMAL.fullmatch(digits) is None or int(digits) > MAX_NUMBER:
        return None
    return int(digits)
