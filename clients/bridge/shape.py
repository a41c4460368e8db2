"""Looks whether a BSER message holds one value, before the codec reads it.

The codec is written in C, has no limit of depth, and makes room for as many values as a message claims. An object takes
hundreds of times as much memory as the one byte that a template needs for it.
"""

import sys
from typing import List, Optional

# The bytes that values begin with.
ARRAY, OBJECT, TEMPLATE = 0x00, 0x01, 0x0B
TEXTS = (0x02, 0x0D)
INTEGER_SIZES = {3: 1, 4: 2, 5: 4, 6: 8}
# A float; true, false, null, and a field of a template that is left out.
FIXED_SIZES = {**INTEGER_SIZES, 0x07: 8, 0x08: 0, 0x09: 0, 0x0A: 0, 0x0C: 0}
# The server takes no deeper lines.
DEEPEST = 128
# The server takes lines of 1,048,576 bytes, in which each value has at least one and a comma.
MOST_VALUES = 524_288


class NoValue(Exception):
    """The bytes are not one value of BSER."""


class TooDeep(Exception):
    """The value has more arrays and objects in one another than the server takes."""


class TooMany(Exception):
    """The value has more values in it than a command can have."""


class Group:
    """The values of an array or an object that are still to come. Those of an object have keys before them."""

    def __init__(self, left: int, has_keys: bool = False) -> None:
        self.left = left
        self.has_keys = has_keys


class Walk:
    """Goes through the bytes of a message from a place on."""

    def __init__(self, data: bytes, place: int) -> None:
        self.data = data
        self.place = place
        # So many values were there, and are claimed to come.
        self.values = 0

    def check(self) -> None:
        """Goes past one value, which has to be the last."""
        groups = [Group(1)]
        while groups:
            group = groups[-1]
            if not group.left:
                groups.pop()
                continue
            group.left -= 1
            if group.has_keys:
                self.text()
            self.enter(groups, self.value())
        if self.place != len(self.data):
            raise NoValue("there are bytes after the value")

    def enter(self, groups: List[Group], inner: Optional[Group]) -> None:
        if inner is None:
            return
        if len(groups) > DEEPEST:
            raise TooDeep
        groups.append(inner)

    def value(self) -> Optional[Group]:
        """Goes past a value, or past the head of one that has others in it."""
        kind = self.byte()
        if kind in FIXED_SIZES:
            self.skip(FIXED_SIZES[kind])
        elif kind in TEXTS:
            self.skip(self.count())
        elif kind == ARRAY:
            return self.group(self.count())
        elif kind == OBJECT:
            return self.group(self.count(), has_keys=True)
        elif kind == TEMPLATE:
            return self.group(self.values_of_template())
        else:
            raise NoValue(f"no value begins with the byte {kind:02x}")
        return None

    def group(self, count: int, has_keys: bool = False) -> Group:
        self.values += count
        if self.values > MOST_VALUES:
            raise TooMany
        return Group(count, has_keys)

    def values_of_template(self) -> int:
        """Goes past the head of a template, and says how many values it has: so many objects, each with all keys."""
        keys, objects = self.keys(), self.count()
        if objects and not keys:
            raise NoValue(f"a template has no keys, and {objects} objects")
        if keys * objects > len(self.data) - self.place:
            raise NoValue(f"a template has {keys * objects} values, and {len(self.data) - self.place} bytes follow")
        return keys * objects

    def keys(self) -> int:
        """Goes past the keys of a template, and says how many there are."""
        if self.byte() != ARRAY:
            raise NoValue("a template begins with an array of keys")
        count = self.count()
        for _ in range(count):
            self.text()
        return count

    def text(self) -> None:
        if self.byte() not in TEXTS:
            raise NoValue("a key is no text")
        self.skip(self.count())

    def count(self) -> int:
        """A number of bytes or values that are still to come, each of which has at least a byte."""
        size = INTEGER_SIZES.get(self.byte())
        if size is None:
            raise NoValue("a length is no integer")
        start = self.place
        self.skip(size)
        count = int.from_bytes(self.data[start : self.place], sys.byteorder, signed=True)
        if not 0 <= count <= len(self.data) - self.place:
            raise NoValue(f"a length is {count}, and {len(self.data) - self.place} bytes follow")
        return count

    def byte(self) -> int:
        self.skip(1)
        return self.data[self.place - 1]

    def skip(self, count: int) -> None:
        if count > len(self.data) - self.place:
            raise NoValue("it ends in the middle of a value")
        self.place += count
