"""The notation in which cases and examples write program files.

The code is written as `exists; jf 3; drop; ret`, with the operands behind the name: the relation of `cmp` by its
name, `fold` for letters without case, and a place or a flag as a number. The constants are JSON: numbers, texts, lists
of texts, patterns as pairs of the flags' byte and the text, and sets as lists of patterns. `{{TEXT*N}}` is the text, N
times. A character stands for the byte of its number.

A file is of version 1, unless the program has sets, or version 2 is asked for.
"""

import json
from typing import Any, List, NamedTuple, Sequence

from rows import expand
from wqprogram.instructions import BY_NAME, RELATIONS


def values(text: str) -> List[Any]:
    """A list in JSON without its brackets, in which a comma may end what is repeated."""
    return json.loads("[" + expand(text).strip().rstrip(",").replace(",]", "]") + "]")


def file_of(
    code: str, numbers: str = "", texts: str = "", lists: str = "", patterns: str = "", sets: str = "", version: int = 1
) -> bytes:
    """The file of a program in this notation."""
    wide = WIDTHS[2 if sets else version]
    words = [part.split() for part in expand(code).split(";") if part.strip()]
    tables = [values(table) for table in (numbers, texts, lists, patterns, sets)]
    counts = [len(table) for table in tables[: wide.tables]] + [len(words)]
    return b"".join(
        [
            b"WQPF" + bytes([wide.version]),
            *[wide.bytes_of(count) for count in counts],
            *[number.to_bytes(8, "big", signed=True) for number in tables[0]],
            *[text_bytes(text) for text in tables[1]],
            *[wide.bytes_of(len(entries)) + b"".join(map(text_bytes, entries)) for entries in tables[2]],
            *map(pattern_bytes, tables[3]),
            *[wide.bytes_of(len(patterns)) + b"".join(map(pattern_bytes, patterns)) for patterns in tables[4]],
            *[operation_bytes(part, wide) for part in words],
        ]
    )


class Width(NamedTuple):
    """How many tables of constants a version has, and how many bytes its counts and places take."""

    version: int
    tables: int
    width: int

    def bytes_of(self, number: int) -> bytes:
        return number.to_bytes(self.width, "big")


WIDTHS = {1: Width(1, 4, 2), 2: Width(2, 5, 4)}


def short(number: int) -> bytes:
    return number.to_bytes(2, "big")


def text_bytes(text: str) -> bytes:
    return short(len(text)) + text.encode("latin-1")


def pattern_bytes(pattern: Sequence[Any]) -> bytes:
    flags, text = pattern
    return bytes([flags, len(text)]) + text.encode("latin-1")


def operation_bytes(words: Sequence[str], wide: Width) -> bytes:
    """The bytes of one instruction: four in version 1, and six in version 2."""
    instruction = BY_NAME[words[0]]
    a = b = 0
    for word in words[1:]:
        if word == "fold":
            a = 1
        elif word in RELATIONS:
            a = RELATIONS.index(word)
        elif instruction.b:
            b = int(word)
        else:
            a = int(word)
    return bytes([instruction.byte, a]) + wide.bytes_of(b)
