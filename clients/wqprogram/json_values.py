"""JSON as the server reads and writes it.

A value is None, a bool, an int, a float, a str, a list or a dict. Integers that fit 64 bits are read as int: those
without a sign up to 2^64 - 1, those with one from -2^63 to -1. All other numbers are float, also `-0`.
"""

import itertools
import json
import math
import re
from typing import Any, Dict, List, Tuple, Union

from .limits import MAX_JSON_DEPTH, MAX_NUMBER

# What is no bracket around values.
BETWEEN_BRACKETS = re.compile(r'"[^"\\]*(?:\\.[^"\\]*)*"|[^][{}"]+', re.S)


class NotJson(ValueError):
    """The bytes are not exactly one JSON value in UTF-8 that can be read."""


def read(line: bytes) -> Any:
    """The one JSON value that these bytes say."""
    try:
        text = line.decode("utf-8")
        value = DECODER.decode(text)
        require_characters(value)
    except (ValueError, RecursionError):
        raise NotJson from None
    if depth_of(text) > MAX_JSON_DEPTH:
        raise NotJson
    return value


def members_of(pairs: List[Tuple[str, Any]]) -> Dict[str, Any]:
    """An object. Of pairs with one key the last counts, and the others have to be lawful too."""
    for key, value in pairs:
        require_characters(key)
        require_characters(value)
    return dict(pairs)


def require_characters(value: Any) -> None:
    """Refuses half a surrogate pair in a text, also of an array. Those of an object were looked at when it was made."""
    if isinstance(value, str):
        value.encode("utf-8")
    elif isinstance(value, list):
        for entry in value:
            require_characters(entry)


def integer(text: str) -> Union[int, float]:
    """An integer if it is one of 64 bits, with a sign or without one."""
    if len(text) <= 20:
        value = int(text)
        if 1 <= -value <= 2**63 or (0 <= value < 2**64 and not text.startswith("-")):
            return value
    return number(text)


def number(text: str) -> float:
    value = float(text)
    if math.isinf(value):
        raise NotJson
    return value


def no_constant(name: str) -> None:
    """JSON has no NaN and no Infinity."""
    raise NotJson


DECODER = json.JSONDecoder(
    object_pairs_hook=members_of, parse_int=integer, parse_float=number, parse_constant=no_constant
)


def depth_of(text: str) -> int:
    """In how many arrays and objects the innermost value lies."""
    brackets = BETWEEN_BRACKETS.sub("", text)
    return max(itertools.accumulate(1 if bracket in "[{" else -1 for bracket in brackets), default=0)


def is_whole_number(value: Any) -> bool:
    """Whether the value is an integer from -2^62 to 2^62."""
    return isinstance(value, int) and not isinstance(value, bool) and -MAX_NUMBER <= value <= MAX_NUMBER


def compact_text(value: Any) -> str:
    """The value without blanks, the keys of objects in byte order (which is that of the code points)."""
    return json.dumps(value, ensure_ascii=False, sort_keys=True, separators=(",", ":"))
