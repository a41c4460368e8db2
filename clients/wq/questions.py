"""Asks the server about the keys of a request that it refused, since its reply is the error alone.

Each question is refused, if not for its part, then for a value that the server looks at later. So a question scans
nothing, lists nothing and leaves nothing behind."""

import re
from typing import Any, Callable, Dict, List, NamedTuple

from wqclient.client import json_of
from wqprogram.limits import MAX_LINE

Object = Dict[str, Any]
# Sends a command, and gives the reply; {} if none comes.
Look = Callable[..., Object]
# The error of a part alone; nothing if the part is right.
ErrorOf = Callable[[Any], str]

# One fault takes some 30 questions at most: the places in a line are halved by each.
MOST = 64
# The errors of the object of a request. Any other says that the server cannot be asked about it.
OF_OBJECTS = re.compile("E(2[0-9]|3[0-9]|4[0-9]):")


class Asked(NamedTuple):
    """The object of a question: keys that it needs, those for which it is refused at last, and the error for that."""

    needed: Object
    refused: Object
    error: str


WRONG_FLAG = Asked({}, {"sync_timeout": 0, "empty_on_fresh_instance": 0}, "E37:")
NO_PROGRAM = Asked({}, {"sync_timeout": 0, "program": ""}, "E34:")
NO_TERM = Asked({"name": "wq", "command": ["wq"]}, {"expression": ""}, "E24:")


class NoAnswer(Exception):
    """The server cannot be asked: it has ended, watches the root no longer, or was asked often enough."""


class Questions:
    """The questions about the object of a refused request, which comes last in it."""

    def __init__(self, command: List[Any], look: Look) -> None:
        self.command = command
        self.look = look
        self.left = MOST

    def of_key(self, key: str, is_value: bool = False) -> ErrorOf:
        """Gives the error of a key alone; `is_value` says that it is one which the server looks at last."""
        asked = NO_TERM if self.command[0] == "trigger" else NO_PROGRAM if is_value else WRONG_FLAG
        return lambda value: self.error(self.command[:-1], asked, key, value)

    def error(self, front: List[Any], asked: Asked, key: str, value: Any) -> str:
        """The error of a command for this key. Whatever its value is, the command is refused."""
        self.left -= 1
        command = [*front, {**asked.needed, key: value, **asked.refused}]
        if self.left < 0 or len(json_of(command)) > MAX_LINE:
            raise NoAnswer
        found = str(self.look(*command).get("error", ""))
        if not OF_OBJECTS.match(found):
            raise NoAnswer
        return "" if found.startswith(asked.error) else found


def first_of(count: int, is_so: Callable[[int], bool]) -> int:
    """The first number from 1 on from which this is so, if it is so of `count`."""
    low, high = 1, count
    while low < high:
        middle = (low + high) // 2
        if is_so(middle):
            high = middle
        else:
            low = middle + 1
    return low
