"""Lines of the log, which clients write and read."""

import time
from typing import Dict, List

from bridge.faults import Refused

# Each level shows the lines of its own number and below.
LEVELS: Dict[str, int] = {"off": 0, "error": 1, "debug": 2}


def level_of(command: List[object], count: int) -> str:
    """The level that a command names, which has so many words after its own."""
    name = command[0]
    if len(command) != 1 + count:
        raise Refused(f"wrong number of arguments to '{name}'")
    level = command[1]
    if not isinstance(level, str) or level not in LEVELS:
        raise Refused(f"invalid log level for '{name}'")
    return level


def line_of(thread: str, text: str) -> str:
    """A line as Watchman writes it: the time, who says it, and the text."""
    return f"{time.strftime('%Y-%m-%dT%H:%M:%S')},000: [{thread}] {text}\n"
