"""Names of files as a command is handed them: as arguments, in as many parts as the system needs, and by variables."""

import os
from typing import Dict, List

PLACE = "{}"
# The system takes a limited number of bytes as arguments and variables. FREE of them are left free, as by xargs, and
# Linux never takes more than MOST.
FREE, MOST = 2_048, 6 * 1024 * 1024
# Each argument has a byte 0 at its end, and its address.
BESIDE_EACH = 9
# The most bytes of names in a variable.
MOST_OF_VARIABLE = 65_536


def as_argument(path: str) -> str:
    """A path that no command takes for anything else: some take `-x` and `+x` for options, `@x` for a file of them."""
    return path if path.startswith(("/", "./", "../")) else f"./{path}"


def batches(paths: List[str], words: List[str], environment: Dict[str, str]) -> List[List[str]]:
    """The paths in parts, so that none is too long for a command of these words. Each has one path at least."""
    times = words.count(PLACE)
    room = min(os.sysconf("SC_ARG_MAX"), MOST) - FREE
    room -= sum(map(bytes_of, words)) + sum(bytes_of(name) + bytes_of(value) for name, value in environment.items())
    parts: List[List[str]] = [[]]
    left = room
    for path in paths:
        size = bytes_of(path) * times
        if size > left and parts[-1]:
            parts.append([])
            left = room
        parts[-1].append(path)
        left -= size
    return parts


def bytes_of(word: str) -> int:
    return len(os.fsencode(word)) + BESIDE_EACH


def variables(root: str, clock: str, changed: List[str]) -> Dict[str, str]:
    """The variables of a run: where and when, and which files changed, as many names as may be. One with a newline
    would be two lines."""
    lines: List[str] = []
    left = MOST_OF_VARIABLE
    for path in (as_argument(name) for name in changed if "\n" not in name):
        left -= len(os.fsencode(path)) + 1
        if left < 0:
            break
        lines.append(path)
    return {"WQ_ROOT": root, "WQ_CLOCK": clock, "WQ_CHANGED": "\n".join(lines), "WQ_CHANGED_COUNT": str(len(changed))}
