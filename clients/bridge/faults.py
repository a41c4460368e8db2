"""Refusals, in the words that clients of Watchman look for."""

import os
import re
from typing import List

NUMBERED = re.compile(r"E([0-9]+): (.*)", re.DOTALL)
# Errors of the server about a query, and those about a root that it does not watch or cannot read.
OF_QUERIES = {20, 21, 22, 24, 25, 26, 27, 28, 29, 30, 34, 37}
BAD_CLOCK = 23
NO_PLACE = 17
OF_ROOTS = {12: "it has over 1,000,000 files", 13: "16 roots are watched already", 15: "its ticks are spent"}
NOT_ABSOLUTE = 10
UNREADABLE = 11
NOT_WATCHED = 14


class Refused(Exception):
    """A command is answered with these words and not carried out; the client may send others."""


class Ended(Exception):
    """The client or the server has gone, or has sent bytes that cannot be read. The client gets the words, if there are
    any."""


def of_server(error: str, command: List[object]) -> str:
    """Watchman's words for an error of the server about a command."""
    found = NUMBERED.fullmatch(error)
    if not found:
        return error
    number, words = int(found.group(1)), found.group(2)
    root = command[1] if len(command) > 1 else ""
    if number == NOT_WATCHED:
        return f"unable to resolve root {root}: directory {root} is not watched"
    if number == NOT_ABSOLUTE:
        return f'unable to resolve root {root}: path "{root}" must be absolute'
    if number == UNREADABLE:
        return f"unable to resolve root {root}: opendir_nofollow: {root}: {reason_of(str(root))}"
    if number == NO_PLACE:
        return (
            "the 32 places of the server are taken: each client has one, and one more for each 64 subscriptions "
            "(E17)"
        )
    if number in OF_ROOTS:
        return f"unable to resolve root {root}: {OF_ROOTS[number]}"
    if number == BAD_CLOCK:
        return "invalid clockspec"
    if number in OF_QUERIES:
        return f"failed to parse query: {words} (E{number})"
    return f"{words} (E{number})"


def reason_of(path: str) -> str:
    """Why a directory cannot be listed, as far as the bridge can see."""
    try:
        os.listdir(path)
    except (OSError, ValueError) as error:
        return getattr(error, "strerror", None) or str(error)
    return "it cannot be read"
