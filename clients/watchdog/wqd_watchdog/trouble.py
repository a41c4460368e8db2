"""The reasons for which a watch is not served, and how a person hears of them."""

import sys

from .wqclient.harmless import harmless


class Unserved(Exception):
    """The server cannot watch a directory, or cannot do so for anybody. The reason is one line."""

    def __init__(self, reason: str, directory: str = "") -> None:
        super().__init__(f"{directory}: {reason}" if directory else reason)
        self.reason = reason


class Lost(Exception):
    """The server has ended the connection, or watches the root no longer."""


def say(text: str) -> None:
    """A line for the person who runs the tool. A name in it may be that of a stranger."""
    print(f"wqd_watchdog: {harmless(text)}", file=sys.stderr, flush=True)
