"""A root in which nothing changes, and of which no client asks, is scanned more seldom. A change or a question of it
ends that."""

import ctypes
import os
import struct
import time
from pathlib import Path
from typing import Callable

from case import Timed
from client import Client, Server

# How much of a processor rounds may take, in percent, and the shortest pause between two scans, in milliseconds.
PERCENT, INTERVAL = 20, 200
# After so many seconds a root is quiet, and a tenth of them later it has a third of its share.
QUIET_AFTER = 1
# The server is looked at for so long, in seconds, and something happens so often, if anything does.
SPAN, OFTEN = 4.0, 0.4
# A quiet root is looked at a third as often. This lies between that and the whole.
LESS = 0.6
# What inotify tells of a directory: that it is opened, and closed. Two openings with nothing between count as one.
OPEN, CLOSE = 0x20, 0x10
EVENT = struct.Struct("iIII")
Meanwhile = Callable[[Client, Path], object]


class Quiet(Timed):
    def test_quiet_roots(self) -> None:
        (self.room / "tree" / "below").mkdir(parents=True)
        whole = self.looks("never", 0, nothing)
        for name, meanwhile, is_quiet in (
            ("nothing", nothing, True),
            ("changes", a_change, False),
            ("questions", a_question, False),
            ("questions of another root", a_question_of_another, True),
        ):
            found = self.looks(name, QUIET_AFTER, meanwhile)
            self.check(f"a root with {name}", (found < LESS * whole) == is_quiet, [f"{whole} looks, and {found}"])

    def looks(self, name: str, quiet_after: int, meanwhile: Meanwhile) -> int:
        """How often a server opens a directory in a time, if this happens all the time. A root is quiet after so many
        seconds."""
        root, below = self.room / "tree", self.directory(name)
        with Server(below, interval=INTERVAL, share=PERCENT, quiet_after=quiet_after) as server:
            with server.client(root) as client:
                for_so_long(2.0 * QUIET_AFTER, client, root, meanwhile)
                opened = Opened(root / "below")
                for_so_long(SPAN, client, root, meanwhile)
                return opened.count()


class Opened:
    """Counts how often a directory is opened from now on."""

    def __init__(self, path: Path) -> None:
        library = ctypes.CDLL(None)
        self.file = library.inotify_init1(os.O_NONBLOCK)
        library.inotify_add_watch(self.file, os.fsencode(path), OPEN | CLOSE)

    def count(self) -> int:
        events = os.read(self.file, 1_000_000)
        os.close(self.file)
        return sum(1 for _, mask, _, _ in EVENT.iter_unpack(events) if mask & OPEN)


def for_so_long(seconds: float, client: Client, root: Path, meanwhile: Meanwhile) -> None:
    end = time.monotonic() + seconds
    while time.monotonic() < end:
        meanwhile(client, root)
        time.sleep(OFTEN)


def nothing(client: Client, root: Path) -> None:
    pass


def a_change(client: Client, root: Path) -> None:
    (root / "changing").write_text(f"{time.monotonic_ns()}")


def a_question(client: Client, root: Path) -> None:
    """A question that is answered without a scan."""
    client.ask("clock", str(root))


def a_question_of_another(client: Client, root: Path) -> None:
    """A query that has another root scanned. It names that root alone."""
    other = root.with_name("other")
    other.mkdir(exist_ok=True)
    client.ask("watch", str(other))
    client.ask("query", str(other), {"expression": ["name", "none"], "fields": ["name"]})
