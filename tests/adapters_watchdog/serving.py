"""A server for the adapter, which finds it by the variables of its process."""

import contextlib
import os
import unittest
from importlib.util import find_spec
from pathlib import Path
from typing import Iterator

from client import Server


def needs_watchdog() -> None:
    """Leaves out the tests of a module if this Python has no watchdog."""
    if find_spec("watchdog") is None or find_spec("watchdog.observers") is None:
        raise unittest.SkipTest("no Python here has watchdog: Debian's package python3-watchdog")


@contextlib.contextmanager
def served(room: Path, interval: int = 50) -> Iterator[Server]:
    """A server, and this process with notes of its own and no other server to start."""
    before = dict(os.environ)
    (room / "state").mkdir(exist_ok=True)
    os.environ.update(WQD_SOCK=str(room / "socket"), XDG_STATE_HOME=str(room / "state"))
    try:
        with Server(room, interval=interval, share=50) as server:
            yield server
    finally:
        os.environ.clear()
        os.environ.update(before)


def restarted(room: Path, server: Server, interval: int = 50) -> Server:
    """Another server at the socket of one that is killed."""
    server.kill()
    return Server(room, interval=interval, share=50)


def write_longer(path: Path) -> None:
    """Makes a file longer by one write: one that is emptied first changes twice, and a scan may come between."""
    with path.open("r+b", buffering=0) as file:
        file.write(b"longer")


def made(room: Path) -> Path:
    root = room / "root"
    for name in ("a", "d/b", "d/e/c"):
        (root / name).parent.mkdir(parents=True, exist_ok=True)
        (root / name).write_text(name)
    return root
