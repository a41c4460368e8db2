"""A server wqd that is killed and started again."""

import os
import sys
import threading
from pathlib import Path

TESTS = Path(__file__).resolve().parents[3] / "tests"
sys.path[:0] = [str(TESTS), str(TESTS / "server")]

from client import Server


class Served:
    """The servers at the socket in a directory, one after the other."""

    def __init__(self, room: Path) -> None:
        self.room = room
        self.count = 0
        self.lock = threading.Lock()
        self.start()

    def start(self) -> None:
        self.count += 1
        self.server = Server(self.room, interval=100, share=10, numbers=(self.count, os.getpid()))

    def kill(self) -> None:
        self.server.kill()
