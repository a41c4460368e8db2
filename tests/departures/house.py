"""A server of which all places but one are taken, and a tree that takes it a while."""

import atexit
import functools
import json
import os
import tempfile
import time
from pathlib import Path
from typing import List

from case import Case
from client import VERSION, Client, Server, query_of_names
from trees import MEMORY, has_room, make_names
from waiting import PATIENCE, wait_until

# The pause between two rounds, in milliseconds, within which a place has to be free.
INTERVAL = 2_000
PLACES = 32
# How many times as long work takes at most while others work too.
BESIDE_OTHERS = 10
# How much more memory a server may have after a client went, in bytes.
MORE_MEMORY = 6_000_000
# A tree that takes the server a while.
DIRECTORIES = 20
FILES = 100_000


@functools.lru_cache(maxsize=None)
def large_tree() -> Path:
    """The tree of all tests, which is made for the first one and goes at the end."""
    shelf = tempfile.TemporaryDirectory(dir=MEMORY if has_room(MEMORY) else None)
    atexit.register(shelf.cleanup)
    root = Path(shelf.name) / "tree"
    make_names(root, DIRECTORIES, FILES)
    return root


def dear_query(patterns: int) -> dict:
    """A query with long patterns, each of which is looked at for each file, and none of which fits one."""
    terms = [["match", f"{number:0>200}?", "wholename"] for number in range(patterns)]
    return {"expression": ["anyof", *terms], "sync_timeout": 0}


class House:
    """A server with 31 clients that stay. The first of them asks."""

    def __init__(self, room: Path, root: Path) -> None:
        self.root = str(root)
        self.server = Server(room, interval=INTERVAL)
        self.clients: List[Client] = [self.server.client() for _ in range(PLACES - 1)]
        self.first = self.clients[0]
        for client in self.clients:
            client.ask("version")
        self.threads = self.server.least_threads()

    def __enter__(self) -> "House":
        return self

    def __exit__(self, *_: object) -> None:
        for client in self.clients:
            client.close()
        self.server.__exit__()

    def settle(self) -> None:
        """Takes this moment's memory and handles as those that are to be there again."""
        with self.server.client_when_free():
            pass
        self.server.has_threads(self.threads, PATIENCE)
        self.memory = self.server.least_memory()
        self.handles = handles_of(self.server)

    def visit(self, lines: bytes, stay: float) -> bool:
        """A client takes the last place, sends lines and goes after so many seconds. Whether it went before a reply."""
        with self.server.client_when_free() as client:
            client.socket.setblocking(False)
            rest = memoryview(lines)
            try:
                while rest:
                    rest = rest[client.socket.send(rest) :]
            except BlockingIOError:
                pass  # the server takes no more while its replies are not read
            time.sleep(stay)
            try:
                return not client.socket.recv(1)
            except BlockingIOError:
                return True

    def seconds_of(self, *command: object) -> float:
        """How long the first client waits for its answer."""
        began = time.monotonic()
        self.first.ask(*command)
        return time.monotonic() - began

    def is_as_before(self, case: Case, name: str, work: float = 0.0) -> None:
        """The place of a client that just went is free within an interval after its work, which takes so many seconds
        alone. Then threads, handles and memory are as they were before it came."""
        began = time.monotonic()
        with self.server.client_when_free() as client:
            took = time.monotonic() - began
            is_soon = took <= INTERVAL / 1000 + BESIDE_OTHERS * work
            case.check(f"its place is free, {name}", is_soon, [f"{took:.3f} seconds, its work alone {work:.3f}"])
            case.check(f"a client in its place, {name}", client.ask("version") == VERSION)
        same_handles = has_handles(self.server, self.handles)
        case.check(f"its handles, {name}", same_handles, [f"{handles_of(self.server)}, before {self.handles}"])
        is_same = self.server.has_threads(self.threads, PATIENCE)
        case.check(f"its threads, {name}", is_same, [f"{self.server.threads()}, before {self.threads}"])
        is_small = self.server.has_memory_below(self.memory + MORE_MEMORY)
        case.check(f"its memory, {name}", is_small, [f"{self.server.memory()} bytes, before {self.memory}"])

    def goes_on(self, case: Case, name: str) -> None:
        """The others see a change, and then the change back."""
        mark = Path(self.root) / "mark"
        for is_there in (True, False):
            mark.touch() if is_there else mark.unlink()
            reply = self.first.ask("query", self.root, {"path": ["mark"], **query_of_names()})
            case.check(f"a query of another, {name}", reply.get("files") == ["mark"] * is_there, [f"{reply}"])


def line_of(*command: object) -> bytes:
    return json.dumps(list(command)).encode() + b"\n"


def handles_of(server: Server) -> int:
    return len(os.listdir(f"/proc/{server.process.pid}/fd"))


def has_handles(server: Server, most: int) -> bool:
    """Whether the server comes to have no more open files than so many before the patience ends."""
    return wait_until(lambda: handles_of(server) <= most)
