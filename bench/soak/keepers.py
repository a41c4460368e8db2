"""Who keeps a picture of a root's files from what the server tells: a client that asks, one that subscribes, and a
trigger."""

import json
import random
import select
import shlex
import sys
import threading
import time
from pathlib import Path
from typing import Callable, Dict, List, Set

TESTS = Path(__file__).resolve().parent.parent.parent / "tests"
sys.path[:0] = [str(TESTS), str(TESTS / "server")]

from client import Client, Server
from pictures import Picture

FIELDS = ["name", "exists"]
# A client that subscribes has read all that there is to read if nothing comes for so many seconds.
QUIET = 1.0


class Keeper(threading.Thread):
    """A client that keeps a picture on a thread of its own, until something goes wrong."""

    def __init__(self, server: Server, root: str, stop: threading.Event) -> None:
        super().__init__()
        self.client: Client = server.client()
        self.root = root
        self.stop = stop
        self.picture = Picture()
        self.fault = ""

    def run(self) -> None:
        while not self.stop.is_set() and not self.fault:
            self.attempt(self.turn)

    def attempt(self, turn: Callable[[], None]) -> None:
        """Does something, and keeps what goes wrong: nobody else would hear of it in a thread."""
        try:
            turn()
        except Exception as error:
            self.fault = self.fault or repr(error)

    def turn(self) -> None:
        raise NotImplementedError

    def catch_up(self) -> None:
        """Takes in all that changed before this was called."""
        raise NotImplementedError


class Asker(Keeper):
    """A client that asks what changed since its last clock."""

    def __init__(self, server: Server, root: str, stop: threading.Event, number: int) -> None:
        super().__init__(server, root, stop)
        self.draw = random.Random(number)
        self.clock = ""
        self.slowest = 0.0
        self.asked = 0

    def turn(self) -> None:
        self.ask({"sync_timeout": 0} if self.draw.random() < 0.99 else {})
        time.sleep(self.draw.random() * 0.05)

    def catch_up(self) -> None:
        self.ask({})

    def ask(self, more: dict) -> None:
        query: Dict[str, object] = {"fields": FIELDS, **more}
        if self.clock:
            query["since"] = self.clock
        began = time.monotonic()
        reply = self.client.ask("query", self.root, query)
        if "sync_timeout" in more:
            self.slowest = max(self.slowest, time.monotonic() - began)
        self.asked += 1
        if "error" in reply:
            raise ValueError(reply["error"])
        self.picture.take(reply["files"], reply["is_fresh_instance"])
        self.clock = reply["clock"]


class Subscriber(Keeper):
    """A client that subscribes, and takes in the lists that come."""

    def __init__(self, server: Server, root: str, stop: threading.Event) -> None:
        super().__init__(server, root, stop)
        self.tick = 0
        self.lists = 0

    def subscribe(self) -> None:
        reply = self.client.ask("subscribe", self.root, "s", {"fields": FIELDS})
        if "error" in reply:
            raise ValueError(reply["error"])

    def turn(self) -> None:
        if self.has_more(0.05):
            self.take(self.client.reply())

    def catch_up(self) -> None:
        while self.has_more(QUIET):
            self.take(self.client.reply())

    def has_more(self, seconds: float) -> bool:
        """Whether something comes within so many seconds."""
        return b"\n" in self.client.read or bool(select.select([self.client.socket], [], [], seconds)[0])

    def take(self, told: dict) -> None:
        tick = int(told["clock"].rsplit(":", 1)[1])
        if tick < self.tick:
            raise ValueError(f"a list of tick {tick} after one of tick {self.tick}")
        self.tick = tick
        self.lists += 1
        self.picture.take(told["files"], told["is_fresh_instance"])


class TriggerLog:
    """A trigger whose command appends each batch to a file, and the picture that this file gives."""

    def __init__(self, client: Client, root: str, file: Path, name: str) -> None:
        self.client = client
        self.root = root
        self.file = file
        self.name = name

    def register(self) -> None:
        """Registers the trigger, or replaces it: then it tells all files again."""
        script = f'{{ echo "${{WATCHMAN_SINCE:-fresh}}"; cat; }} >> {shlex.quote(str(self.file))}'
        trigger = {"name": self.name, "command": ["sh", "-c", script], "stdin": FIELDS}
        reply = self.client.ask("trigger", self.root, trigger)
        if "error" in reply:
            raise ValueError(reply["error"])

    def batches(self) -> List[str]:
        return self.file.read_text().splitlines() if self.file.exists() else []

    def files(self) -> Set[str]:
        """The names of the files that exist, as the file tells them."""
        picture = Picture()
        lines = self.batches()
        for since, files in zip(lines[0::2], lines[1::2]):
            picture.take(json.loads(files), since == "fresh")
        return picture.names()
