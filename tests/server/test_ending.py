"""The end of a server that has much to crawl."""

import time
from pathlib import Path
from typing import List, NamedTuple

from case import Timed
from client import Client, Server
from trees import fill_directory

FILES = 10_000
ROOTS = 16
SIGHTS = 3
TRIES = 3


class Times(NamedTuple):
    """The seconds that a server takes for a round, and for its end when a round has just begun."""

    whole: float
    end: float

    def is_soon(self) -> bool:
        return self.end < self.whole / 2


class Ending(Timed):
    def test_an_end_within_a_round(self) -> None:
        """A server that is told to end when the first of sixteen roots was crawled ends before it would have crawled
        half of them: walks that have not begun are not waited for. It is tried anew where something else held it up."""
        directory = self.room / "tree"
        fill_directory(directory, FILES)
        # Each link is a root of its own.
        roots = [self.room / f"root{number:02}" for number in range(ROOTS)]
        for root in roots:
            root.symlink_to(directory)
        tries = [self.end_during_a_round(self.room, directory, roots)]
        while len(tries) < TRIES and not tries[-1].is_soon():
            tries.append(self.end_during_a_round(self.room, directory, roots))
        self.check("an end during a round", tries[-1].is_soon(), [f"{one}" for one in tries])

    def end_during_a_round(self, room: Path, directory: Path, roots: List[Path]) -> Times:
        """Starts a server that watches these roots, and ends it when it has crawled the first of them by itself."""
        with Server(room, interval=10) as server, server.client() as client:
            for root in roots:
                client.ask("watch", str(root))
            sights = [moment_of_a_sight(client, directory, roots[0]) for _ in range(SIGHTS)]
            status = server.shut_down(client)
            ended = time.monotonic()
        self.same("the status after an end during a round", status, 0)
        # From one sight to the next it is a round, and the pause behind it.
        return Times(min(after - before for before, after in zip(sights, sights[1:])), ended - sights[-1])


def moment_of_a_sight(client: Client, directory: Path, root: Path) -> float:
    """Makes a file, and gives the moment at which the server has seen it in a root by itself."""
    before = client.ask("clock", str(root))
    (directory / f"made after {before['clock']}").touch()
    client.ask_until("clock", str(root), {}, lambda reply: reply != before)
    return time.monotonic()
