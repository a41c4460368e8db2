"""Rounds of crawls that nobody asks for."""

import itertools
import shutil
import time
from pathlib import Path
from typing import Iterator

from case import Timed
from client import Client, Server
from shared import told_of
from waiting import look_until

# How long the server pauses between two rounds by itself, in seconds, and how long a round of a small tree takes at
# most.
PAUSE = 1.0
LATE = 1.0
SIGHTS = 5


class Rounds(Timed):
    def test_rounds(self) -> None:
        """Of three roots the first cannot be read any more. What changes in the others is seen by queries that do not
        crawl."""
        roots = [self.room / f"tree{number}" for number in range(3)]
        for root in roots:
            root.mkdir()
        with Server(self.room, interval=20) as server, server.client() as client:
            for root in roots:
                client.ask("watch", str(root))
            shutil.rmtree(roots[0])
            self.check("the first root is told of", server.says(told_of(roots[0])))
            for turn in range(2):
                for root in roots[1:]:
                    (root / f"file{turn}").touch()
                found = [client.names_without_a_crawl(root, turn + 1) for root in roots[1:]]
                names = [f"file{number}" for number in range(turn + 1)]
                self.same(f"what changed beside a root that cannot be read, turn {turn}", found, [names] * 2)
            self.same("the roots", client.ask("watch-list")["roots"], [str(root) for root in roots])

    def test_the_interval_by_default(self) -> None:
        """A server that is told no interval pauses for a second between two rounds."""
        root = self.directory("tree")
        with Server(self.room, interval=None) as server, server.client(root) as client:
            counts = itertools.count(1)
            # Other work of the machine may make rounds later, in one try.
            gap = look_until(lambda: gap_of_sights(client, root, counts), is_right)
        self.check("the interval by default", is_right(gap), [f"{gap:.3f} seconds from a round to the next"])


def is_right(gap: float) -> bool:
    return PAUSE - 0.1 < gap < PAUSE + LATE


def gap_of_sights(client: Client, root: Path, counts: Iterator[int]) -> float:
    """The seconds from the sight of one file to that of the next, which are made one after the other."""
    moments = []
    for _ in range(SIGHTS):
        count = next(counts)
        (root / f"file{count}").touch()
        client.names_without_a_crawl(root, count)
        moments.append(time.monotonic())
    # A sight comes some time after its round, so one gap may be short, and another may be long.
    return (moments[-1] - moments[0]) / (SIGHTS - 1)
