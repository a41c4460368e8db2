"""A round of crawls gives way to a client that waits for one."""

import statistics
import time
from pathlib import Path
from typing import NamedTuple

from case import Timed
from client import Client, Server, query_of_names
from trees import fill
from waiting import look_until

QUERIES = 31
# A query that waited for the walk of the large root takes half of it on average.
LONGEST_PART = 0.2


class Times(NamedTuple):
    """The seconds of a walk of the large root, and of a query of the small one at the median."""

    walk: float
    query: float

    def is_soon(self) -> bool:
        return self.query < LONGEST_PART * self.walk


class Yielding(Timed):
    def test_a_round_gives_way(self) -> None:
        """Rounds walk a large root nearly all the time. Queries of a small root do not wait, and both roots are
        crawled."""
        large, small = self.room / "large", self.room / "small"
        fill(large)
        small.mkdir()
        with Server(self.room, interval=10) as server, server.client() as client:
            for root in (large, small):
                client.ask("watch", str(root))
            # Other work of the machine may hold up the queries of one try.
            found = look_until(lambda: times(client, large, small), Times.is_soon)
            self.check("a query of a small root beside rounds of a large one", found.is_soon(), [f"{found}"])
            (large / "new").touch()
            is_seen = sees(client, large, small)
            lines = [repr(server.errors())]
            self.check("the large root is crawled beside the queries", is_seen, lines)
            self.check("no walk that was given up is told of", server.errors().count(b"\n") == 1, lines)


def times(client: Client, large: Path, small: Path) -> Times:
    walk = min(seconds_of_a_query(client, large) for _ in range(5))
    return Times(walk, statistics.median(seconds_of_a_query(client, small, 0.02) for _ in range(QUERIES)))


def seconds_of_a_query(client: Client, root: Path, pause: float = 0.0) -> float:
    """How long a query takes that crawls, after a pause."""
    time.sleep(pause)
    began = time.monotonic()
    client.ask("query", str(root), {**query_of_names(), "expression": ["name", "new"]})
    return time.monotonic() - began


def sees(client: Client, large: Path, small: Path) -> bool:
    """Whether a new file in the large root is seen without a crawl, while the small root is crawled all the time."""
    query = {**query_of_names(), "expression": ["name", "new"], "sync_timeout": 0}
    end = time.monotonic() + 60
    while time.monotonic() < end:
        seconds_of_a_query(client, small)
        if client.ask("query", str(large), query)["files"]:
            return True
    return False
