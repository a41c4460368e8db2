"""Rounds of crawls that may take a share of a processor alone."""

import itertools
import os
import time
from pathlib import Path

from case import Timed
from client import Client, Server, query_of_names
from trees import fill_directory
from waiting import look_until

DIRECTORIES = 50
FILES = 100
# How much of a processor rounds may take, and for how long that is measured, in seconds.
PERCENT = 5
QUERIES = 5
SPAN = 4.0
# Other work of the server, and what a short span leaves of a round.
SLACK = 0.15
MOST = PERCENT / 100 * SPAN + SLACK
TICKS = os.sysconf("SC_CLK_TCK")


class Shares(Timed):
    def test_a_share(self) -> None:
        """With a share rounds pause, and a query that synchronises waits for no pause. Without one they do not
        pause. A machine that does other things may make one span dearer, so up to five are looked at."""
        root = self.room / "tree"
        for number in range(DIRECTORIES):
            fill_directory(root / f"directory{number:02}", FILES)
        with Server(self.room, interval=10) as server, server.client(root) as client:
            alone = look_until(lambda: seconds_in(server), lambda found: found > 2 * MOST, 4 * SPAN)
        with Server(self.room, interval=10, share=PERCENT) as server, server.client(root) as client:
            shared = look_until(lambda: seconds_in(server), lambda found: found <= MOST, 4 * SPAN)
            self.check_a_crawl_in_a_pause(client, root)
        self.check("rounds keep their share", shared <= MOST, [f"{shared:.2f} seconds of {SPAN}, at most {MOST:.2f}"])
        self.check(
            "rounds without a share take more", alone > 2 * shared, [f"{alone:.2f} and {shared:.2f} seconds of {SPAN}"]
        )

    def check_a_crawl_in_a_pause(self, client: Client, root: Path) -> None:
        """Queries that synchronise see each change at once, one after the other."""
        numbers = itertools.count()

        def seconds_of_queries() -> float:
            return sum(self.seconds_of_a_query(client, root, next(numbers)) for _ in range(QUERIES))

        took = look_until(seconds_of_queries, lambda took: took < SPAN)
        self.check("a query waits for no pause", took < SPAN, [f"{took:.2f} seconds for {QUERIES} queries"])

    def seconds_of_a_query(self, client: Client, root: Path, number: int) -> float:
        (root / f"new{number}").touch()
        began = time.monotonic()
        found = client.ask("query", str(root), {"expression": ["name", f"new{number}"], **query_of_names()})
        took = time.monotonic() - began
        self.same(f"a change in a pause, {number}", found["files"], [f"new{number}"])
        return took


def seconds_in(server: Server) -> float:
    """The processor time that a server takes in the span, in seconds."""
    before = server.processor_seconds()
    time.sleep(SPAN)
    return server.processor_seconds() - before
