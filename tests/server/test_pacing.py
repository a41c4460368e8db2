"""With a share each root has a pace of its own, and a server that nobody needs rests."""

import itertools
import random
import statistics
import threading
import time
from pathlib import Path
from typing import List

from case import Beside, Timed
from client import Client, Server, query_of_names
from trees import fill
from shared import STRACE
from waiting import PATIENCE, look_until, wait_until

# How long a root rests at least between two walks, in seconds, and how much of a processor rounds may take.
INTERVAL = 0.5
PERCENT = 10
WRITES = 12
# What a walk of the small root, its list and a busy machine add to one interval and a half, in seconds.
LATE = 0.25
# The server is asked nothing for so long, in seconds, and may take so much processor time of it: the clock has ticks.
SPAN = 3.0
A_TICK = 0.02
A_SECOND = 1.0
# So many clients crawl a large root all the time. A round waits for them for a second and more before it walks a root.
BUSY = 3
LATE_BESIDE_CLIENTS = 6.0
# How many roots are on a slow disk, and for how long a walk of one waits in one call, in seconds. It takes next to no
# processor time. Beside them a small root is walked once an interval of a second, or once a slow walk if that is
# longer. If the interval began after the slow walks, or two came one after the other, it would be at least 1.6 times as
# long.
SLOW = ((1, 0.9), (2, 1.5))
LONGER = 1.4
LISTS = 9
# Other work of the machine may hold up one try. A server that does not keep its pace fails all of so many seconds.
TRIES = 2 * PATIENCE


class Pacing(Timed):
    def test_a_pace_for_each_root(self) -> None:
        """A small root is walked at each interval, though a large one beside it has to rest for longer."""
        large, small = self.room / "large", self.room / "small"
        fill(large)
        small.mkdir()
        with Server(self.room, interval=round(INTERVAL * 1000), share=PERCENT) as server, server.client() as client:
            for root in (large, small):
                client.ask("watch", str(root))
            client.ask("subscribe", str(small), "changes", query_of_names())
            client.reply()
            took = soonest_lists(client, small, WRITES, 1.5 * INTERVAL + LATE)
            most = 2 * PERCENT / 100
            share = look_until(lambda: seconds_in(server) / SPAN, lambda share: share < most, 4 * SPAN)
            is_seen = sees_without_a_crawl(client, large)
        lines = [f"{statistics.median(took):.3f} seconds at the median, {max(took):.3f} at most"]
        # On a busy machine a walk of the large root may take longer than an interval, so the longest wait is no
        # measure.
        self.check("a list of a small root beside a large one", statistics.median(took) < 1.5 * INTERVAL + LATE, lines)
        self.check("both roots keep to the share", share < most, [f"{100 * share:.1f} percent of a processor"])
        self.check("the large root has its turn", is_seen)

    def test_a_pace_beside_clients(self) -> None:
        """A small root does not pause for the crawls of clients that crawl a large root all the time."""
        large, small, ended = self.room / "large", self.room / "small", threading.Event()
        fill(large)
        small.mkdir()
        with Server(self.room, interval=100, share=PERCENT) as server, server.client() as client:
            for root in (large, small):
                client.ask("watch", str(root))
            client.ask("subscribe", str(small), "changes", query_of_names())
            client.reply()
            busy = [threading.Thread(target=crawl_until, args=(server, large, ended)) for _ in range(BUSY)]
            for thread in busy:
                thread.start()
            took = soonest_lists(client, small, WRITES // 2, LATE_BESIDE_CLIENTS)
            ended.set()
            for thread in busy:
                thread.join()
        lines = [f"{statistics.median(took):.3f} seconds at the median, {max(took):.3f} at most"]
        self.check("a list of a small root beside clients", statistics.median(took) < LATE_BESIDE_CLIENTS, lines)

    def test_a_server_that_rests(self) -> None:
        """While no client is connected there is no round. The next client has one made, and so has a trigger."""
        root = self.directory("tree")
        with Server(self.room, interval=10, share=100) as server:
            server.client(root).close()
            self.check_that_it_rests(server, "after its client went")
            (root / "first").touch()
            with server.client() as client:
                found = client.names_without_a_crawl(root, 1)
                self.same("a file that came while it rested", found, ["first"])
                client.ask(
                    "trigger",
                    str(root),
                    {"name": "copy", "command": ["cp", "second", "third"], "expression": ["name", "second"]},
                )
            (root / "second").touch()
            self.check("a trigger without a client", wait_until((root / "third").exists))
            with server.client_when_free() as client:
                client.ask("trigger-del", str(root), "copy")
            self.check_that_it_rests(server, "after its trigger went")
            with server.client_when_free() as client:
                self.same("the end of a server that rested", server.shut_down(client), 0)

    def check_that_it_rests(self, server: Server, name: str) -> None:
        time.sleep(A_SECOND)
        took = look_until(lambda: seconds_in(server), lambda took: took < A_TICK, 4 * SPAN)
        self.check(f"it rests {name}", took < A_TICK, [f"{took:.2f} seconds of {SPAN}"])


class ASlowDisk(Timed, Beside):
    def test_a_pace_beside_a_slow_disk(self) -> None:
        """A walk that waits for a disk is long, though it takes little processor time. The interval begins before it,
        and a small root is walked between two of them."""
        self.check_installed("strace")
        for count, delay in SLOW:
            name = f"{count} on a slow disk"
            places = (self.directory(f"{count}-{turn}") for turn in itertools.count())
            most = LONGER * max(A_SECOND, delay)

            def is_right(gap: float) -> bool:
                return 0.9 * A_SECOND < gap < most

            gap = look_until(lambda: self.gap_beside(next(places), count, delay, name), is_right, TRIES)
            lines = [f"{gap:.3f} seconds between two lists at the median"]
            self.check(f"a small root beside {name}", is_right(gap), lines)

    def gap_beside(self, below: Path, count: int, delay: float, name: str) -> float:
        """The seconds between two lists of a small root at the median, beside so many slow ones."""
        gap = statistics.median(gaps_beside(below, [below / f"slow{number}" for number in range(count)], delay))
        walks = (below / "log").read_bytes().count(b"(DELAYED)")
        self.check(f"walks of {name} are slow", walks > count, [f"{walks} walks"])
        return gap


def soonest_lists(client: Client, root: Path, count: int, most: float) -> List[float]:
    """The seconds until each of so many lists: of the first that are at most so late at the median, or of the last."""
    numbers = itertools.count()
    return look_until(
        lambda: [seconds_until_a_list(client, root, f"file{next(numbers)}") for _ in range(count)],
        lambda took: statistics.median(took) < most,
        TRIES,
    )


def seconds_in(server: Server) -> float:
    """The processor time that a server takes in the span, in seconds."""
    before = server.processor_seconds()
    time.sleep(SPAN)
    return server.processor_seconds() - before


def seconds_until_a_list(client: Client, root: Path, name: str) -> float:
    """How long it takes from a new file, at any moment of an interval, to the list that has it."""
    time.sleep(random.uniform(0.0, 3 * INTERVAL))
    (root / name).touch()
    began = time.monotonic()
    while name not in client.reply().get("files", []):
        pass
    return time.monotonic() - began


def sees_without_a_crawl(client: Client, root: Path) -> bool:
    """Whether rounds find a new file."""
    (root / "new").touch()
    query = {**query_of_names(), "expression": ["name", "new"], "sync_timeout": 0}
    return bool(client.ask_until("query", str(root), query, lambda reply: reply["files"])["files"])


def gaps_beside(room: Path, slow: List[Path], delay: float) -> List[float]:
    """The seconds between lists of a small root beside slow ones, while files come into it all the time."""
    small, ended = room / "small", threading.Event()
    paths = [word for root in slow for word in ("-P", f"{root}/")]
    delayed = ["-e", "trace=chdir", "-e", f"inject=chdir:delay_enter={round(delay * 1_000_000)}"]
    for root in (*slow, small):
        root.mkdir()
    through = [*STRACE, "-o", str(room / "log"), *paths, *delayed]
    with Server(room, interval=round(A_SECOND * 1000), share=PERCENT, through=through) as server:
        with server.client() as client:
            for root in (*slow, small):
                client.ask("watch", str(root))
            client.ask("subscribe", str(small), "changes", query_of_names())
            writer = threading.Thread(target=write_until, args=(small, ended))
            writer.start()
            try:
                moments = [moment_of_a_list(client) for _ in range(LISTS)]
            finally:
                ended.set()
                writer.join()
    return [later - moment for moment, later in zip(moments, moments[1:])]


def write_until(root: Path, ended: threading.Event) -> None:
    """Files come into a root all the time."""
    number = 0
    while not ended.wait(0.05):
        (root / f"written{number}").touch()
        number += 1


def moment_of_a_list(client: Client) -> float:
    client.reply()
    return time.monotonic()


def crawl_until(server: Server, root: Path, ended: threading.Event) -> None:
    """A client has a root crawled again and again."""
    query = {**query_of_names(), "expression": ["name", "none"]}
    with server.client() as client:
        while not ended.is_set():
            client.ask("query", str(root), query)
