"""The measures of both servers on one tree, in turn for each measure."""

import contextlib
import json
import multiprocessing
import random
import statistics
import subprocess
import time
from multiprocessing.synchronize import Event
from pathlib import Path
from typing import Callable, Dict, List, NamedTuple, Tuple

from measured import seconds_of
from served import AS_WQ, Peer, Wqd, watchman
from trees import Tree, append

HERE = Path(__file__).resolve().parent
WRITES_AT_ONCE, WRITE_PAUSE = 20, 0.01
IDLE = 10.0
TOLD = 6
DEPTH = 24
# So many names a build tool asks for in one term.
LISTED = 1_000


class Measure(NamedTuple):
    name: str
    unit: str
    # A ratio says how many times better wqd is: less is better, or more.
    is_less_better: bool = True


class Load:
    """The program of clients, compiled."""

    def __init__(self, room: Path) -> None:
        self.room = room
        self.program = room / "load"
        subprocess.run(["cc", "-O2", "-pthread", "-o", str(self.program), str(HERE / "load.c")], check=True)

    def press(
        self, sockname: str, request: bytes, clients: int, seconds: float, encoding: str = "json"
    ) -> Dict[str, float]:
        path = self.room / "request"
        path.write_bytes(request)
        said = subprocess.run(
            [str(self.program), sockname, str(clients), str(seconds), str(path), encoding],
            stdout=subprocess.PIPE,
            check=True,
        ).stdout
        found: Dict[str, float] = json.loads(said)
        if found["errors"] or found["failed"] or not found["replies"]:
            raise ValueError(f"{request[:200]!r}: {found}")
        return found


class Results:
    """Each value of each measure and server."""

    def __init__(self) -> None:
        self.measures: Dict[str, Measure] = {}
        self.values: Dict[str, Dict[str, List[float]]] = {}

    def add(self, measure: Measure, peer: str, value: float) -> None:
        self.measures[measure.name] = measure
        self.values.setdefault(measure.name, {}).setdefault(peer, []).append(value)


class Run:
    """One run: both servers are started, asked and ended."""

    def __init__(self, tree: Tree, room: Path, load: Load, results: Results, number: int, seconds: float) -> None:
        self.tree, self.room, self.load, self.results = tree, room, load, results
        self.root = str(tree.root)
        self.draw = random.Random(number)
        self.number = number
        self.seconds = seconds
        self.peers: List[Peer] = []

    def run(self) -> None:
        self.peers = [watchman(self.room), Wqd(self.room, **AS_WQ)]
        try:
            self.each(self.first_answer)
            self.queries()
            self.since()
            self.each(self.hostile)
            self.under_churn()
            self.each(self.write_to_list)
            self.idle()
        finally:
            self.end()

    def end(self) -> None:
        for peer in self.peers:
            peer.kill()

    def each(self, part: Callable[[Peer], None]) -> None:
        """Does a part for both in turn, while the other is stopped. Every second run begins with the other one."""
        for peer in self.peers if self.number % 2 == 0 else self.peers[::-1]:
            other = next(each for each in self.peers if each is not peer)
            other.pause(True)
            try:
                part(peer)
            finally:
                other.pause(False)

    def watch(self, peer: Peer) -> None:
        with peer.client() as client:
            client.ask("watch", self.root)
            client.ask("query", self.root, {"path": [{"path": "", "depth": 0}], "fields": ["name"]})

    def first_answer(self, peer: Peer) -> None:
        before = peer.memory()
        self.results.add(Measure("first answer", "s"), peer.name, seconds_of(lambda: self.watch(peer)))
        time.sleep(1)
        self.results.add(Measure("memory of an entry", "B"), peer.name, (peer.memory() - before) / self.tree.entries())

    def queries(self) -> None:
        some = ["anyof", ["suffix", "c"], ["match", "*_test.*"], ["match", "**/core*/**/*a*.js", "wholename"]]
        none = ["anyof", ["dirname", self.tree.directories[1]], ["imatch", "main*"], ["name", ["Makefile", "f1.c"]]]
        digits = ["match", "**/*[0-9]_[0-9]*7?.?", "wholename"]
        heavy = ["allof", ["type", "f"], some, ["not", none], ["size", "gt", 32], digits]
        listed = ["name", self.tree.files[:: max(1, len(self.tree.files) // LISTED)][:LISTED], "wholename"]
        queries: List[Tuple[str, Dict[str, object]]] = [
            ("names", {"fields": ["name"]}),
            ("four fields", {"fields": ["name", "exists", "new", "size"]}),
            ("suffix", {"suffix": ["md"], "fields": ["name"]}),
            ("heavy expression", {"expression": heavy, "fields": ["name"]}),
            (f"{LISTED:,} whole names", {"expression": listed, "fields": ["name"]}),
        ]
        for name, query in queries:
            self.each(lambda peer: self.median(name, peer, query, 1))
        # A directory's own entries, with an eighth of the tree below it.
        entries = {"path": [{"path": self.tree.directories[0], "depth": 0}], "fields": ["name"]}
        time.sleep(1)  # the sessions of the clients before end, so that 32 have places
        for clients in (1, 32):
            self.each(lambda peer: self.median("path with depth 0", peer, entries, clients))

    def median(self, name: str, peer: Peer, query: Dict[str, object], clients: int) -> None:
        request = json.dumps(["query", self.root, {**query, "sync_timeout": 0}]).encode() + b"\n"
        found = self.load.press(peer.sockname, request, clients, self.seconds)
        if clients == 1:
            self.results.add(Measure(name, "ms"), peer.name, found["p50"])
        else:
            self.results.add(Measure(f"{name}, {clients} clients", "/s", False), peer.name, found["per_second"])

    def since(self) -> None:
        clocks = {peer.name: self.clock(peer) for peer in self.peers}
        append(self.tree.root / self.draw.choice(self.tree.files))
        for peer in self.peers:
            self.clock(peer)
        time.sleep(1)  # the sessions of the clients before end, so that 32 have places
        for clients in (1, 32):
            self.each(
                lambda peer: self.median(
                    "recent clock", peer, {"since": clocks[peer.name], "fields": ["name"]}, clients
                )
            )

    def clock(self, peer: Peer) -> object:
        with peer.client() as client:
            return client.ask("query", self.root, {"path": [{"path": "", "depth": 0}], "fields": ["name"]})["clock"]

    def hostile(self, peer: Peer) -> None:
        """A pattern that a search which goes back again and again takes very long for."""
        root = self.room / f"hostile-{peer.name}"
        deep = root.joinpath(*["a"] * DEPTH)
        if not deep.exists():
            deep.mkdir(parents=True)
            (deep / ("a" * 200)).touch()
        with peer.client() as client:
            client.ask("watch", str(root))
            client.ask("query", str(root), {"fields": ["name"]})
            query = {"expression": ["match", "**/a/" * 10 + "b", "wholename"], "fields": ["name"], "sync_timeout": 0}
            taken = seconds_of(lambda: client.ask("query", str(root), query))
            self.results.add(Measure("hostile pattern", "ms"), peer.name, taken * 1000)
            client.ask("watch-del", str(root))

    def under_churn(self) -> None:
        """A query for a recent clock, while files are written."""
        is_over = multiprocessing.Event()
        writing = multiprocessing.Process(target=write_on, args=(self.root, self.tree.files, is_over))
        writing.start()
        try:
            time.sleep(0.5)
            self.each(self.churned)
        finally:
            is_over.set()
            writing.join()

    def churned(self, peer: Peer) -> None:
        request = json.dumps(["query", self.root, {"since": self.clock(peer), "fields": ["name"], "sync_timeout": 0}])
        found = self.load.press(peer.sockname, request.encode() + b"\n", 1, self.seconds)
        self.results.add(Measure("recent clock, files are written", "ms"), peer.name, found["p50"])

    def write_to_list(self, peer: Peer) -> None:
        """From a write until a subscription tells of it; and until a query that synchronises does."""
        with peer.client() as client:
            clock = self.clock(peer)
            client.ask("subscribe", self.root, "s", {"since": clock, "fields": ["name"]})
            if peer.name == "wqd":
                client.next_list()  # its first list comes without files too
            told, answered = [], []
            for _ in range(TOLD):
                time.sleep(1 + self.draw.random())
                name = self.draw.choice(self.tree.files)
                told.append(seconds_of(lambda: client.hears_of_a_write(self.tree.root, name)) * 1000)
                time.sleep(self.draw.random())
                append(self.tree.root / name)
                query = {"since": clock, "fields": ["name"]}
                answered.append(seconds_of(lambda: client.ask("query", self.root, query)) * 1000)
            self.results.add(Measure("write to list", "ms"), peer.name, statistics.median(told))
            self.results.add(Measure("write to answer", "ms"), peer.name, statistics.median(answered))

    def idle(self) -> None:
        """Processor time of both while nothing happens and a client is connected. Without one wqd scans nothing."""
        with contextlib.ExitStack() as connected:
            for peer in self.peers:
                connected.enter_context(peer.client())
            time.sleep(2)
            before, began = {peer.name: peer.processor_seconds() for peer in self.peers}, time.monotonic()
            time.sleep(IDLE)
            for peer in self.peers:
                used = (peer.processor_seconds() - before[peer.name]) / (time.monotonic() - began)
                self.results.add(Measure("idle", "%"), peer.name, used * 100)


def write_on(root: str, files: List[str], is_over: Event) -> None:
    draw = random.Random(5)
    while not is_over.is_set():
        for _ in range(WRITES_AT_ONCE):
            append(Path(root, draw.choice(files)))
        time.sleep(WRITE_PAUSE)
