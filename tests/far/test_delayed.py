"""Trees each of whose answers takes long, as over a network: `strace` delays the calls of the server."""

import shutil
import threading
import time
from pathlib import Path
from typing import List

from case import Timed
from client import A_HOUR, Client, Server, walked
from follower import Follower, make_tree

CALLS = "statx,openat,getdents64"
# Of each call, in microseconds.
DELAY = 1_000
# A scan of so many files has one thread.
FEW = 90
# How much longer than without rounds a query may take beside them.
LONGEST = 1.4


def delayed(microseconds: int = DELAY) -> List[str]:
    """The words before a server whose every answer of a disk is late."""
    calls = ["-e", f"trace={CALLS}", "-e", f"inject={CALLS}:delay_enter={microseconds}"]
    return ["strace", "-f", "-D", "-qq", "--seccomp-bpf", "-o", "/dev/null", *calls]


class Delayed(Timed):
    def test_delayed_answers(self) -> None:
        """Each answer is right, by one thread and by several."""
        self.check_installed("strace")
        for workers in (1, 4, 16):
            root = self.room / f"tree-{workers}"
            make_tree(root)
            with Server(self.room, interval=A_HOUR, workers=workers, through=delayed()) as server:
                with Follower(self, server, root) as follower:
                    self.check_changes(follower, root, f"{workers} workers")
                    self.same(f"the end, {workers} workers", server.shut_down(follower.client), 0)

    def check_changes(self, follower: Follower, root: Path, name: str) -> None:
        follower.takes(f"a first answer, {name}")
        (root / "d0" / "f1").write_text("longer")
        (root / "d1" / "new").touch()
        (root / "d2" / "f0").unlink()
        found = follower.takes(f"files that changed, {name}")
        self.same(f"their names, {name}", [name for name in found if "/" in name], ["d0/f1", "d1/new", "d2/f0"])
        (root / "d3").rename(root / "d4")
        shutil.rmtree(root / "d2")
        follower.takes(f"directories that moved and went, {name}")

    def test_a_change_in_a_walk(self) -> None:
        """A file that changes while the tree is scanned is in that answer or in the next one. A client of another root
        is answered beside that."""
        self.check_installed("strace")
        root, other = self.room / "tree", self.room / "other"
        make_tree(root, 6, 12)
        make_tree(other, 1, 1)
        with Server(self.room, interval=A_HOUR, through=delayed(2 * DELAY)) as server, Follower(
            self, server, root
        ) as follower:
            follower.takes("a first answer")
            writer = threading.Timer(0.05, lambda: [path.write_text("now") for path in root.glob("d*/f*")])
            writer.start()
            follower.client.ask("query", str(root), {"fields": ["name"]})
            writer.join()
            found = follower.takes("what changed in a walk")
            self.same("each of these files", len([name for name in found if "/f" in name]), 6 * 12)
            with server.client(other) as second:
                found = second.ask("query", str(other), {"fields": ["name"]})["files"]
                self.same("another root", sorted(found), [row[0] for row in walked(other)])
            self.same("the end", server.shut_down(follower.client), 0)

    def test_many_threads(self) -> None:
        """Many threads look at a slow tree, also if each of its directories has as many files."""
        self.check_installed("strace")
        root, said = self.room / "tree", self.room / "calls"
        make_tree(root, 40, 25)
        words = [
            "strace",
            "-f",
            "-D",
            "-qq",
            "-o",
            str(said),
            "-e",
            "trace=statx",
            "-e",
            f"inject=statx:delay_enter={DELAY}",
        ]
        with Server(self.room, interval=A_HOUR, through=words) as server, Follower(self, server, root) as follower:
            follower.takes("a first answer")
            follower.takes("a second answer")
            before = said.stat().st_size
            follower.takes("an answer by many threads")
            with open(said, "rb") as calls:
                calls.seek(before)
                threads = {line.split()[0] for line in calls if line.count(b"statx")}
            self.check("many threads look at once", len(threads) >= 8, [f"{len(threads)} threads"])
            self.same("the end", server.shut_down(follower.client), 0)

    def test_delayed_notice(self) -> None:
        """With a share and a short interval a list of a subscription comes for each way in which files are saved."""
        self.check_installed("strace")
        root = self.room / "tree"
        make_tree(root)
        with Server(self.room, interval=100, share=10, through=delayed()) as server, Follower(
            self, server, root
        ) as follower:
            follower.takes("a first answer")
            follower.client.ask("subscribe", str(root), "s", {"fields": ["name"]})
            follower.client.reply()
            (root / "d1" / "f1").write_text("in place")
            follower.hears_of("d1/f1")
            (root / "d1" / "aside").write_text("by a rename")
            (root / "d1" / "aside").replace(root / "d1" / "f2")
            follower.hears_of("d1/f2")
            (root / "d3" / "new").mkdir()
            (root / "d3" / "new" / "file").touch()
            follower.hears_of("d3/new/file")
            with server.client() as last:
                self.same_end(server, last)

    def test_a_round_gives_way(self) -> None:
        """Rounds scan a slow root all the time. A query does not wait until the scan of a round ends: it would take up
        to two scans, and one and a half on average."""
        self.check_installed("strace")
        root = self.room / "tree"
        # Too few files for a second thread.
        make_tree(root, 1, FEW)
        with Server(self.room, interval=A_HOUR, through=delayed(4 * DELAY)) as server, server.client(root) as client:
            alone = [seconds_of_a_query(client, root) for _ in range(4)]
            self.same_end(server, client)
        with Server(self.room, interval=10, through=delayed(4 * DELAY)) as server, server.client(root) as client:
            # Pauses of several lengths, so that the queries fall into different parts of a scan.
            beside = [seconds_of_a_query(client, root, 0.05 + number * 0.07) for number in range(8)]
            self.same_end(server, client)
        lines = [f"alone {sorted(alone)}, beside rounds {sorted(beside)}"]
        self.check("a query beside rounds of a slow tree", max(beside) < LONGEST * min(alone), lines)

    def same_end(self, server: Server, client: Client) -> None:
        self.same("the end beside a subscription", server.shut_down(client), 0)


def seconds_of_a_query(client: Client, root: Path, pause: float = 0.0) -> float:
    """How long a query takes that scans, after a pause."""
    time.sleep(pause)
    began = time.monotonic()
    client.ask("query", str(root), {"expression": ["name", "no"], "fields": ["name"]})
    return time.monotonic() - began
