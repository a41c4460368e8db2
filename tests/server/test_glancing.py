"""Glances: between two walks of a large root the server reads only directories in which something changed lately."""

import itertools
import random
import shutil
import statistics
import time
from pathlib import Path
from typing import Any, Dict, List, Tuple

from case import Timed
from client import Client, Server, query_of_names, walked
from shared import FEW, listed, make_recent
from trees import fill
from waiting import look_until

# How long the server pauses between two rounds, in seconds, and how much of a processor rounds may take.
INTERVAL = 0.5
PERCENT = 10
WRITES = 12
# A glance, a list and a busy machine add this to two intervals, in seconds.
LATE = 0.3
# How long files come and go at random, in seconds.
SOAK = 20.0
# A scan of the whole root may come in one try of some.
TRIES = 5
FIELDS = ["name", "exists", "type", "size", "mtime_ms"]

Picture = Dict[str, Tuple[str, int, int]]


class Glancing(Timed):
    def test_glances(self) -> None:
        """What changes in a directory of a large root in which something changed lately is listed within two
        intervals."""
        root = self.room / "large"
        fill(root)
        with Server(self.room, interval=round(INTERVAL * 1000), share=PERCENT) as server, server.client(root) as client:
            make_recent(client, root / "directory7", root)
            client.ask("subscribe", str(root), "new", {**query_of_names(), "expression": ["match", "new*"]})
            client.reply()
            numbers = itertools.count()

            def seconds_until_lists() -> List[float]:
                paths = [root / "directory7" / f"new{next(numbers)}" for _ in range(WRITES)]
                return [seconds_until_a_list(client, path) for path in paths]

            # Other work of the machine may hold up the lists of one try.
            took = look_until(seconds_until_lists, lambda took: statistics.median(took) < 2 * INTERVAL + LATE)
        lines = [f"{statistics.median(took):.3f} seconds at the median, {max(took):.3f} at most"]
        self.check("a list of a recent directory", statistics.median(took) < 2 * INTERVAL + LATE, lines)

    def test_what_glances_see(self) -> None:
        """Directories that come and go, and those whose names change, are seen by glances. A file that is written
        elsewhere is not, until the next walk."""
        root = self.room / "large"
        near, far = root / "directory7", root / "directory300"
        fill(root)
        with Server(self.room, interval=50, share=FEW) as server, server.client(root) as client:
            make_recent(client, near, root)
            (near / "in" / "deep").mkdir(parents=True)
            (near / "in" / "deep" / "zfile").touch()
            self.same("a new directory", listed(client, root, "zfile", 1), ["directory7/in/deep/zfile"])
            (near / "in").rename(near / "out")
            found = listed(client, root, "zfile", 1, "directory7/out")
            self.same("a directory that was moved", found, ["directory7/out/deep/zfile"])
            shutil.rmtree(near / "out")
            self.same("a directory that went", listed(client, root, "zfile", 0), [])
            (far / "zfar").touch()
            self.same("a new name one directory off", listed(client, root, "zfar", 1), ["directory300/zfar"])
            self.check_a_file_elsewhere(client, root)

    def check_a_file_elsewhere(self, client: Client, root: Path) -> None:
        """A file is written where nothing changed lately: glances pass it over, and a query that synchronises does
        not. If the next walk comes just then, another one is written."""
        for number in range(TRIES):
            elsewhere, beside = f"directory{400 + number}/file1", f"zlast{number}"
            (root / elsewhere).write_text("text")
            is_written: Dict[str, Any] = {
                **query_of_names(),
                "expression": ["allof", ["name", elsewhere, "wholename"], ["size", "gt", 0]],
            }
            (root / "directory7" / beside).touch()
            found = listed(client, root, beside, 1)
            self.same("a file beside one that is written elsewhere", found, [f"directory7/{beside}"])
            early = client.ask("query", str(root), {**is_written, "sync_timeout": 0})["files"]
            late = client.ask("query", str(root), is_written)["files"]
            if not early:
                break
        self.same("a file that is written elsewhere", (early, late), ([], [elsewhere]))

    def test_glances_in_the_long_run(self) -> None:
        """Files come, change and go at random for a while. What a subscriber heard of is then what a walk finds."""
        root, dice = self.room / "large", random.Random(5)
        fill(root)
        with Server(self.room, interval=50, share=FEW) as server, server.client() as client, server.client() as other:
            client.ask("watch", str(root))
            client.ask("subscribe", str(root), "all", {"fields": FIELDS})
            picture: Picture = {}
            take(picture, client.reply())
            end = time.monotonic() + SOAK
            while time.monotonic() < end:
                change(root, dice)
                time.sleep(dice.uniform(0.0, 0.05))
            other.ask("query", str(root), {**query_of_names(), "expression": ["name", "none"]})
            is_right = comes_to(picture, client, root)
        self.check("what a subscriber heard of in the end", is_right, [f"{len(picture)} files"])


def seconds_until_a_list(client: Client, path: Path) -> float:
    """How long it takes from a new file, at any moment of an interval, to the list that has it."""
    time.sleep(random.uniform(0.0, 2 * INTERVAL))
    path.touch()
    began = time.monotonic()
    while not any(name.endswith(path.name) for name in client.reply().get("files", [])):
        pass
    return time.monotonic() - began


def change(root: Path, dice: random.Random) -> None:
    """Makes, writes, moves or deletes something, most often in a few directories."""
    directory = root / f"directory{dice.randrange(4) if dice.random() < 0.9 else dice.randrange(600)}"
    path = directory / f"name{dice.randrange(8)}"
    act = dice.randrange(5)
    if act == 0 and not path.exists():
        (path / "sub" / "deep").mkdir(parents=True)
        (path / "sub" / "deep" / "file").touch()
    elif act == 1 and path.is_dir():
        shutil.rmtree(path)
    elif act == 2 and path.exists():
        target = directory / f"name{dice.randrange(8)}"
        if not target.exists():
            path.rename(target)
    elif act == 3 and path.is_dir():
        (path / "sub" / f"more{dice.randrange(5)}").write_text("x" * dice.randrange(100))
    elif not path.is_dir():
        path.write_text("y" * dice.randrange(100))


def take(picture: Picture, reply: dict) -> None:
    """A subscriber takes a list in."""
    for file in reply.get("files", []):
        if file["exists"]:
            picture[file["name"]] = (file["type"], file["size"], file["mtime_ms"])
        else:
            picture.pop(file["name"], None)


def comes_to(picture: Picture, client: Client, root: Path) -> bool:
    """Whether the lists of a subscriber come to what a walk finds."""
    right = {row[0]: row[1:] for row in walked(root)}
    for _ in range(1000):
        if picture == right:
            return True
        take(picture, client.reply())
    return False
