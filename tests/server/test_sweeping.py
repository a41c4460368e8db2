"""Sweeps: with a share the server asks each directory for its own row between two scans of a large root. So names that
come, go or change anywhere are listed soon."""

import os
import re
import time
from collections import Counter
from pathlib import Path
from typing import Any, Callable, Dict, List, Tuple

from case import Timed
from client import Server, query_of_names
from shared import FEW, STRACE, listed, make_recent
from trees import FILES, fill, in_memory

# How long calls are counted, in seconds.
COUNTED = 10.0
# The first round after `watch` scans the whole root. It has ended after so many seconds.
FIRST = 3.0
# A scan of the whole root may come in one try of some.
TRIES = 5
# How many directories the large root has, of which one is recent.
DIRECTORIES = 600


class Sweeping(Timed):
    def test_names_that_change_anywhere(self) -> None:
        """Names change in directories in which nothing changed lately, and no scan of the whole root comes meanwhile: a
        file that is written in place elsewhere is not listed yet. If one does, another change is tried."""
        with in_memory(self.room) as shelf, Server(
            self.room, interval=50, share=FEW
        ) as server, server.client() as client:
            root = Path(shelf) / "large"
            fill(root)
            for turn in range(TRIES):
                gone_before(root, turn).touch()
            client.ask("watch", str(root))
            make_recent(client, root / "directory7", root)
            time.sleep(FIRST)
            for kind in range(len(changes(root, 0))):
                for turn in range(TRIES):
                    elsewhere = f"directory{400 + kind}/file{turn}"
                    (root / elsewhere).write_text("written in place")
                    what, act, name, expected = changes(root, turn)[kind]
                    act()
                    self.same(what, listed(client, root, name, len(expected)), expected)
                    found = client.ask("query", str(root), is_written(elsewhere))["files"]
                    if not found:
                        break
                self.same(f"a file that is written in place elsewhere, beside {what}", found, [])

    def test_what_rounds_ask(self) -> None:
        """Of the directories in which nothing changed lately, rounds ask for the rows again and again. They read none
        of them."""
        self.check_installed("strace")
        said = self.room / "calls"
        through = [*STRACE, "-o", str(said), "-e", "trace=statx,newfstatat,open,openat"]
        with in_memory(self.room) as shelf, Server(
            self.room, interval=100, share=FEW, through=through
        ) as server, server.client() as client:
            root = Path(shelf) / "large"
            fill(root)
            client.ask("watch", str(root))
            make_recent(client, root / "directory7", root)
            wait_for_rest(said)
            begin = said.stat().st_size
            time.sleep(COUNTED)
            asked, opened, files = counted(calls_after(said, begin))
        cold = max((count for name, count in opened.items() if name != "directory7"), default=0)
        rows = [asked[f"directory{number}"] for number in range(DIRECTORIES)]
        # A scan of the whole root may come meanwhile.
        self.check("cold directories are not read", cold <= 1, [f"one was read {cold} times"])
        self.check("files in cold directories are not asked", files <= FILES, [f"{files} were asked"])
        self.check("the recent directory is read again", opened["directory7"] > cold, [f"{opened['directory7']} times"])
        self.check("each directory is asked for its row", min(rows) > cold, [f"{min(rows)} to {max(rows)} times"])


def is_written(name: str) -> Dict[str, Any]:
    """A query for a file that has something in it, of what the server saw so far."""
    expression = ["allof", ["name", name, "wholename"], ["size", "gt", 0]]
    return {**query_of_names(), "expression": expression, "sync_timeout": 0}


def changes(root: Path, turn: int) -> List[Tuple[str, Callable[[], object], str, List[str]]]:
    """Each of these: what it is, what does it, the last part of a name, and the files of that name afterwards. Each
    turn has names of its own."""
    near, far, third = (root / f"directory{number + turn}" for number in (11, 222, 333))
    new, renamed, moved, deep, saved = (f"z{what}{turn}" for what in ("new", "renamed", "moved", "deep", "saved"))
    other, deepest = root / f"directory{555 + turn}", root / f"directory{444 + turn}" / "zin"
    return [
        ("a new file", (near / new).touch, new, [f"{near.name}/{new}"]),
        ("a file that is renamed", lambda: (far / "file2").rename(far / renamed), renamed, [f"{far.name}/{renamed}"]),
        ("a file that is moved", lambda: (far / "file3").rename(third / moved), moved, [f"{third.name}/{moved}"]),
        ("a file that went", gone_before(root, turn).unlink, gone_before(root, turn).name, []),
        ("a new directory", lambda: deep_file(deepest, deep), deep, [f"{deepest.parent.name}/zin/zbelow/{deep}"]),
        ("a file that an editor saves by a rename", lambda: save(other / saved), saved, [f"{other.name}/{saved}"]),
    ]


def gone_before(root: Path, turn: int) -> Path:
    """A file that is there from the beginning, with a name of its own."""
    return root / f"directory{340 + turn}" / f"zgone{turn}"


def deep_file(directory: Path, name: str) -> None:
    (directory / "zbelow").mkdir(parents=True)
    (directory / "zbelow" / name).touch()


def save(path: Path) -> None:
    other = path.with_suffix(".tmp")
    other.write_text("saved")
    os.replace(other, path)


def wait_for_rest(said: Path) -> None:
    """Waits until the first round has scanned the whole root: for a while nothing asks for files in cold
    directories."""
    for _ in range(30):
        begin = said.stat().st_size
        time.sleep(FIRST)
        if counted(calls_after(said, begin))[2] == 0:
            return


def calls_after(said: Path, begin: int) -> str:
    """The calls that were written from this byte on."""
    with open(said, encoding="utf-8", errors="replace") as calls:
        calls.seek(begin)
        return calls.read()


def counted(calls: str) -> Tuple["Counter[str]", "Counter[str]", int]:
    """How often each directory was asked for its row, and was read; and how many questions were about files in others
    than the recent one."""
    asked: "Counter[str]" = Counter()
    opened: "Counter[str]" = Counter()
    files = 0
    for call, path in re.findall(r'\b(statx|newfstatat|openat|open)\([^"\n]*"([^"\n]+)"', calls):
        parts = path.split("/")
        name = next((part for part in parts if part.startswith("directory")), "")
        if not name:
            continue
        if call.startswith("open"):
            opened[name] += 1
        elif parts[-1] == name:
            asked[name] += 1
        elif name != "directory7":
            files += 1
    return asked, opened, files
