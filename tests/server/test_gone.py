"""Roots whose directory goes and comes back."""

import shutil
import time
from pathlib import Path

from case import Case
from client import A_HOUR, ENDED, VERSION, Client, Server, query_of_names
from shared import UNREADABLE, told, told_of
from trees import fill_directory
from waiting import wait_until

NOT_WATCHED = {"error": "E14: root is not watched", **VERSION}


class Gone(Case):
    def test_roots_that_go(self) -> None:
        """A root that can no longer be read is told of once, in a line in which it is JSON. When it is back it is
        crawled again, and when it goes again it is told of anew."""
        root, away = self.room / 'a "tree"\nof two lines \u00fc', self.room / "away"
        root.mkdir()
        (root / "a").touch()
        with Server(self.room, interval=20) as server, server.client(root) as client:
            shutil.move(root, away)
            line, back = told_of(root), told_back(root)
            said = f"listening on {server.sockname}\n".encode() + line
            self.check("it is told of", server.says(said))
            shutil.move(away, root)
            (root / "b").touch()
            self.same("a root that is back", client.ask("query", str(root), query_of_names())["files"], ["a", "b"])
            (root / "c").touch()
            seen = client.ask_until("query", str(root), {"sync_timeout": 0}, lambda reply: len(reply["files"]) == 3)
            self.same("a root that is back, seen by the crawler", len(seen["files"]), 3)
            self.check("it is told that it is back", server.says(said + back))
            shutil.rmtree(root)
            self.check("it is told of anew", server.says(said + back + line))
            self.check_its_end(client, root)
            self.same("the end of a server that told of a root", server.shut_down(client), 0)
            self.same("what is told, once each time", server.errors(), said + back + line + ENDED)

    def test_a_root_that_went(self) -> None:
        """A root that is shown and whose directory went between two crawls: its view stays."""
        root = self.directory("tree")
        (root / "a").touch()
        with Server(self.room, interval=A_HOUR) as server, server.client(root) as client:
            shutil.move(root, self.room / "away")
            self.check_its_view(client, root)

    def check_its_view(self, client: Client, root: Path) -> None:
        """A root whose directory is gone is watched, and what does not crawl it is answered."""
        clock = {"clock": "c:7:9:1:1", **VERSION}
        reply = client.ask("watch", str(root))
        self.same("a watch of a root that went", reply, {"watch": str(root), "watcher": "poll", **VERSION})
        self.same("its place in the list", client.ask("watch-list"), {"roots": [str(root)], **VERSION})
        self.same("a query of it", client.ask("query", str(root), {}), UNREADABLE)
        self.same("a query with a time", client.ask("query", str(root), {"sync_timeout": 10}), UNREADABLE)
        self.same("a query below zero", client.ask("query", str(root), {"sync_timeout": -1}), UNREADABLE)
        reply = client.ask("query", str(root), {"sync_timeout": 0, **query_of_names()})
        self.same("its view", reply, {"files": ["a"], "is_fresh_instance": True, **clock})
        self.same("its clock", client.ask("clock", str(root)), clock)
        self.same("its clock with a time", client.ask("clock", str(root), {"sync_timeout": 10}), UNREADABLE)

    def test_a_root_that_goes_during_walks(self) -> None:
        """A root that goes while it is walked, and is away for longer than a walk: no file of it is listed as gone. The
        operator is told that it could not be read."""
        root, away = self.room / "tree", self.room / "away"
        for number in range(40):
            fill_directory(root / f"directory{number:02}", 500)
        with Server(self.room, interval=20) as server, server.client(root) as client:
            first = client.ask("clock", str(root))["clock"]
            seconds = seconds_of_a_crawl(client, root)
            for turn in range(5):
                shutil.move(root, away)
                self.check(f"a walk found it gone, turn {turn}", is_told(server, told_of(root), turn + 1))
                shutil.move(away, root)
                self.check(f"a walk found it again, turn {turn}", is_told(server, told_back(root), turn + 1))
                # Then it goes at another moment of a walk.
                time.sleep((1 + turn / 5) * max(0.1, seconds))
            reply = client.ask("query", str(root), {"since": first, **query_of_names()})
            self.same("a root that went during walks", (reply["files"], reply["clock"]), ([], first))

    def test_a_root_that_is_deleted_during_walks(self) -> None:
        """A root that is moved away while it is walked, and deleted there at once: no file of it is listed as gone.
        Made again of the same files, it is as it was."""
        root, away = self.room / "tree", self.room / "away"
        for number in range(40):
            fill_directory(root / f"directory{number:02}", 100)
        copies = [shutil.copytree(root, self.room / f"copy{number}") for number in range(3)]
        with Server(self.room, interval=20) as server, server.client(root) as client:
            first = client.ask("clock", str(root))["clock"]
            seconds = seconds_of_a_crawl(client, root)
            for turn, copy in enumerate(copies):
                root.rename(away)
                shutil.rmtree(away)
                self.check(f"a walk found it deleted, turn {turn}", is_told(server, told_of(root), turn + 1))
                Path(copy).rename(root)
                self.check(f"a walk found the next one, turn {turn}", is_told(server, told_back(root), turn + 1))
                time.sleep((1 + turn / 3) * max(0.1, seconds))
            reply = client.ask("query", str(root), {"since": first, **query_of_names()})
            self.same("a root that was deleted during walks", (reply["files"], reply["clock"]), ([], first))

    def check_its_end(self, client: Client, root: Path) -> None:
        """A root that is gone can be deleted, and then not be watched."""
        reply = client.ask("watch-del", str(root))
        self.same("the end of a root that went", reply, {"root": str(root), "watch-del": True, **VERSION})
        self.same("a watch of what is not there", client.ask("watch", str(root)), UNREADABLE)
        self.same("a query of what is not watched", client.ask("query", str(root), {"sync_timeout": 0}), NOT_WATCHED)


def told_back(root: Path) -> bytes:
    return told(root, "the root is crawled again")


def is_told(server: Server, line: bytes, count: int) -> bool:
    """Whether the operator comes to be told a line so many times."""
    return wait_until(lambda: server.errors().count(line) == count)


def seconds_of_a_crawl(client: Client, root: Path) -> float:
    """How long a query takes that crawls, and waits for a crawl that goes on before that: a crawl at least."""
    began = time.monotonic()
    client.ask("query", str(root), {"expression": "false"})
    return time.monotonic() - began
