"""A server that can open no more files."""

import os
import resource
import threading
import time
from pathlib import Path

from case import Case
from client import A_HOUR, ENDED, Client, Server, query_of_names
from trees import fill_directory
from shared import UNREADABLE, told
from waiting import wait_until

DIRECTORIES = 100
FILES = 40
MOST_ROUNDS = 2_000
ROUNDS = 60
# How often the handles are looked at, since a walk may hold some for longer where others work too.
LOOKS = 50
OTHERS = 5


class Scarcity:
    """Time and again a process can open no more files, and then it can."""

    def __init__(self, process: int) -> None:
        self.process = process
        self.least = least_handle(process)
        self.most = resource.prlimit(process, resource.RLIMIT_NOFILE)[1]
        self.ended = threading.Event()
        self.thread = threading.Thread(target=self.go_on)

    def __enter__(self) -> None:
        self.thread.start()

    def __exit__(self, *_: object) -> None:
        self.ended.set()
        self.thread.join()
        self.allow(self.most)

    def allow(self, limit: int) -> None:
        resource.prlimit(self.process, resource.RLIMIT_NOFILE, (limit, self.most))

    def go_on(self) -> None:
        while not self.ended.is_set():
            self.allow(self.least)
            time.sleep(0.0005)
            self.allow(self.most)
            time.sleep(0.002)


class Handles(Case):
    def test_no_handles(self) -> None:
        """Directories of a tree that cannot be opened for want of handles: no file of it is told as gone."""
        root = self.room / "tree"
        for directory in range(DIRECTORIES):
            fill_directory(root / f"directory{directory:03}", FILES)
        with Server(self.room, interval=A_HOUR) as server, server.client(root) as client:
            first = client.ask("clock", str(root))["clock"]
            with Scarcity(server.process.pid):
                replies = [crawl(client, root, first) for _ in range(ROUNDS)]
                # On a busy machine each of them may fall into a time with handles.
                while UNREADABLE not in replies and len(replies) < MOST_ROUNDS:
                    replies.append(crawl(client, root, first))
            refused = replies.count(UNREADABLE)
            told = [reply["files"] for reply in replies if reply != UNREADABLE]
            self.check(f"a crawl that wants for handles is refused, of {len(replies)}: {refused}", refused > 0)
            self.same("files told as changed for want of handles", told, [[]] * len(told))
            reply = crawl(client, root, first)
            self.same("a crawl with handles again", (reply["files"], reply["clock"]), ([], first))

    def test_no_handles_are_told(self) -> None:
        """The server says want of handles to the operator by its name, once for each time, and answers a client as
        before. When there are handles again, the root is crawled as if nothing had been."""
        root = self.room / "tree"
        fill_directory(root, 1)
        with Server(self.room, interval=20) as server, server.client(root) as client:
            line, scarcity = told(root, "no file handle is left"), Scarcity(server.process.pid)
            back = told(root, "the root is crawled again")
            said = f"listening on {server.sockname}\n".encode()
            for turn in (1, 2):
                scarcity.allow(scarcity.least)
                self.check(
                    f"want of handles is told by its name, {turn}", server.says(said + line), [repr(server.errors())]
                )
                self.same(
                    f"a crawl without handles, {turn}", client.ask("query", str(root), query_of_names()), UNREADABLE
                )
                scarcity.allow(scarcity.most)
                (root / f"after{turn}").touch()
                seen = client.ask_until(
                    "query", str(root), {"sync_timeout": 0}, lambda reply: len(reply["files"]) == 1 + turn
                )
                self.same(f"a crawl with handles again, {turn}", len(seen["files"]), 1 + turn)
                said += line + back
                self.check(f"it is told that the root is back, {turn}", server.says(said), [repr(server.errors())])
            self.same("the end of a server that wanted for handles", server.shut_down(client), 0)
            self.same("what is told, once each time", server.errors(), said + ENDED)

    def test_clients_that_went(self) -> None:
        """A client that goes gives its handle back before anybody else comes. So queries of another client find
        handles."""
        root = self.directory("tree")
        (root / "a").touch()
        with Server(self.room, interval=A_HOUR) as server, server.client(root) as client:
            # Its first round may have the root open.
            before = server.least(lambda: handles(server))
            others = [server.client() for _ in range(OTHERS)]
            self.same("clients beside it", [other.has_session() for other in others], [True] * OTHERS)
            for other in others:
                other.close()
            self.check(
                "handles of clients that went",
                wait_until(lambda: handles(server) == before),
                [f"{handles(server)}, not {before}"],
            )
            self.same("a crawl after they went", client.ask("query", str(root), query_of_names())["files"], ["a"])


def handles(server: Server) -> int:
    return len(os.listdir(f"/proc/{server.process.pid}/fd"))


def crawl(client: Client, root: Path, since: str) -> dict:
    """What changed in a tree that is crawled for the answer."""
    return client.ask("query", str(root), {"since": since, **query_of_names()})


def least_handle(process: int) -> int:
    """The number that the next file has that the process opens, if no walk has a directory open."""
    looks = []
    for _ in range(LOOKS):
        looks.append(next_handle(process))
        time.sleep(0.01)
    return min(looks)


def next_handle(process: int) -> int:
    """The number that the next file has that the process opens."""
    used = {int(name) for name in os.listdir(f"/proc/{process}/fd")}
    return next(number for number in range(len(used) + 1) if number not in used)
