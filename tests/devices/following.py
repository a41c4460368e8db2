"""Clients that follow a tree while calls of the server fail."""

import time
from pathlib import Path
from typing import Any, Dict, List, Optional, Set

from client import PATIENCE, VERSION, Client, Server
from pictures import Picture

READING = {**VERSION, "error": "E11: root cannot be read"}
FIELDS = ["name", "exists"]
TURNS = 12
CURSOR = "n:follower"
# Two calls fail, so the third crawl goes well.
CRAWLS = 3


def watched(server: Server, root: Path, client: Optional[Client] = None) -> bool:
    """Has a client watch the root, and says whether it is watched. Two of the lines may be refused, or the session may
    end."""
    asking = client or server.client()
    asking.send_bytes((asking.text(["watch", str(root)]) + b"\n") * CRAWLS)
    try:
        for _ in range(CRAWLS):
            asking.reply()
    except (ValueError, ConnectionResetError):
        pass
    return (client or server.client()).ask("watch-list").get("roots") == [str(root)]


class Judged(Picture):
    """The files that a client knows of, and what was wrong in what it was told. A file of which a walk may have seen
    nothing can go and come back between two lists. So it may be told although the client knows it."""

    def __init__(self, lost: Set[str]) -> None:
        super().__init__()
        self.lost = lost
        self.wrong: List[str] = []

    def judge(self, files: List[dict], truth: Set[str]) -> None:
        """A list tells of no file what the client knows already, and of none that is there but was not made."""
        for file in files:
            if file["exists"] == (file["name"] in self.known) and file["name"] not in self.lost:
                self.wrong.append(f"told twice: {file}")
            self.take([file])
        if not self.names() <= truth:
            self.wrong.append(f"told of what is not there: {sorted(self.known)}")

    def lacks(self, truth: Set[str]) -> None:
        self.wrong.append(f"it knows {sorted(self.known)} of {sorted(truth)}")


class Follower(Judged):
    """A client that asks in one session what changed by a cursor."""

    def __init__(self, server: Server, root: Path, lost: Set[str]) -> None:
        super().__init__(set())
        self.root, self.client = root, server.client()
        self.is_first = True

    def follow(self, truth: Set[str]) -> None:
        """Asks until it knows all. The root cannot be read meanwhile, or it can."""
        for _ in range(TURNS):
            reply = self.client.ask("query", str(self.root), {"fields": FIELDS, "since": CURSOR})
            if reply == READING:
                continue
            if reply.get("is_fresh_instance") is not self.is_first:
                self.wrong.append(f"fresh or not: {reply}")
            self.is_first = False
            self.judge(reply["files"], truth)
            if self.names() == truth:
                return
        self.lacks(truth)


class Caller(Judged):
    """A client whose sessions end, and that asks in each what changed since the last clock that it read. A cursor is no
    help: one whose reply was cut has moved."""

    def __init__(self, server: Server, root: Path, lost: Set[str]) -> None:
        super().__init__(lost)
        self.server, self.root = server, root
        self.clock = ""

    def follow(self, truth: Set[str]) -> None:
        """Asks until it knows all. Of a session that crawls three times replies may be cut; the next one does not
        crawl."""
        for _ in range(TURNS):
            crawling: List[dict] = [{}] * CRAWLS
            for lines in (crawling, [{"sync_timeout": 0}]):
                self.take_last(self.replies(lines), truth)
                if self.names() == truth:
                    return
        self.lacks(truth)

    def replies(self, lines: List[dict]) -> List[dict]:
        """What comes of a session to which these queries are sent at once."""
        since: Dict[str, Any] = {"since": self.clock} if self.clock else {}
        found = []
        with self.server.client() as client:
            client.send_bytes(
                b"".join(
                    client.text(["query", str(self.root), {**since, "fields": FIELDS, **more}]) + b"\n"
                    for more in lines
                )
            )
            try:
                for _ in lines:
                    found.append(client.reply())
            except (ValueError, ConnectionResetError):
                pass
            if client.read:
                self.wrong.append(f"a part of a reply: {client.read!r}")
        return found

    def take_last(self, replies: List[dict], truth: Set[str]) -> None:
        """Each reply tells what changed since the same clock."""
        lists = [reply for reply in replies if reply != READING]
        for reply in lists:
            if reply.get("is_fresh_instance") is not (not self.clock):
                self.wrong.append(f"fresh or not: {reply}")
        if lists:
            self.clock = lists[-1]["clock"]
            self.judge(lists[-1]["files"], truth)


class Subscriber(Judged):
    """A client that subscribes, and that subscribes anew from the last clock that it read if its session ended."""

    def __init__(self, server: Server, root: Path, lost: Set[str]) -> None:
        super().__init__(lost)
        self.server, self.root = server, root
        self.clock = ""
        self.begin()

    def begin(self) -> None:
        since: Dict[str, Any] = {"since": self.clock} if self.clock else {}
        self.client = self.server.client()
        self.client.send("subscribe", str(self.root), "s", {**since, "fields": FIELDS})

    def hear(self, truth: Set[str]) -> None:
        """Hears lists until it knows all. Lists of walks from before may come first: what it knows may still be
        there."""
        end, lawful = time.monotonic() + PATIENCE, truth | self.names()
        while self.names() != truth:
            if time.monotonic() > end:
                self.lacks(truth)
                return
            self.hear_line(lawful)

    def hear_line(self, lawful: Set[str]) -> None:
        try:
            line = self.client.reply()
        except (ValueError, ConnectionResetError):
            if self.client.read:
                self.wrong.append(f"a part of a line: {self.client.read!r}")
            self.client.close()
            self.begin()
            return
        if "files" in line:
            self.clock = line["clock"]
            self.judge(line["files"], lawful)
        elif "subscribe" not in line:
            self.wrong.append(f"another line: {line}")
