"""Clients that subscribe to a root: each hears of the changes there, until it asks for no more, or the root is
deleted."""

import select
import time
from pathlib import Path
from typing import Sequence

from case import Case
from client import VERSION, Client, Server

# Idle moments follow rounds of crawls. In this many seconds several of both have come.
QUIET = 0.5
# The longest that a list may take, in seconds, with an interval of 20 milliseconds. Other work of the machine may hold
# up one of some.
LATE = 5.0
TRIES = 3


class Subscribing(Case):
    def test_subscriptions(self) -> None:
        """Two clients hear of a file that is written and of one that goes. One asks for no more; the root's end is told
        to the other, once."""
        root = self.directory("tree")
        (root / "first").touch()
        with Server(self.room, interval=20) as server, server.client() as asker:
            with server.client() as one, server.client() as two:
                asker.ask("watch", str(root))
                for client, name in ((one, "one"), (two, "two")):
                    self.check_a_first_list(client, root, name)
                self.check_another_root(asker, one, two, self.room / "other")
                self.check_a_file_that_is_written(one, two, root)
                self.check_a_file_that_goes(one, two, root)
                self.check_an_end(asker, one, two, root)
            self.same("the server ends after its subscribers", server.shut_down(asker), 0)

    def check_a_first_list(self, client: Client, root: Path, name: str) -> None:
        """A subscription is answered, and its first list follows at once."""
        reply = client.ask("subscribe", str(root), name, {"fields": ["name", "exists"]})
        self.same(f"{name} subscribes", without_clock(reply), {"subscribe": name, **VERSION})
        files = [{"exists": True, "name": "first"}]
        first = client.reply()
        self.same(f"the first list of {name}", without_clock(first), list_of(root, name, files, True))
        self.same(f"the clock of the first list of {name}", first.get("clock"), reply.get("clock"))

    def check_another_root(self, asker: Client, one: Client, two: Client, other: Path) -> None:
        """A root to which nobody subscribed is watched, and has a new file: nobody is told."""
        other.mkdir()
        asker.ask("watch", str(other))
        (other / "file").touch()
        for client, name in ((one, "one"), (two, "two")):
            self.check(f"{name} hears nothing of another root", is_quiet(client))

    def check_a_file_that_is_written(self, one: Client, two: Client, root: Path) -> None:
        """Both are told of a new file, once, and each still has its replies."""
        for file in ["second", *(f"second{number}" for number in range(1, TRIES))]:
            start = time.monotonic()
            (root / file).touch()
            files = [{"exists": True, "name": file}]
            for client, name in ((one, "one"), (two, "two")):
                self.same(f"{name} hears of a file", without_clock(client.reply()), list_of(root, name, files, False))
            took = time.monotonic() - start
            if took < LATE:
                break
        self.check("both hear of it soon", took < LATE, [f"{took:.3f} seconds"])
        for client, name in ((one, "one"), (two, "two")):
            self.check(f"{name} hears of it once", is_quiet(client))
            self.same(f"{name} is answered", client.ask("version"), VERSION)

    def check_a_file_that_goes(self, one: Client, two: Client, root: Path) -> None:
        """One asks for no more, and the other hears of a file that went."""
        reply = one.ask("unsubscribe", str(root), "one")
        self.same("one asks for no more", reply, {"deleted": True, "unsubscribe": "one", **VERSION})
        (root / "second").unlink()
        files = [{"exists": False, "name": "second"}]
        self.same("two hears of a file that went", without_clock(two.reply()), list_of(root, "two", files, False))
        self.check("one hears no more", is_quiet(one))
        reply = one.ask("unsubscribe", str(root), "one")
        self.same("one asks for no more again", reply, {"deleted": False, "unsubscribe": "one", **VERSION})

    def check_an_end(self, asker: Client, one: Client, two: Client, root: Path) -> None:
        """Another client deletes the root. The subscriber hears of that once, and not when the root is watched anew."""
        asker.ask("watch-del", str(root))
        canceled = {"canceled": True, "root": str(root), "subscription": "two", "unilateral": True, **VERSION}
        self.same("two hears that the root is deleted", two.reply(), canceled)
        asker.ask("watch", str(root))
        (root / "third").touch()
        for client, name in ((one, "one"), (two, "two")):
            self.check(f"{name} hears nothing of the root that is watched anew", is_quiet(client))

    def test_a_root_that_came_and_went(self) -> None:
        """A root is watched, subscribed to and deleted before the next round of crawls. The subscriber still hears that
        it ended."""
        root = self.directory("tree")
        with Server(self.room, interval=1000) as server, server.client() as asker, server.client() as one:
            self.same("a subscriber is there", one.ask("version"), VERSION)
            asker.ask("watch", str(root))
            one.ask("subscribe", str(root), "one", {"fields": ["name"]})
            self.same("the first list", without_clock(one.reply()), list_of(root, "one", [], True))
            asker.ask("watch-del", str(root))
            canceled = {"canceled": True, "root": str(root), "subscription": "one", "unilateral": True, **VERSION}
            self.same("the end of a root that came and went", one.reply(), canceled)


def list_of(root: Path, name: str, files: Sequence[object], is_fresh: bool) -> dict:
    """A list without its clock."""
    return {
        "files": files,
        "is_fresh_instance": is_fresh,
        "root": str(root),
        "subscription": name,
        "unilateral": True,
        **VERSION,
    }


def without_clock(line: dict) -> dict:
    return {key: value for key, value in line.items() if key != "clock"}


def is_quiet(client: Client) -> bool:
    """Whether nothing comes for a while."""
    return not client.read and not select.select([client.socket], [], [], QUIET)[0]
