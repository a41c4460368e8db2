"""Servers whose disk, socket or clients fail."""

import time
from pathlib import Path
from typing import Callable, List, Set, Tuple

from case import Case
from client import A_HOUR, PATIENCE, VERSION, Client, Server
from injected import STRACE, Fault, names_in, run

# The process that is started is the server, and not `strace`.
SERVED = [*STRACE, "-D"]
READING = "E11: root cannot be read"
DIRECTORIES = 4
EACH = 3
# A root that could not be read is watched so often.
TURNS = 4
# A walk of the tree takes less of any call.
MOST_OF_A_WALK = 120
NO_PLACE = b"cannot listen\n"
ADDED = "V1FQRgEAAAAAAAAAAAACAQEAACMAAAA="
# Three calls give so many names, of which the last one gives none, and two give those of the root.
MANY = 2_000
CALLS_OF_MANY = 5


def make_tree(root: Path) -> None:
    for directory in range(DIRECTORIES):
        (root / f"d{directory}" / "below").mkdir(parents=True)
        for file in range(EACH):
            (root / f"d{directory}" / f"f{file}").touch()
        (root / f"d{directory}" / "below" / "g").touch()


class Served(Case):
    def test_trees_that_fail(self) -> None:
        """The disk fails at one call after the other, for each client. A root is refused or listed whole, wherever
        below it the disk failed. Once the disk is well, the next answer tells a follower all that it does not know."""
        self.check_installed("strace")
        for call in ("openat", "getdents64", "statx"):
            number = 1
            while number < MOST_OF_A_WALK and self.check_a_tree_that_fails(self.room, Fault(call, "EIO", str(number))):
                number += 1
            self.check(f"a walk comes to its end, {call}", 1 < number < MOST_OF_A_WALK, [f"{number}"])

    def check_a_tree_that_fails(self, room: Path, fault: Fault) -> bool:
        """Whether a call failed for the client that follows the tree. The tree is empty when it is watched, and small
        later: so the thread of the client walks it alone. `strace` counts the calls of each thread by itself."""
        root, log = room / f"{fault.call}-{fault.when}", room / "log"
        root.mkdir()
        through = [*SERVED, "-o", str(log), *fault.words()]
        name = f"{fault.call} {fault.when} fails"
        try:
            with Server(room, interval=A_HOUR, through=through) as server, server.client() as first:
                self.check(f"a watch, {name}", watch(first, root))
                before = count(log)
                make_tree(root)
                with server.client() as follower:
                    failed = self.check_a_follower(name, follower, root, lambda: count(log) > before)
                self.check(f"the end, {name}", server.shut_down(first) == 0)
                return failed
        except ValueError as error:
            # A call of the start failed.
            self.check(
                f"the start, {name}", "cannot listen" in str(error) and not (room / "socket").exists(), [f"{error}"]
            )
            return True

    def check_a_follower(self, name: str, follower: Client, root: Path, fails: Callable[[], bool]) -> bool:
        """Whether a call failed in the first walk for this client."""
        truth = set(names_in(root))
        known: Set[str] = set()
        is_lawful = follow(follower, root, known, truth)
        failed = fails()
        self.check(f"the answer, {name}", is_lawful and (failed or known == truth), [f"{sorted(known)}"])
        if failed:
            is_lawful = follow(follower, root, known, truth)
            self.check(f"the next answer, {name}", is_lawful and known == truth, [f"{sorted(truth ^ known)}"])
        return failed

    def test_a_directory_that_is_read_in_part(self) -> None:
        """A call that gives names of a large directory is refused to the server after others gave some. The directory
        is listed without its names."""
        self.check_installed("strace")
        failures = 0
        for number in range(1, MOST_OF_A_WALK):
            found, failed = names_below(self.room, Fault("getdents64", "EACCES", str(number)))
            self.check(
                f"all names of a directory or none, getdents64 {number} fails",
                found == (0 if failed else MANY),
                [f"{found}"],
            )
            if not failed:
                break
            failures += 1
        self.check("several calls gave the names of a directory", failures >= CALLS_OF_MANY, [f"{failures}"])

    def test_streams_that_fail(self) -> None:
        """Each thread's second read or write of a stream fails. That session ends, and what it added stays."""
        self.check_installed("strace")
        for call in ("recvfrom", "sendto"):
            fault = Fault(call, "EIO", "2")
            with Server(self.room, interval=A_HOUR, through=[*SERVED, "-o", "/dev/null", *fault.words()]) as server:
                with server.client() as client:
                    client.ask("version")
                    client.send("program-add", "yes", ADDED)
                    rest = client.rest()
                    self.check(f"no line more, {call}", rest == b"", [f"{rest!r}"])
                with server.client() as other:
                    programs = other.ask("program-list").get("programs")
                    # A line whose read failed was not taken; one whose reply failed was.
                    self.check(
                        f"what was added, {call}", programs == (["yes"] if call == "sendto" else []), [f"{programs}"]
                    )
                with server.client() as last:
                    self.check(f"the end, {call}", server.shut_down(last) == 0)

    def test_a_cursor_whose_reply_fails(self) -> None:
        """Each thread's writes from the second on fail: the look for the client before the reply, and the reply. A
        cursor whose reply was cut off has moved all the same."""
        self.check_installed("strace")
        root = self.directory("tree")
        (root / "a").touch()
        asked = {"since": "n:k", "sync_timeout": 0, "fields": ["name"]}
        fault = Fault("sendto", "EIO", "2+")
        with Server(self.room, interval=A_HOUR, through=[*SERVED, "-o", "/dev/null", *fault.words()]) as server:
            with server.client(root) as client:
                client.send("query", str(root), asked)
                self.check("no reply of a cursor", client.rest() == b"")
            with server.client() as other:
                expected = {**VERSION, "clock": "c:7:9:1:1", "files": [], "is_fresh_instance": False}
                reply = other.ask("query", str(root), asked)
                self.check("the cursor has moved", reply == expected, [f"{reply}"])
            with server.client() as last:
                self.check("the end after a cursor", server.shut_down(last) == 0)

    def test_sockets_that_fail(self) -> None:
        """A call that makes the socket fails: the server says so, ends with status 1, and leaves nothing behind."""
        self.check_installed("strace")
        for call in ("mkdir", "socket", "bind", "chmod", "listen", "link"):
            inside = self.room / call
            inside.mkdir()
            words = ["serve", "--sockname", str(inside / "socket"), "--start", "7", "--pid", "9"]
            ended, _ = run(words, b"", Fault(call, "EACCES", "1+"))
            is_told = (ended.status, ended.output, ended.errors) == (1, b"", NO_PLACE)
            self.check(f"{call} fails", is_told, [f"{ended}"])
            left: List[str] = names_in(inside)
            self.check(f"nothing is left, {call}", not left, [f"{left}"])

    def test_connections_that_fail(self) -> None:
        """The server cannot take some connections for want of handles. Clients that wait are served after that."""
        self.check_installed("strace")
        fault = Fault("accept4", "EMFILE", "1..5")
        with Server(self.room, interval=A_HOUR, through=[*SERVED, "-o", "/dev/null", *fault.words()]) as server:
            began = time.monotonic()
            with server.client() as client:
                self.check("a client after connections that failed", client.ask("version") == VERSION)
                self.check("it was served soon", time.monotonic() - began < PATIENCE)
                self.check("the end after connections that failed", server.shut_down(client) == 0)


def count(log: Path) -> int:
    return log.read_bytes().count(b"(INJECTED)")


def watch(client: Client, root: Path) -> bool:
    """Watches the root, which is refused as long as it cannot be read."""
    watched = {**VERSION, "watch": str(root), "watcher": "poll"}
    replies = [client.ask("watch", str(root)) for _ in range(TURNS)]
    return replies[-1] == watched and all(reply in (watched, {**VERSION, "error": READING}) for reply in replies)


def follow(client: Client, root: Path, known: Set[str], truth: Set[str]) -> bool:
    """Takes the changes since the last answer. Whether the answer is a list of all of them, or that the root cannot be
    read."""
    reply = client.ask("query", str(root), {"since": "n:follower", "fields": ["name", "exists"]})
    if reply == {**VERSION, "error": READING}:
        return True
    for file in reply["files"]:
        known.add(file["name"]) if file["exists"] else known.discard(file["name"])
    return known == truth


def names_below(room: Path, fault: Fault) -> Tuple[int, bool]:
    """How many names of a large directory a walk lists, and whether a call failed in it. The root is empty when it is
    watched."""
    root, log = room / f"many-{fault.when}", room / "log"
    root.mkdir()
    with Server(
        room, interval=A_HOUR, through=[*SERVED, "-o", str(log), *fault.words()]
    ) as server, server.client() as first:
        watch(first, root)
        before = count(log)
        (root / "d").mkdir()
        for file in range(MANY):
            (root / "d" / f"{file:04}").touch()
        with server.client() as other:
            reply = other.ask("query", str(root), {"fields": ["name"]})
            failed = count(log) > before
        server.shut_down(first)
    return sum(name.startswith("d/") for name in reply.get("files", [])), failed
