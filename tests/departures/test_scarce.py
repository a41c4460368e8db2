"""A server that can start no more threads and no commands, and one that may open few files."""

import multiprocessing
import os
import resource
import sys
from pathlib import Path
from typing import Any, Dict, Iterator, Optional

from case import Case
from client import VERSION, Client, Server, query_of_names
from house import PATIENCE, PLACES, handles_of, has_handles

USER = Path(__file__).resolve().parent / "user.py"
# Users of these numbers are nobody's on most machines.
NUMBERS = range(61_000, 61_100)
INTERVAL = 50
NO_MEMORY = {"error": "E60: no memory", **VERSION}
# A client takes so many threads.
THREADS = 2
# How many files a server may open, which are too few for 32 clients.
HANDLES = (20, 24, 32)
FORK = multiprocessing.get_context("fork")


class Scarce(Case):
    def test_no_threads(self) -> None:
        """For want of threads a client is told so. The others go on, and so does everybody when there are threads
        again."""
        tree = self.directory("tree")
        (tree / "a").touch()
        number = unused_number()
        if os.geteuid() == 0:
            os.chown(self.room, number, number)
        with Server(
            self.room, interval=INTERVAL, through=[sys.executable, str(USER), str(number)]
        ) as server, server.client(tree) as client:
            threads = server.least_threads()
            for limit in limits(threads):
                name = f"with {limit} threads, of which {threads} are there"
                limit_threads(server, number, limit)
                with server.client() as late:
                    self.same(f"a client {name}", late.reply(), NO_MEMORY)
                    self.same(f"the end after its line {name}", late.rest(), b"")
                self.check_others(name, client, tree)
                self.check(f"no thread is left {name}", server.has_threads(threads, PATIENCE))
            limit_threads(server, number, next(limits(threads)))
            self.check_a_command(server, client, tree)
            limit_threads(server, number, None)
            with server.client() as late:
                self.same("a client when there are threads again", late.ask("version"), VERSION)
            self.check("the command starts when there are threads again", server.says(b"ran a\n"))
            self.same("the end when there are threads again", server.shut_down(client), 0)

    def check_others(self, name: str, client: Client, tree: Path) -> None:
        """A query of another sees a change, and so does the crawler."""
        for made, synchronises in (("asked", True), ("crawled", False)):
            (tree / made).touch()
            more = {} if synchronises else {"sync_timeout": 0}
            query: Dict[str, Any] = {**query_of_names(), "expression": ["name", made], **more}
            reply = client.ask_until("query", str(tree), query, lambda reply: reply.get("files"))
            self.same(f"a file that is {made} {name}", reply.get("files"), [made])
            (tree / made).unlink()

    def check_a_command(self, server: Server, client: Client, tree: Path) -> None:
        """A command that cannot be started for want of processes is told of."""
        query = {"name": "t", "command": ["echo", "ran"], "append_files": True, "expression": ["name", "a"]}
        self.same("a trigger", client.ask("trigger", str(tree), query).get("disposition"), "created")
        line = f'"{tree}": trigger "t" could not be started: Resource temporarily unavailable'.encode()
        self.check("the operator is told of a command without a process", server.says(line), [f"{server.errors()!r}"])

    def test_few_handles(self) -> None:
        """For want of handles clients are told so. When others went, their handles come back before anybody else
        comes."""
        tree = self.directory("tree")
        for limit in HANDLES:
            through = ["sh", "-c", f'ulimit -Sn {limit}; exec "$@"', "sh"]
            with Server(self.room, interval=INTERVAL, through=through) as server, server.client(tree) as client:
                handles = handles_of(server)
                others = [server.client() for _ in range(PLACES - 1)]
                replies = [other.ask("version") for other in others]
                served = replies.count(VERSION)
                told = [VERSION] * served + [NO_MEMORY] * (len(replies) - served)
                self.same(f"clients of a server with {limit} handles", replies, told)
                self.check(f"some of them are served with {limit} handles", 0 < served < len(replies), [f"{served}"])
                self.same(f"one of them goes on with {limit} handles", others[0].ask("version"), VERSION)
                for other in others:
                    other.close()
                self.check(
                    f"handles of those that went, of {limit}", has_handles(server, handles), [f"{handles_of(server)}"]
                )
                self.check_others(f"by a client that stayed, with {limit} handles", client, tree)
                with server.client_when_free() as late:
                    self.check_others(f"by a client that came later, with {limit} handles", late, tree)
                self.same(f"the end with {limit} handles", server.shut_down(client), 0)


def unused_number() -> int:
    """The number of a user of whom nothing runs."""
    used = {path.stat().st_uid for path in processes()}
    return next(number for number in NUMBERS if number not in used)


def processes() -> Iterator[Path]:
    for path in Path("/proc").glob("[0-9]*"):
        if path.exists():
            yield path


def limits(threads: int) -> Iterator[int]:
    """How many threads there may be: a limit counts what runs of the user. That is the server alone if root starts
    it."""
    if os.geteuid() == 0:
        yield from range(threads, threads + THREADS)
    else:
        yield 1


def limit_threads(server: Server, number: int, limit: Optional[int]) -> None:
    """Lets the server's user have so many threads, or as many as may be. A process of that user may say so, and root
    need not have the power to."""
    limiter = FORK.Process(target=set_limit, args=(server.process.pid, number, limit))
    limiter.start()
    limiter.join()
    if limiter.exitcode != 0:
        raise OSError("the threads of a user cannot be limited")


def set_limit(process: int, number: int, limit: Optional[int]) -> None:
    if os.geteuid() == 0:
        os.setresgid(number, number, number)
        os.setresuid(number, number, number)
    most = resource.prlimit(process, resource.RLIMIT_NPROC)[1]
    resource.prlimit(process, resource.RLIMIT_NPROC, (most if limit is None else limit, most))
