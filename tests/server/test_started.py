"""The socket of a server, the words of its command line, and the variables that it is started with."""

import os
import shutil
import stat
import subprocess
from pathlib import Path
from typing import Dict, List

import built
from case import Case
from client import ENDED, MALLOC, VERSION, Server

# Values that the program refuses, and an option that it does not have.
WRONG = [
    ("start", "-1"),
    ("start", "01"),
    ("start", str(2**62 + 1)),
    ("pid", "x"),
    ("pid", ""),
    ("interval", "9"),
    ("interval", "3600001"),
    ("workers", "0"),
    ("workers", "17"),
    ("workers", "1.5"),
    ("frob", "1"),
    ("share", "0"),
    ("share", "101"),
    ("share", "010"),
    ("share", "x"),
    ("quiet-after", "86401"),
    ("quiet-after", "01"),
]


class Started(Case):
    def test_socket(self) -> None:
        """The socket's mode, a second server, a stale socket, a file that is none, a directory that is not there."""
        with Server(self.room) as server, server.client() as client:
            status = os.stat(server.sockname)
            self.same(
                "the mode of the socket", (stat.S_ISSOCK(status.st_mode), stat.S_IMODE(status.st_mode)), (True, 0o600)
            )
            self.same("nothing beside the socket", os.listdir(self.room), [os.path.basename(server.sockname)])
            self.same("a socket that is in use", refused(server.sockname), (1, b"cannot listen\n"))
            self.same("the first server goes on", client.ask("version"), VERSION)
            server.kill()
            self.same("the socket of a server that was killed", os.path.exists(server.sockname), True)
        with Server(self.room) as server, server.client() as client:
            self.same("a stale socket is replaced", client.ask("version"), VERSION)
            self.same("the status at the end", server.shut_down(client), 0)
            self.same("the socket after the end", os.listdir(self.room), [])
            self.same("what a server says", server.errors(), f"listening on {server.sockname}\n".encode() + ENDED)
        with Server(self.room) as server, server.client() as client:
            socket_file = Path(server.sockname)
            socket_file.rename(self.room / "aside")
            socket_file.write_text("mine")
            self.same("the end of a server whose socket was moved", server.shut_down(client), 0)
            self.same("a file in the socket's place", socket_file.read_text(), "mine")
        file = self.room / "file"
        file.write_text("mine")
        self.same("a file that is no socket", refused(str(file)), (1, b"cannot listen\n"))
        self.same("that file", file.read_text(), "mine")
        self.same("a directory that is not there", refused(str(self.room / "no" / "socket")), (1, b"cannot listen\n"))
        self.same("a path that is too long", refused(str(self.room / ("x" * 120))), (1, b"cannot listen\n"))

    def test_words(self) -> None:
        """The words of the command line: what is missing, out of range, or of another shape."""
        sockname = str(self.room / "no" / "socket")
        good = {
            "sockname": sockname,
            "start": "0",
            "pid": str(2**62),
            "interval": "10",
            "share": "1",
            "quiet-after": "86400",
            "workers": "16",
        }
        self.same("all words", status_of(good), (1, b"cannot listen\n"))
        self.same("no quiet", status_of({**good, "quiet-after": "0"}), (1, b"cannot listen\n"))
        self.same("where it would listen", said_of(good), built.Ended(sockname.encode() + b"\n", b"", 0))
        self.same("an hour", status_of({**good, "interval": "3600000", "workers": "1"}), (1, b"cannot listen\n"))
        for name in ("interval", "share", "quiet-after", "workers"):
            left = {key: value for key, value in good.items() if key != name}
            self.same(f"no {name}", status_of(left), (1, b"cannot listen\n"))
        wrong = [{key: value for key, value in good.items() if key != name} for name in ("sockname", "start", "pid")]
        wrong += [{**good, name: value} for name, value in WRONG]
        for words in wrong:
            self.same(f"words {words}", status_of(words), (2, b"wqd: wrong command line\n"))
            self.same(f"sockname {words}", said_of(words), built.Ended(b"", b"wqd: wrong command line\n", 2))

    def test_environment(self) -> None:
        """The script that starts the program sets the variables of the C library with which the others here start
        it."""
        plain = {name: value for name, value in os.environ.items() if name not in MALLOC}
        tunables = {"GLIBC_TUNABLES": "glibc.malloc.tcache_count=7"}
        changes: List[Dict[str, str]] = [{}, {"MALLOC_ARENA_MAX": "5"}, {"MALLOC_MMAP_THRESHOLD_": "4096"}, tunables]
        for given in changes:
            environment = {**plain, **given, "WQD": str(shutil.which("printenv"))}
            ended = subprocess.run([str(built.TOP / "wqd"), *MALLOC], stdout=subprocess.PIPE, env=environment)
            self.same(f"./wqd with {given}", ended.stdout.decode().split(), list({**MALLOC, **given}.values()))


def refused(sockname: str) -> tuple:
    ended = built.run(["serve", "--sockname", sockname, "--start", "7", "--pid", "9"])
    return ended.status, ended.errors


def status_of(words: dict) -> tuple:
    ended = built.run(["serve", *line_of(words)])
    return ended.status, ended.errors


def said_of(words: dict) -> built.Ended:
    """What the program says of the socket of a server with these words."""
    return built.run(["sockname", *line_of(words)])


def line_of(words: dict) -> List[str]:
    return [word for name, value in words.items() for word in (f"--{name}", value)]
