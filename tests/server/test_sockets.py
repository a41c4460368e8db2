"""Sockets and directories that a server finds when it starts."""

import os
import socket
import subprocess
from pathlib import Path
from typing import List

import built
from case import Case
from client import PATIENCE, VERSION, Client, Server, query_of_names

LEFT = 100
# The whole path of a socket in a directory with this name is too long for a socket.
LONG = "d" * 100


class Sockets(Case):
    def test_a_server_that_hangs(self) -> None:
        """Somebody listens on the socket and accepts nobody, and so many wait there that no more may: a new server says
        at once that it cannot listen. That socket stays."""
        path = str(self.room / "socket")
        with socket.socket(socket.AF_UNIX, socket.SOCK_STREAM) as hanging:
            hanging.bind(path)
            hanging.listen(0)
            waiting = fill(path)
            number = os.stat(path).st_ino
            command = [str(built.program_path()), "serve", "--sockname", path, "--start", "7", "--pid", "9"]
            try:
                ended = subprocess.run(command, stderr=subprocess.PIPE, timeout=PATIENCE)
                self.same(
                    "a start beside a server that hangs", (ended.returncode, ended.stderr), (1, b"cannot listen\n")
                )
            except subprocess.TimeoutExpired:
                self.check("a start beside a server that hangs", False, ["it waits for that server"])
            self.same("the socket of a server that hangs", os.stat(path).st_ino, number)
            for stream in waiting:
                stream.close()
        self.same("what is left beside it", os.listdir(self.room), ["socket"])

    def test_directories_that_were_left(self) -> None:
        """Servers that were killed while they started left their directories: another one starts, ends, and leaves
        those."""
        left = [self.room / f".wqd{number}" for number in range(LEFT)]
        for directory in left:
            directory.mkdir()
        with Server(self.room) as server, server.client() as client:
            self.same("a server beside directories that were left", client.ask("version"), VERSION)
            self.same("what it makes beside them", len(os.listdir(self.room)), LEFT + 1)
            self.same("its end", server.shut_down(client), 0)
        self.same("the directories that were left", sorted(os.listdir(self.room)), sorted(one.name for one in left))

    def test_a_relative_path(self) -> None:
        """A server whose socket has a path from the directory in which it was started. After a walk its working
        directory is `/`, so that no file system stays in use, and even so it removes the socket when it ends."""
        started, root = self.room / LONG, self.room / "tree"
        started.mkdir()
        root.mkdir()
        (root / "a").touch()
        command = [str(built.program_path()), "serve", "--sockname", "socket", "--start", "7", "--pid", "9"]
        with subprocess.Popen(command, cwd=started, stderr=subprocess.PIPE) as server:
            assert server.stderr is not None
            self.same("a socket by a relative path", server.stderr.readline(), b"listening on socket\n")
            with connected(started) as client:
                self.same("its name", client.ask("get-sockname"), {"sockname": "socket", **VERSION})
                client.ask("watch", str(root))
                self.same("a root beside it", client.ask("query", str(root), query_of_names())["files"], ["a"])
                self.same("the directory after a walk", os.readlink(f"/proc/{server.pid}/cwd"), "/")
                client.ask("shutdown-server")
            self.same("its end", server.wait(PATIENCE), 0)
        self.same("what is left of it", os.listdir(started), [])


def fill(path: str) -> list:
    """Clients that wait at a socket, as many as may."""
    waiting: List[socket.socket] = []
    while True:
        stream = socket.socket(socket.AF_UNIX, socket.SOCK_STREAM)
        stream.setblocking(False)
        try:
            stream.connect(path)
        except BlockingIOError:
            stream.close()
            return waiting
        waiting.append(stream)


def connected(directory: Path) -> Client:
    """A client of the socket in a directory, however long its path is."""
    handle = os.open(directory, os.O_RDONLY)
    try:
        return Client(f"/proc/self/fd/{handle}/socket")
    finally:
        os.close(handle)
