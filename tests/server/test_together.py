"""Servers that start at the same moment on a socket that nobody listens on."""

import os
import socket
import subprocess
import time
from pathlib import Path

import built
from case import Case
from client import PATIENCE, VERSION, Client
from waiting import look_until

ROUNDS = 20


class Together(Case):
    def test_servers_that_start_together(self) -> None:
        """One of the two serves, and is found at the path; the other says that it cannot listen."""
        rounds = [start_two(self.room / f"socket{number}") for number in range(ROUNDS)]
        self.same("two servers that start together on a stale socket", rounds, [(1, VERSION)] * ROUNDS)
        self.same("what two servers leave", os.listdir(self.room), [])


def start_two(path: Path) -> tuple:
    """The status of the server that ends first, and what is answered at the path."""
    leave_stale(path)
    words = [str(built.program_path()), "serve", "--sockname", str(path), "--start", "7", "--pid", "9"]
    servers = [subprocess.Popen(words, stderr=subprocess.DEVNULL) for _ in range(2)]
    try:
        return first_status(servers), answer_at(path)
    finally:
        for server in servers:
            server.kill()
            server.wait()
        path.unlink(missing_ok=True)


def leave_stale(path: Path) -> None:
    """Leaves a socket on which nobody listens."""
    with socket.socket(socket.AF_UNIX, socket.SOCK_STREAM) as stream:
        stream.bind(str(path))


def first_status(servers: list) -> object:
    return next(
        iter(look_until(lambda: [server.poll() for server in servers if server.poll() is not None], bool)),
        "both run on",
    )


def answer_at(path: Path) -> object:
    """The other server may still be starting."""
    end = time.monotonic() + PATIENCE
    while True:
        try:
            with Client(str(path)) as client:
                return client.ask("version")
        except OSError as error:
            if time.monotonic() > end:
                return str(error)
            time.sleep(0.005)
