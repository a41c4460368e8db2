"""The lock of a bridge, which says who runs: the bridge, its server, and where that listens. The command reads it too,
the first line without Python."""

import os
import threading
from typing import IO, Optional

from wqclient.files import opened_as_own

STARTED = 19


def opened_lock(sockname: str, mode: str) -> IO[str]:
    """The lock of the bridge at a socket. Names of sockets may have bytes in them that are no letters."""
    return open(f"{sockname}.lock", mode, encoding="utf-8", errors="surrogateescape", opener=opened_as_own)


def asked_server(sockname: str) -> Optional[str]:
    """The socket of the server that the bridge asks, if its lock says so."""
    try:
        with opened_lock(sockname, "r") as file:
            found = file.read().partition("\n")[2]
    except OSError:
        return None
    return found[:-1] if found.endswith("\n") else None


def started(process: int) -> str:
    """When a process started, in the ticks of the system. Its number may be another's later, but not at the same
    time."""
    with open(f"/proc/{process}/stat", "rb") as file:
        # The name before the last parenthesis may have anything in it.
        return file.read().rpartition(b") ")[2].split()[STARTED].decode()


class Running:
    """The lines of the lock. The first has the number of the bridge and its start, and those of the server as soon as a
    client was served. The second is the socket of the server."""

    def __init__(self, lock: IO[str], server: str) -> None:
        self.lock = lock
        self.sockname = server
        self.server = 0
        self.guard = threading.Lock()
        self.write(f"{os.getpid()} {started(os.getpid())}")

    def sees(self, process: int) -> None:
        """The server answers as this process."""
        with self.guard:
            if process == self.server:
                return
            self.server = process
            try:
                self.write(f"{os.getpid()} {started(os.getpid())} {process} {started(process)}")
            except OSError:
                self.server = 0  # it runs where its start is not told, and the command asks the bridge

    def write(self, line: str) -> None:
        """Writes the lines in the place of those before, so that nobody reads an empty lock meanwhile."""
        self.lock.seek(0)
        self.lock.write(f"{line}\n{self.sockname}\n")
        self.lock.flush()
        self.lock.truncate()
