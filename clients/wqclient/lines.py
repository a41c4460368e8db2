"""A connection to a server, on which lines of bytes go both ways. The server has to be one of this user or the
superuser."""

import errno
import os
import select
import socket
import struct
from typing import List, NamedTuple, Optional

# So many bytes are read at once before a line, and within one.
SMALL = 65_536
LARGE = 1_048_576
CREDENTIALS = "3i"
# No line of a server is longer: a list of 1,000,000 files has so many bytes if each takes 500.
LONGEST = 536_870_912
SUPERUSER = 0


class Ended(Exception):
    """The server has ended the connection. It sent these bytes of a line before, perhaps none."""

    def __init__(self, rest: bytes = b"") -> None:
        super().__init__("the server has ended the connection")
        self.rest = rest


class TooLate(OSError):
    """The server took longer than it may."""


class Peer(NamedTuple):
    """The process at the other end, as the system says: its number, its user and its group."""

    process: int
    user: int
    group: int


def peer_of(stream: socket.socket) -> Peer:
    found = stream.getsockopt(socket.SOL_SOCKET, socket.SO_PEERCRED, struct.calcsize(CREDENTIALS))
    return Peer(*struct.unpack(CREDENTIALS, found))


class Lines:
    """Sends bytes, and cuts what comes into lines. With a patience, in seconds, no wait is longer."""

    def __init__(self, sockname: str, patience: Optional[float] = None) -> None:
        self.sockname = sockname
        self.patience = patience
        self.stream = socket.socket(socket.AF_UNIX, socket.SOCK_STREAM)
        try:
            self.stream.connect(os.fsencode(sockname))
            self.require_own()
        except BaseException:
            self.stream.close()
            raise
        self.held = bytearray()
        # So many bytes of `held` have no newline.
        self.looked = 0

    def __enter__(self) -> "Lines":
        return self

    def __exit__(self, *_: object) -> None:
        self.close()

    def close(self) -> None:
        self.stream.close()

    def fileno(self) -> int:
        return self.stream.fileno()

    def peer(self) -> Peer:
        return peer_of(self.stream)

    def require_own(self) -> None:
        """Refuses a server of another user, who may have put a socket in the place of this user's."""
        user = self.peer().user
        if user not in (os.getuid(), SUPERUSER):
            raise OSError(
                errno.EPERM, f"the server that answers there is that of user {user}, and not yours", self.sockname
            )

    def send_bytes(self, data: bytes) -> None:
        """Sends all of it, and reads meanwhile: the server may be in the middle of a list that it waits to be read."""
        left = memoryview(data)
        while left:
            try:
                left = left[self.stream.send(left, socket.MSG_DONTWAIT) :]
            except BlockingIOError:
                if self.ready(select.POLLIN | select.POLLOUT) & select.POLLIN:
                    self.receive()

    def ready(self, events: int) -> int:
        """Which of these events are there. One of them is waited for, as long as the patience lasts."""
        poll = select.poll()
        poll.register(self.stream, events)
        found = poll.poll(None if self.patience is None else self.patience * 1000)
        if not found:
            raise TooLate("the server did not answer")
        return found[0][1]

    def has_line(self, seconds: float) -> bool:
        """Whether a line, or the end, comes within so many seconds."""
        if self.held.find(b"\n", self.looked) >= 0:
            return True
        poll = select.poll()
        poll.register(self.stream, select.POLLIN)
        return bool(poll.poll(seconds * 1000))

    def receive(self) -> None:
        """Reads what the server sends next."""
        is_within_a_line = bool(self.held)
        if self.patience is not None:
            self.ready(select.POLLIN)
        try:
            piece = self.stream.recv(LARGE if is_within_a_line else SMALL)
        except ConnectionError:
            piece = b""
        if not piece:
            raise Ended(bytes(self.held))
        if len(self.held) + len(piece) > LONGEST and self.held.find(b"\n", self.looked) < 0:
            raise OSError(errno.EMSGSIZE, f"the server sends over {LONGEST:,} bytes in a line", self.sockname)
        self.held += piece

    def take(self) -> Optional[bytes]:
        """The next line without its newline, if the whole of it has come."""
        end = self.held.find(b"\n", self.looked)
        if end < 0:
            self.looked = len(self.held)
            return None
        self.looked = 0
        with memoryview(self.held) as held:
            line = bytes(held[:end])
        del self.held[: end + 1]
        return line

    def line(self) -> bytes:
        """The next line, which is waited for."""
        while True:
            line = self.take()
            if line is not None:
                return line
            self.receive()

    def lines_there(self) -> List[bytes]:
        """The whole lines that have come."""
        found = []
        line = self.take()
        while line is not None:
            found.append(line)
            line = self.take()
        return found
