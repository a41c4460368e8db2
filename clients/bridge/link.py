"""The bridge's own connections to wqd, of which each client has one or more."""

from typing import List, Optional

from bridge.encodings import json_of
from bridge.faults import Ended, Refused
from wqclient import lines

# The server takes no longer line.
LONGEST = 1_048_576
# Replies and lists have their keys in byte order, so these are the last bytes of their lines.
VERSION_LAST = b'"version":"wq-1"}'
BY_ITSELF = b',"unilateral":true,' + VERSION_LAST


class Link(lines.Lines):
    """Sends commands to the server, and cuts what it sends into lines."""

    def __init__(self, sockname: str) -> None:
        try:
            super().__init__(sockname)
        except OSError as error:
            raise Ended(f"wqd does not answer at {sockname}: {error.strerror}")
        # So many replies are still to come for which nobody waits any longer.
        self.late = 0

    def server_process(self) -> int:
        """The number of the server's process."""
        return self.peer().process

    def send(self, command: List[object]) -> None:
        try:
            line = json_of(command).encode("utf-8", "surrogatepass")
        except RecursionError:
            raise Refused("failed to parse query: expression too deep")
        if len(line) > LONGEST:
            raise Refused("the command is too long: the server takes lines of 1,048,576 bytes")
        try:
            self.send_bytes(line + b"\n")
        except OSError:
            pass  # what the server said before it went can still be read

    def comes_within(self, seconds: float) -> bool:
        """Whether the server says anything within so many seconds, or has begun to."""
        return bool(self.held) or self.has_line(seconds)

    def take(self) -> Optional[bytes]:
        """The next line, without replies that are too late."""
        line = super().take()
        while line is not None and self.late and not comes_by_itself(line):
            self.late -= 1
            line = super().take()
        return line

    def receive(self) -> None:
        """Reads what the server sends next."""
        try:
            super().receive()
        except (lines.Ended, OSError):
            raise Ended("")

    def cut(self) -> bytes:
        """The part that came of a line without its end."""
        piece = bytes(self.held)
        self.held.clear()
        self.looked = 0
        return piece

    def begins_with(self, begin: bytes) -> bool:
        return self.held.startswith(begin)


def comes_by_itself(line: bytes) -> bool:
    """Whether a line of the server is a list of a subscription, and not a reply."""
    return line.endswith(BY_ITSELF)
