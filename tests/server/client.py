"""A server that runs, a plain client of it, and a plain walk of a tree."""

import json
import os
import socket
import stat
import subprocess
import sys
import tempfile
import time
from pathlib import Path
from typing import Any, Callable, Dict, List, Optional, Sequence, Tuple, TypeVar

import built

sys.path[:0] = [str(built.TOP / "clients")]

from waiting import PATIENCE, look_until, wait_until
from wq.processes import own_processor_seconds
from wqclient.lines import Ended, Lines

A_HOUR = 3_600_000
# A server says this when a client ends it.
ENDED = b"a client ended the server by shutdown-server\n"
VERSION: Dict[str, Any] = {"version": "wq-1"}
# What ./wqd adds to it, so that memory which is freed goes back to the system or is used again.
MALLOC = {
    "MALLOC_ARENA_MAX": "2",
    "MALLOC_MMAP_THRESHOLD_": "131072",
    "GLIBC_TUNABLES": "glibc.malloc.tcache_count=0",
}
ENVIRONMENT = {**MALLOC, **os.environ}
Row = Tuple[str, str, int, int]
One = TypeVar("One", bound="Running")
PLAIN = Path(__file__).resolve().parent / "plain.py"
# How often the memory of a server is looked at for its least, over half a second.
LOOKS = 10


def query_of_names() -> Dict[str, Any]:
    return {"fields": ["name"]}


class Client(Lines):
    """A client that sends a JSON value on a line, and reads one on a line: a reply or a list, whichever comes."""

    def __init__(self, sockname: str) -> None:
        super().__init__(sockname)
        self.stream.settimeout(PATIENCE)

    def __enter__(self) -> "Client":
        return self

    def require_own(self) -> None:
        """Tests start servers as other users too."""

    @property
    def socket(self) -> socket.socket:
        return self.stream

    @property
    def read(self) -> bytes:
        """What came after the last line that was asked for."""
        return bytes(self.held)

    @staticmethod
    def text(value: object) -> bytes:
        return json.dumps(value).encode()

    def send_bytes(self, data: bytes) -> None:
        """Sends all of it, and reads nothing meanwhile."""
        try:
            self.stream.sendall(data)
        except (BrokenPipeError, ConnectionResetError):
            pass  # the server ended the session; what it said before can still be read

    def send(self, *command: object) -> None:
        self.send_bytes(self.text(list(command)) + b"\n")

    def reply(self) -> dict:
        return json.loads(self.line())

    def line(self) -> bytes:
        """The next line, without its end."""
        try:
            return super().line()
        except Ended as ended:
            raise ValueError(f"the stream ended behind {ended.rest!r}") from None

    def ask(self, *command: object) -> dict:
        self.send(*command)
        return self.reply()

    def has_session(self) -> bool:
        """Whether a line is answered as in a session. One too many is told so, and its stream is closed."""
        try:
            return self.ask("version") == VERSION
        except (ConnectionResetError, ValueError):
            return False

    def ask_until(self, name: str, root: str, query: dict, is_right: Callable[[dict], object]) -> dict:
        """Asks until the reply is right, or the patience ends."""
        return look_until(lambda: self.ask(name, root, query), is_right)

    def names_without_a_crawl(self, root: Path, count: int) -> List[str]:
        """The names in a root, as soon as rounds saw that many, or the patience ends."""
        query = {"sync_timeout": 0, **query_of_names()}
        return self.ask_until("query", str(root), query, lambda reply: len(reply["files"]) == count)["files"]

    def rest(self) -> bytes:
        """What comes until the server closes the stream."""
        try:
            while True:
                self.receive()
        except Ended as ended:
            return ended.rest


def client_of(sockname: str, watched: Optional[Path]) -> Client:
    client = Client(sockname)
    if watched is not None:
        client.ask("watch", str(watched))
    return client


class Running:
    """A program that runs until it is left, and what the system tells of its process."""

    def __init__(self, command: Sequence[str], **variables: str) -> None:
        self.said = tempfile.TemporaryFile()
        # A command of a trigger writes where the server does, and may outlive it.
        environment = {**ENVIRONMENT, **variables}
        self.process = subprocess.Popen(command, stdout=self.said, stderr=self.said, env=environment)

    def __enter__(self: One) -> One:
        return self

    def __exit__(self, *_: object) -> None:
        self.kill()
        self.said.close()

    def errors(self) -> bytes:
        return os.pread(self.said.fileno(), 1_000_000, 0)

    def says(self, line: bytes) -> bool:
        """Whether the program says this before it ends, or the patience does."""
        wait_until(lambda: line in self.errors() or self.process.poll() is not None)
        return line in self.errors()

    @staticmethod
    def least(figure: Callable[[], int]) -> int:
        """The least of what a figure is in half a second."""
        found = []
        for _ in range(LOOKS):
            found.append(figure())
            time.sleep(0.5 / LOOKS)
        return min(found)

    def most_memory(self) -> int:
        """The most memory that the program had so far, in bytes."""
        return self.status("VmHWM") * 1024

    def least_memory(self) -> int:
        """The least memory that the program has in half a second, in bytes: while it crawls it has more."""
        return self.least(self.memory)

    def has_memory_below(self, most: int) -> bool:
        """Whether the program comes to have less memory than so many bytes before the patience ends."""
        return wait_until(lambda: self.memory() < most)

    def memory(self) -> int:
        """The memory that the program has, in bytes."""
        return self.status("VmRSS") * 1024

    def threads(self) -> int:
        return self.status("Threads")

    def least_threads(self) -> int:
        """The fewest threads that the program has in half a second: while a client waits for a walk it has more."""
        return self.least(self.threads)

    def has_threads(self, count: int, seconds: float) -> bool:
        """Whether the program comes to have so many threads within so many seconds."""
        return wait_until(lambda: self.threads() == count, seconds)

    def processor_seconds(self) -> float:
        """The processor time that the program took so far."""
        return own_processor_seconds(self.process.pid)

    def status(self, name: str) -> int:
        """A number that the system tells of the process."""
        lines = Path(f"/proc/{self.process.pid}/status").read_text().splitlines()
        return next(int(line.split()[1]) for line in lines if line.startswith(f"{name}:"))

    def kill(self) -> None:
        self.process.kill()
        self.process.wait()


class Server(Running):
    """A server whose socket is in a directory. One that is plain reads no more than any user, though root starts it.
    With no interval, or no number of workers, the server takes its own. Other words may begin the command. The numbers
    are those of its run: its start and its process."""

    def __init__(
        self,
        room: Path,
        interval: Optional[int] = 1000,
        is_plain: bool = False,
        through: Sequence[str] = (),
        workers: Optional[int] = None,
        share: Optional[int] = None,
        numbers: Tuple[int, int] = (7, 9),
        quiet_after: Optional[int] = None,
    ) -> None:
        self.sockname = str(room / "socket")
        given = {"start": numbers[0], "pid": numbers[1], "interval": interval, "workers": workers, "share": share}
        given["quiet-after"] = quiet_after
        words = [word for name, value in given.items() if value is not None for word in (f"--{name}", str(value))]
        if is_plain:
            through = [sys.executable, str(PLAIN)]
        super().__init__([*through, str(built.program_path()), "serve", "--sockname", self.sockname, *words])
        if not self.says(f"listening on {self.sockname}\n".encode()):
            self.kill()
            raise ValueError(f"the server does not listen: {self.errors()!r}")

    def client(self, watched: Optional[Path] = None) -> Client:
        """A client, which has the server watch a directory if one is named."""
        return client_of(self.sockname, watched)

    def client_when_free(self) -> Client:
        """A client that has a session: a session that is over may still end."""
        end = time.monotonic() + PATIENCE
        while True:
            client = self.client()
            if client.has_session() or time.monotonic() > end:
                return client
            client.close()
            time.sleep(0.01)

    def shut_down(self, client: Client) -> object:
        """Has a client end the server, and gives the exit status."""
        reply = client.ask("shutdown-server")
        if reply != {"shutdown-server": True, "version": "wq-1"}:
            return reply
        return self.process.wait(PATIENCE)


def walked(root: Path) -> List[Row]:
    """Name, letter, size and time of each file below a root, by name."""
    rows: List[Row] = []
    walk_into(bytes(root), b"", rows)
    return sorted(rows, key=lambda row: row[0].encode())


def walk_into(directory: bytes, above: bytes, rows: List[Row]) -> None:
    try:
        names = os.listdir(directory)
    except OSError:
        return
    for name in names:
        whole = above + name
        try:
            text = whole.decode()
        except UnicodeDecodeError:
            continue
        found = os.lstat(os.path.join(directory, name))
        letter = letter_of(found.st_mode)
        rows.append((text, letter, found.st_size, found.st_mtime_ns // 1_000_000))
        if letter == "d":
            walk_into(os.path.join(directory, name), whole + b"/", rows)


def letter_of(mode: int) -> str:
    if stat.S_ISREG(mode):
        return "f"
    if stat.S_ISDIR(mode):
        return "d"
    return "l" if stat.S_ISLNK(mode) else "?"
