"""A server on a small tree with a client that looks on, and the plain program that knows the same tree."""

import atexit
import contextlib
import fcntl
import functools
import os
import socket
import struct
import tempfile
import termios
import threading
import time
from pathlib import Path
from typing import Iterable, List

import built
from case import Case
from client import A_HOUR, VERSION, Client, Server, query_of_names, walked
from commands import answer, text_of
from followers import Session
from servers import Server as PlainServer
from views import Row, Sight, pass_of
from wqprogram.json_values import compact_text
from waiting import PATIENCE, look_until
from wqprogram.limits import MAX_LINE

# How many seconds two other clients wait at most for their answers, one after the other. On a machine that has other
# work too they may wait for that, so they ask until one time is as it should be.
SOON = 1.0
# How much memory the server may have at most, and how much more than at first once it is idle, in bytes.
MOST_MEMORY = 150_000_000
MORE_MEMORY = 16_000_000
# What is drawn depends on this number.
SEED = int(os.environ.get("SEED", "1"))

NAMES = [
    "a",
    "a.c",
    "A.C",
    ".a.c",
    "b.txt",
    "src/a.c",
    "src/A.c",
    "src/b/c.TXT",
    "src/.y/a.c",
    "ü",
    "Ü.c",
    "日本/語.c",
    "a b",
    "a\\b",
    'a"b',
    "[a]",
    "x\ty",
    "😀.txt",
    "é/É",
    "foo/bar/x",
    "foo/barx/z",
    "*",
    "a" * 40,
]
LATER_NAMES = ["src/new.c", "z", "foo/bar/y/x"]
GONE_NAMES = ["a", "src/A.c"]


class Stage:
    def __init__(self, room: Path) -> None:
        self.root = room / "tree"
        for place, name in enumerate(NAMES):
            self.make(name, place)
        self.server = Server(room, interval=A_HOUR)
        self.other = self.server.client()
        self.other.ask("watch", str(self.root))
        self.plain = PlainServer(str(self.root))
        self.crawl()
        for place, name in enumerate(LATER_NAMES):
            self.make(name, place)
        self.crawl()
        for name in GONE_NAMES:
            (self.root / name).unlink()
        self.crawl()
        self.threads = self.server.least_threads()
        self.memory = self.server.memory()

    def __enter__(self) -> "Stage":
        return self

    def __exit__(self, *_: object) -> None:
        self.other.close()
        self.server.__exit__()

    def make(self, name: str, number: int) -> None:
        path = self.root / name
        path.parent.mkdir(parents=True, exist_ok=True)
        path.write_text("x" * (number % 4))
        os.utime(path, ns=(0, (number * 500 - 1) * 1_000_000))

    def crawl(self) -> None:
        """Both see the tree as it is on the disk."""
        rows = [Row(name.encode(), Sight(letter, size, mtime_ms)) for name, letter, size, mtime_ms in walked(self.root)]
        self.plain.tree = pass_of(int(time.time()), rows)
        self.plain.crawl()
        self.other.ask("clock", str(self.root), {"sync_timeout": 1})

    def replies(self, data: bytes, pieces: Iterable[bytes] = ()) -> bytes:
        """The replies to a client that sends these bytes, in one piece or in several, and nothing more."""
        with self.server.client() as client:
            over = threading.Event()
            sending = threading.Thread(target=send, args=(client, pieces or [data], over))
            sending.start()
            try:
                return client.rest()
            finally:
                over.set()
                sending.join()

    def plain_replies(self, data: bytes) -> bytes:
        """The replies of the plain program to them."""
        session = Session()
        *lines, rest = data.split(b"\n")
        if rest.startswith(b"\0") or len(rest) > MAX_LINE:
            lines.append(rest)
        said: List[bytes] = []
        for line in lines:
            answered = answer(line, session, self.plain)
            said += [answered.reply] if answered.told is None else [answered.reply, text_of(answered.told.line)]
            if answered.ends:
                break
        sockname = compact_text(self.server.sockname).encode()
        return b"".join(line.replace(b'"sockname":"replay"', b'"sockname":' + sockname) + b"\n" for line in said)


@functools.lru_cache(maxsize=None)
def shared_stage() -> Stage:
    """The stage of all tests, which is made for the first one and goes at the end."""
    ends = contextlib.ExitStack()
    atexit.register(ends.close)
    room = ends.enter_context(tempfile.TemporaryDirectory())
    return ends.enter_context(Stage(Path(room).resolve()))


class StageCase(Case):
    """Tests after each of which the server is well."""

    def setUp(self) -> None:
        super().setUp()
        self.stage = shared_stage()

    def tearDown(self) -> None:
        self.is_well(self._testMethodName)

    def compare(self, name: str, data: bytes, pieces: Iterable[bytes] = ()) -> bool:
        """Whether the server and the plain program say the same to these bytes."""
        expected, found = self.stage.plain_replies(data), self.stage.replies(data, pieces)
        details = (
            [] if expected == found else [f"sent: {built.excerpt(data)}", *built.first_difference(expected, found)]
        )
        self.check(name, expected == found, details)
        return expected == found

    def is_well(self, name: str) -> None:
        """The other client and a new one are answered soon, memory is bounded, and no thread is left."""
        took = look_until(lambda: self.seconds_of_others(name), lambda took: took <= SOON)
        self.check(f"they are answered soon, {name}", took <= SOON, [f"{took} seconds"])
        most = self.stage.server.most_memory()
        self.check(f"the most memory, {name}", most <= MOST_MEMORY, [f"{most} bytes"])
        is_small = self.stage.server.has_memory_below(self.stage.memory + MORE_MEMORY)
        self.check(
            f"the memory after it, {name}",
            is_small,
            [f"{self.stage.server.memory()} bytes, before {self.stage.memory}"],
        )
        is_same = self.stage.server.has_threads(self.stage.threads, PATIENCE)
        self.check(
            f"the threads after it, {name}", is_same, [f"{self.stage.server.threads()}, before {self.stage.threads}"]
        )

    def seconds_of_others(self, name: str) -> float:
        """How long the other client and a new one wait for their answers."""
        began = time.monotonic()
        self.check(f"another client, {name}", self.stage.other.ask("version") == VERSION)
        with self.stage.server.client() as client:
            reply = client.ask("query", str(self.stage.root), {"expression": ["name", "b.txt"], **query_of_names()})
        took = time.monotonic() - began
        self.check(f"a new client, {name}", reply.get("files") == ["b.txt"], [f"{reply}"])
        return took


def send(client: Client, pieces: Iterable[bytes], over: threading.Event) -> None:
    """Sends each piece when the one before it has been taken, and then closes the sending side. What comes after the
    end of a session is never taken."""
    for piece in pieces:
        client.send_bytes(piece)
        while bytes_waiting(client) and not over.is_set():
            time.sleep(0.0001)
    with contextlib.suppress(OSError):
        client.socket.shutdown(socket.SHUT_WR)


def bytes_waiting(client: Client) -> int:
    """How much of what a client sent is not taken yet, with what the system adds to it."""
    try:
        answer = fcntl.ioctl(client.socket, termios.TIOCOUTQ, b"\0\0\0\0")
    except OSError:
        return 0
    return struct.unpack("i", answer)[0]
