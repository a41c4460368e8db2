"""Clients of the bridge that have it keep more and more: half messages, connections, notices, templates, chains of
links."""

import contextlib
import json
import socket
import time
from typing import Optional

from bridged import Bridge, BserClient, codec
from case import Beside
from client import Client
from users import memory_of
from trees import make_files
from waiting import PATIENCE, wait_until

from bridge.held import MOST_CLIENTS
from bridge.shape import MOST_VALUES, NoValue, TooMany, Walk

MEBIBYTE = 1_048_576
# In mebibytes: what a bridge may take at most, with what it keeps for its clients.
MOST = 300


def connected(sockname: str) -> socket.socket:
    stream = socket.socket(socket.AF_UNIX)
    stream.settimeout(PATIENCE)
    stream.connect(sockname)
    return stream


def send_until_cut(stream: socket.socket, data: bytes) -> None:
    with contextlib.suppress(OSError):
        stream.sendall(data)


class Floods(Beside):
    def test_half_messages(self) -> None:
        """40 clients of which each sends 4 MiB of a line: the bridge keeps 64 MiB of all, and answers another
        client."""
        make_files(self.room / "root", ["a.c"])
        with Bridge(self.room) as bridge, contextlib.ExitStack() as stack:
            for _ in range(40):
                stream = stack.enter_context(connected(bridge.sockname))
                send_until_cut(stream, b"[" + b" " * (4 * MEBIBYTE))
            with bridge.client() as client:
                self.same(
                    "another client is answered",
                    client.ask("watch", str(self.room / "root")).get("watch"),
                    str(self.room / "root"),
                )
            self.check(
                "the memory of the bridge",
                memory_of(bridge.process.pid) < MOST,
                [f"{memory_of(bridge.process.pid)} MiB"],
            )
            stack.close()
            with bridge.client() as client:
                long_one = client.text(["log", "error", "x" * (2 * MEBIBYTE)])
                self.same(
                    "room for a long message again", wait_until(lambda: is_logged(bridge.sockname, long_one)), True
                )

    def test_clients(self) -> None:
        """A client that never sent anything is ended for one more. If all have, one more gets a line of error, and
        another takes the place of one that went."""
        line = b'["log","error","x"]'
        with Bridge(self.room) as bridge, contextlib.ExitStack() as stack:
            streams = [stack.enter_context(connected(bridge.sockname)) for _ in range(MOST_CLIENTS)]
            self.same("in the place of a silent one", wait_until(lambda: is_logged(bridge.sockname, line)), True)
            self.same("the silent one", streams[0].recv(1), b"")
            for number, stream in enumerate(streams[1:], 1):
                self.same(f"client {number}", is_served(stream), True)
            wait_until(lambda: is_served(stack.enter_context(connected(bridge.sockname))))
            with connected(bridge.sockname) as one_more:
                said = one_more.makefile("rb").read()
                self.same("one more", json.loads(said)["error"], "the bridge serves 64 clients, and no more")
            streams[1].close()
            self.same("in the place of another", wait_until(lambda: is_logged(bridge.sockname, line)), True)

    def test_notices(self) -> None:
        """A client that does not read the log that it asked for is cut off, and the others go on."""
        with Bridge(self.room) as bridge, bridge.client() as deaf, bridge.client() as client:
            deaf.ask("log-level", "debug")
            line = client.text(["log", "error", "x" * (MEBIBYTE // 2)])
            for _ in range(100):
                client.send_bytes(line + b"\n")
                client.reply()
            self.check(
                "the memory of the bridge",
                memory_of(bridge.process.pid) < MOST,
                [f"{memory_of(bridge.process.pid)} MiB"],
            )
            self.same("the other client goes on", client.ask("version").get("version"), "4.9.0")
            deaf.socket.settimeout(PATIENCE)
            self.same(
                "the one that did not read", last_error(deaf), "the client did not read what other clients had it told"
            )

    def test_templates(self) -> None:
        """Templates that claim objects without bytes, and values that take hundreds of times their bytes."""
        claims = b"\x0b\x00\x03\x00" + number(900_000)
        bomb = b"\x00" + number(60) + claims * 60 + b"\x0a" * 1_000_000
        one_key = b"\x0b\x00\x03\x01" + text(b"a")
        for name, data, expected in (
            ("templates without keys", bomb, "NoValue"),
            ("one that is empty", b"\x0b\x00\x03\x00\x03\x00", ""),
            ("more objects than bytes", one_key + number(900_000) + b"\x0a" * 1_000, "NoValue"),
            ("as many values as there may be", one_key + number(MOST_VALUES) + b"\x0a" * MOST_VALUES, ""),
            ("one more", one_key + number(MOST_VALUES + 1) + b"\x0a" * (MOST_VALUES + 1), "TooMany"),
            (
                "as many empty objects",
                b"\x00" + number(MOST_VALUES + 1) + b"\x01\x03\x00" * (MOST_VALUES + 1),
                "TooMany",
            ),
        ):
            self.same(name, fault_of(data), expected)
        bser = codec()
        if bser is None:
            self.skipTest("templates that a bridge is sent, since this Python has no pywatchman")
        with Bridge(self.room) as bridge, BserClient(bridge.sockname, bser) as client:
            client.stream.sendall(b"\x00\x01" + number(len(bomb)) + bomb)
            self.same("what the bridge says", "no BSER" in str(client.reply(1).get("error")), True)
            self.same("the memory of the bridge", memory_of(bridge.process.pid) < MOST, True)

    def test_links_in_a_chain(self) -> None:
        """A chain of 1,500 links with `watch_symlinks`: the links of other roots are followed after it."""
        chain, first, second = self.room / "chain", self.room / "first", self.room / "second"
        for root in (chain, first, second):
            make_files(root, ["a.c"])
            (root / ".watchmanconfig").write_text(json.dumps({"watch_symlinks": root is not second}))
        for turn in range(1_500):
            (chain / f"l{turn}").symlink_to(f"l{turn + 1}")
        (first / "link").symlink_to(second / "a.c")
        with Bridge(self.room) as bridge, bridge.client(chain) as client:
            time.sleep(0.5)
            client.ask("watch", str(first))
            expected = sorted(map(str, (chain, first, second)))
            wait_until(lambda: sorted(client.ask("watch-list")["roots"]) == expected)
            self.same("roots", sorted(client.ask("watch-list")["roots"]), expected)


def is_served(stream: socket.socket) -> bool:
    with contextlib.suppress(OSError):
        stream.sendall(b'["get-sockname"]\n')
        return b'"sockname"' in stream.recv(1_000)
    return False


def is_logged(sockname: str, line: bytes) -> bool:
    with Client(sockname) as client:
        client.send_bytes(line + b"\n")
        try:
            return "logged" in client.reply()
        except (ValueError, OSError):
            return False


def last_error(client: Client) -> Optional[str]:
    """The error with which a stream ends."""
    error = None
    with contextlib.suppress(ValueError, OSError):
        while True:
            error = client.reply().get("error")
    return error


def text(data: bytes) -> bytes:
    return b"\x02\x05" + len(data).to_bytes(4, "little") + data


def number(value: int) -> bytes:
    return b"\x05" + value.to_bytes(4, "little")


def fault_of(data: bytes) -> str:
    try:
        Walk(data, 0).check()
    except (NoValue, TooMany) as fault:
        return type(fault).__name__
    return ""
