"""A bridge beside a server that runs, and clients of it."""

import json
import os
import socket
import struct
import subprocess
import sys
from pathlib import Path
from types import ModuleType
from typing import Callable, Dict, List, Optional

import built
from client import PATIENCE, Client, Server, client_of
from trees import make_files
from waiting import look_until, wait_until

sys.path[:0] = [str(built.TOP / "clients")]

from bridge.encodings import find_codec
from wqclient.sockets import is_listened_on

PROGRAM = built.TOP / "clients" / "bridge"
COMMAND = built.TOP / "clients" / "watchman"
VERSION = "4.9.0"
INTERVAL = 50
NO_CODEC = "this Python has no pywatchman (Debian's python3-pywatchman): BSER itself is not tested"
# How long a list that should not come is waited for, in seconds: some intervals.
SILENCE = 0.4


class Bridge:
    """A server and a bridge, whose sockets are in a directory."""

    def __init__(
        self, room: Path, interval: int = INTERVAL, grace: float = 60, words: Optional[List[str]] = None
    ) -> None:
        self.sockname = str(room / "bridge")
        self.server = Server(room, interval)
        self.command = [
            sys.executable,
            str(PROGRAM),
            "--server",
            self.server.sockname,
            "--sockname",
            self.sockname,
            "--grace",
            str(grace),
            *(words or []),
        ]
        self.process = self.started()

    def started(self) -> subprocess.Popen:
        process = subprocess.Popen(self.command, stderr=subprocess.PIPE)
        wait_for_socket(self.sockname, process)
        return process

    def replace(self) -> None:
        """Kills the bridge, and starts another one beside the server."""
        self.end()
        self.process = self.started()

    def __enter__(self) -> "Bridge":
        return self

    def __exit__(self, *_: object) -> None:
        self.end()
        self.server.kill()
        self.server.said.close()

    def end(self) -> None:
        self.process.kill()
        self.process.wait()
        if self.process.stderr is not None:
            self.process.stderr.close()

    def client(self, watched: Optional[Path] = None) -> Client:
        return client_of(self.sockname, watched)


def wait_for_socket(sockname: str, process: subprocess.Popen) -> None:
    wait_until(lambda: is_listened_on(sockname) or process.poll() is not None)
    if not is_listened_on(sockname):
        raise ValueError(f"nobody listens on {sockname}")


def codec() -> Optional[ModuleType]:
    """The codec for BSER, if the distribution's pywatchman is installed."""
    return find_codec()


class BserClient:
    """A client that speaks BSER, in messages that it reads by their lengths."""

    def __init__(self, sockname: str, bser: ModuleType) -> None:
        self.bser = bser
        self.stream = socket.socket(socket.AF_UNIX, socket.SOCK_STREAM)
        self.stream.settimeout(PATIENCE)
        self.stream.connect(sockname)

    def __enter__(self) -> "BserClient":
        return self

    def __exit__(self, *_: object) -> None:
        self.stream.close()

    def ask(self, version: int, *command: object) -> Dict[str, object]:
        """The reply to a command in this version of BSER, which has to be in the same."""
        self.stream.sendall(self.bser.dumps(list(command), version=version, capabilities=0))
        return self.reply(version)

    def reply(self, version: int) -> Dict[str, object]:
        head = self.exactly(2 if version == 1 else 6)
        if head[:2] != bytes([0, version]):
            raise ValueError(f"the reply begins with {head!r}")
        kind = self.exactly(1)
        form = {3: "<b", 4: "<h", 5: "<i", 6: "<q"}[kind[0]]
        size = self.exactly(struct.calcsize(form))
        body = self.exactly(struct.unpack(form, size)[0])
        reply: Dict[str, object] = self.bser.loads(head + kind + size + body, value_encoding="utf-8")
        return reply

    def exactly(self, length: int) -> bytes:
        data = b""
        while len(data) < length:
            piece = self.stream.recv(length - len(data))
            if not piece:
                raise ValueError(f"the stream ended after {data!r}")
            data += piece
        return data


def is_silent(client: Client, seconds: float = SILENCE) -> bool:
    """Whether nothing comes for some time."""
    client.socket.settimeout(seconds)
    try:
        return not client.read and not client.socket.recv(1, socket.MSG_PEEK)
    except socket.timeout:
        return True
    finally:
        client.socket.settimeout(PATIENCE)


def text_of(path: Path, is_right: Callable[[str], object]) -> str:
    """The text of a file, as soon as it is right."""
    return look_until(lambda: path.read_text() if path.exists() else "", is_right)


def names_of(client: Client, root: Path, query: Dict[str, object]) -> List[str]:
    reply = client.ask("query", str(root), {"fields": ["name"], "sync_timeout": 0, **query})
    if "error" in reply:
        raise ValueError(f"{query}: {reply}")
    return sorted(reply["files"])


def move_in(aside: Path, root: Path, names: List[str]) -> None:
    """Moves files to a root that were made aside, so that no walk sees one half written."""
    make_files(aside, names)
    for name in names:
        (aside / name).rename(root / name)


def set_for(root: Path, settings: Dict[str, object]) -> None:
    root.mkdir(parents=True, exist_ok=True)
    (root / ".watchmanconfig").write_text(json.dumps(settings))


def run(
    room: Path,
    *words: str,
    sockname: str = "sock",
    output: int = subprocess.PIPE,
    given: bytes = b"",
    **variables: str,
) -> subprocess.CompletedProcess:
    """Runs the command in a directory, with names that are relative to it, and with bytes on its standard input."""
    environment = {
        **os.environ,
        "WATCHMAN_SOCK": sockname,
        "WQD": os.path.relpath(str(built.program_path()), str(room)),
        "XDG_STATE_HOME": str(room.resolve() / "state"),
        **variables,
    }
    environment.pop("WQD_SOCK", None)
    return subprocess.run(
        [str(COMMAND), *words],
        env=environment,
        cwd=str(room),
        input=given,
        stdout=output,
        stderr=subprocess.PIPE,
        timeout=PATIENCE,
    )
