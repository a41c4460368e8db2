"""The servers that benches start, wqd and others, each with its socket in a directory, and clients of them."""

import signal
import sys
from pathlib import Path
from typing import Any, List

TOP = Path(__file__).resolve().parent.parent
sys.path[:0] = [str(TOP / "tests"), str(TOP / "tests" / "server"), str(TOP / "clients")]

from client import A_HOUR, Running, Server
from trees import append
from waiting import wait_until
from wqclient import client
from wqclient.client import Value
from wqclient.sockets import is_listened_on
from wqclient.starting import usual

PATIENCE = 300.0
# Numbers of a server as `wq` and the systemd unit start it: often, for at most a tenth of a processor.
AS_WQ = {option[2:]: int(value) for option, value in usual().items()}


class Client(client.Client):
    """A client that takes every error for a fault of the bench."""

    def __init__(self, sockname: str) -> None:
        super().__init__(sockname, PATIENCE)

    def __enter__(self) -> "Client":
        return self

    def ask(self, *command: object) -> Value:
        value = super().ask(*command)
        if "error" in value:
            raise ValueError(f"{command}: {value['error']}")
        return value

    def subscribe(self, root: Path) -> None:
        """Subscribes to the names of a root, and takes the first list, which has all of them."""
        self.ask("subscribe", str(root), "s", {"fields": ["name"]})
        self.next_list()

    def waits_for(self, name: str) -> None:
        """Waits for the list with this name."""
        while name not in str(self.next_list()["files"]):
            pass

    def hears_of_a_write(self, root: Path, name: str) -> None:
        append(root / name)
        self.waits_for(name)


class Peer(Running):
    """A server that is ready as soon as it answers: another one than wqd, or a bridge."""

    def __init__(self, name: str, command: List[str], sockname: str, room: Path) -> None:
        self.name, self.sockname = name, sockname
        Running.__init__(self, command, HOME=str(room))
        wait_until(lambda: is_listened_on(sockname) or self.process.poll() is not None, PATIENCE)
        if not is_listened_on(sockname):
            sys.exit(f"bench: {name} does not start: {self.errors().decode()}")
        with self.client() as asking:
            asking.ask("version")

    def client(self) -> Client:
        return Client(self.sockname)

    def kill(self) -> None:
        """Ends it as its user would: Watchman ends what it started."""
        self.process.send_signal(signal.SIGCONT)
        self.process.terminate()
        self.process.wait()

    def pause(self, is_paused: bool) -> None:
        """Stops the server while the other is measured, so that its own work takes nothing of the processors."""
        self.process.send_signal(signal.SIGSTOP if is_paused else signal.SIGCONT)


class Wqd(Peer, Server):
    """wqd, which scans when a query asks for it, if no interval is given."""

    def __init__(self, room: Path, interval: int = A_HOUR, **given: Any) -> None:
        Server.__init__(self, room, interval, **given)
        self.name = "wqd"


def watchman(room: Path) -> Peer:
    places = [f"--{name}file={room}/w.{name}" for name in ("log", "state", "pid")]
    words = ["watchman", "--foreground", f"--sockname={room}/w", *places, "--no-save-state", "--log-level=0"]
    return Peer("watchman", words, f"{room}/w", room)


def bridge(room: Path, server: Server) -> Peer:
    words = ["/usr/bin/python3", "-B", str(TOP / "clients" / "bridge"), "--server", server.sockname]
    return Peer("bridge", [*words, "--sockname", f"{room}/b"], f"{room}/b", room)
