"""Roots that go, streams that are hostile, and bridges that start at once."""

import json
import os
import shutil
import stat
import subprocess
import sys
import threading
import time
from pathlib import Path
from typing import Any, Dict, List
from unittest.mock import patch

import built
from bridged import COMMAND, PROGRAM, Bridge
from case import Timed
from client import PATIENCE, Client
from trees import make_files
from waiting import wait_until

from bridge.keeper import Keeper

# So many clients the server takes.
PLACES = 32
# For how long a root that went has its place, in seconds.
GRACE = 1.0
TRIES = 20


class Keeping(Timed):
    def test_a_root_that_goes(self) -> None:
        """The place of a directory that went is given back after the grace time, and not before."""
        gone, back, stays = (self.room / name for name in ("gone", "back", "stays"))
        with Bridge(self.room, grace=GRACE) as bridge, bridge.client() as client:
            for root in (gone, back, stays):
                root.mkdir()
                client.ask("watch", str(root))
            went = time.monotonic()
            gone.rmdir()
            self.same("a root comes back within the grace time", comes_back(client, back), True)
            while str(gone) in client.ask("watch-list")["roots"] and time.monotonic() < went + PATIENCE:
                time.sleep(0.02)
            took = time.monotonic() - went
            self.check("a root that went has its place for the grace time", took >= GRACE, [f"{took:.3f} seconds"])
            roots = sorted(client.ask("watch-list")["roots"])
            self.same("then the place is given back, and no other", roots, [str(back), str(stays)])

    def test_a_root_that_hangs(self) -> None:
        """A look at a root that never ends holds up no other root."""
        ended: List[str] = []
        released = threading.Event()

        def isdir(path: object) -> bool:
            return path != "gone" and released.wait(PATIENCE)

        with patch("os.path.isdir", isdir), patch.object(Keeper, "end", lambda _, root: ended.append(root)):
            keeper = Keeper("", 0.1, print, print)
            for root in ("hung", "gone", "gone"):
                keeper.add(root)
            self.same("the other one is ended", wait_until(lambda: "gone" in ended), True)
            for root in ("hung", "gone"):
                keeper.remove(root)
            released.set()
        self.same("the one that hangs is not", "hung" in ended, False)

    def test_subscribers_of_a_root_that_goes(self) -> None:
        """They are told that the root is watched no longer."""
        root = self.room / "root"
        make_files(root, ["a"])
        with Bridge(self.room, grace=0.2) as bridge, bridge.client() as client:
            client.ask("subscribe", str(root), "s", {"fields": ["name"]})
            client.reply()
            shutil.rmtree(root)
            found = client.reply()
            while "canceled" not in found:
                found = client.reply()
            self.same(
                "subscribers are told",
                (found["canceled"], found["root"], found["subscription"]),
                (True, str(root), "s"),
            )
            self.same("the root is watched no longer", client.ask("watch-list")["roots"], [])

    def test_a_root_that_goes_without_a_place(self) -> None:
        """The bridge tries again to give a place back, if the server had as many clients as it takes."""
        root = self.directory("root")
        with Bridge(self.room, grace=0.4) as bridge:
            bridge.client(root).close()
            others = clients_in_all_places(bridge)
            root.rmdir()
            time.sleep(1)
            for other in others:
                other.close()
            self.same("a root that went while there was no place", is_given_back(bridge), True)

    def test_streams(self) -> None:
        """Lines in pieces and several at once, lines that are too long, and clients that go."""
        with Bridge(self.room) as bridge:
            with bridge.client() as client:
                client.send_bytes(b'["vers')
                time.sleep(0.05)
                client.send_bytes(b'ion"]\n\n["watch-list"]\n["get-so')
                self.same("a line in pieces", client.reply()["version"], "4.9.0")
                self.same("two lines at once", client.reply()["roots"], [])
                client.send_bytes(b'ckname"]\n')
                self.same("the rest of a line", client.reply()["sockname"], bridge.sockname)
                client.send_bytes(b"\n" * 5000 + b'["version"]\n')
                self.same("many lines without words", client.reply()["version"], "4.9.0")
            with bridge.client() as client:
                client.send_bytes(b"[" + b" " * 34_000_000)
                self.same("a line that is too long", client.reply()["error"], "line too long")
                self.same("its stream ends", client.rest(), b"")
            with bridge.client() as client:
                self.same("a value that is too deep", "error" in client_deep(client), True)
            for _ in range(40):
                with bridge.client() as client:
                    client.send_bytes(b'["version"]\n')
            self.same("clients that go give their places back", answers_again(bridge), True)
            mode = stat.S_IMODE(os.stat(bridge.sockname).st_mode)
            self.same("the mode of the socket", mode, 0o600)

    def test_two_bridges(self) -> None:
        """A second bridge leaves the socket of the first; one that was left by a killed bridge is replaced."""
        with Bridge(self.room) as bridge:
            command = [sys.executable, str(PROGRAM), "--server", bridge.server.sockname, "--sockname", bridge.sockname]
            second = subprocess.run(command, stderr=subprocess.PIPE, timeout=PATIENCE)
            self.same("a second bridge", (second.returncode, b"listens there already" in second.stderr), (1, True))
            with bridge.client() as client:
                self.same("the first one goes on", client.ask("version")["wqd"], "wq-1")
            bridge.process.kill()
            bridge.process.wait()
            third = subprocess.Popen(command, stderr=subprocess.PIPE)
            listening = f"bridge: listening on {bridge.sockname}\n".encode()
            assert third.stderr is not None
            self.same("a socket that was left is replaced", listening in iter(third.stderr.readline, b""), True)
            third.terminate()
            self.same("SIGTERM ends a bridge", third.wait(PATIENCE), 0)
            third.stderr.close()
            self.same("and removes its socket", os.path.exists(bridge.sockname), False)

    def test_commands_at_once(self) -> None:
        """Commands that start at once make one server and one bridge, which the last command ends."""
        root = self.room / "root"
        make_files(root, ["a.c"])
        environment = {
            **os.environ,
            "WATCHMAN_SOCK": str(self.room / "sock"),
            "WQD": str(built.program_path()),
            "XDG_STATE_HOME": str(self.room / "state"),
        }
        environment.pop("WQD_SOCK", None)

        def begin(*words: str, script: bytes = b"") -> subprocess.Popen:
            return begun([str(COMMAND), "--no-pretty", *words], script, environment)

        try:
            pids = [said(process) for process in [begin("get-pid") for _ in range(4)]]
            self.same("four commands have one server", len({json.dumps(pid) for pid in pids}), 1)
            self.same(
                "watch", said(begin("watch", str(root))), {"version": "4.9.0", "watch": str(root), "watcher": "poll"}
            )
            query = json.dumps(["query", str(root), {"fields": ["name"]}], indent=1).encode()
            self.same("a query on standard input", said(begin("-j", script=query))["files"], ["a.c"])
            self.same(
                "two dashes", [row["name"] for row in said(begin("--", "find", str(root), "*.c"))["files"]], ["a.c"]
            )
            subscribing = begin(
                "-j", "--persistent", script=json.dumps(["subscribe", str(root), "s", {"fields": ["name"]}]).encode()
            )
            assert subscribing.stdout is not None
            found = [json.loads(subscribing.stdout.readline()) for _ in range(2)]
            subscribing.kill()
            subscribing.communicate()
            self.same("a command that stays", [found[0].get("subscribe"), found[1].get("files")], ["s", ["a.c"]])
            self.same("an error has status 0", "error" in said(begin("frob")), True)
        finally:
            self.same("shutdown-server", said(begin("--no-spawn", "shutdown-server"))["shutdown-server"], True)
        refused = "unable to talk to your watchman" in str(said(begin("--no-spawn", "--no-local", "version")))
        self.same("without a server", refused, True)


def begun(command: List[str], script: bytes, environment: Dict[str, str]) -> subprocess.Popen:
    """A command that has taken its standard input."""
    process = subprocess.Popen(
        command, env=environment, stdin=subprocess.PIPE, stdout=subprocess.PIPE, stderr=subprocess.PIPE
    )
    assert process.stdin is not None
    process.stdin.write(script)
    process.stdin.close()
    process.stdin = None
    return process


def said(process: subprocess.Popen) -> Dict[str, Any]:
    """The reply that a command prints; without one its error, as a key."""
    output, errors = process.communicate(timeout=PATIENCE)
    found: Dict[str, Any] = json.loads(output) if process.returncode == 0 else {errors.decode(): None}
    return found


def comes_back(client: Client, root: Path) -> bool:
    """Whether a directory goes for a half of the grace time. If a busy machine takes all of it, the root is watched
    anew."""
    for _ in range(TRIES):
        went = time.monotonic()
        root.rmdir()
        time.sleep(GRACE / 2)
        root.mkdir()
        if time.monotonic() - went < GRACE:
            return True
        client.ask("watch", str(root))
    return False


def clients_in_all_places(bridge: Bridge) -> List[Client]:
    """Clients of the server. The place of one that went is free a moment later."""
    clients: List[Client] = []
    while len(clients) < PLACES:
        client = bridge.server.client()
        if "error" in client.ask("version"):
            client.close()
            time.sleep(0.01)
        else:
            clients.append(client)
    return clients


def is_given_back(bridge: Bridge) -> bool:
    """Whether no root is watched after some time. A client may come too early for a place."""
    return wait_until(lambda: asked(bridge, "watch-list").get("roots") == [])


def answers_again(bridge: Bridge) -> bool:
    """Whether a new client is answered: the sessions of those that went may still end."""
    return wait_until(lambda: "wqd" in asked(bridge, "version"))


def asked(bridge: Bridge, *command: object) -> dict:
    """What a new client is answered."""
    with bridge.client() as client:
        return client.ask(*command)


def client_deep(client) -> dict:
    client.send_bytes(b'["query","/",' + b"[" * 5000 + b"]" * 5000 + b"]\n")
    return client.reply()
