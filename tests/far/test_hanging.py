"""A tree that does not answer, as behind a server of a network that is gone: one directory of it is never read to its
end. Other roots, their subscriptions and the end of the server are as quick as without it."""

import os
import signal
import threading
import time
from pathlib import Path
from typing import Any, Dict, List

from case import Timed
from client import VERSION, Client, Server, walked
from follower import make_tree
from waiting import look_until

# A day, in microseconds.
NEVER = 86_400_000_000
# So long an answer may take that waits for no walk of another root, in seconds, on a busy machine.
SOON = 5.0
SESSIONS = 32
# So many clients go: with those that stay they are more than there are places, or seats for sessions.
GOING = 50
TOO_MANY = {"error": "E17: too many sessions", **VERSION}
NOT_WATCHED = "E14: root is not watched"


def hanging(directory: Path) -> List[str]:
    """The words before a server that never gets the names in this directory."""
    calls = ["-e", "trace=getdents64", "-e", f"inject=getdents64:delay_enter={NEVER}"]
    return ["strace", "-f", "-D", "-qq", "-o", "/dev/null", "-P", str(directory), *calls]


class Hanging(Timed):
    def test_a_tree_that_hangs(self) -> None:
        """The tree hangs when it is watched first, or later, when nobody asks for it."""
        self.check_installed("strace")
        for later in (False, True):
            root, other = self.room / f"hangs-{later}", self.room / f"other-{later}"
            make_tree(root)
            make_tree(other)
            hung = root / "hung"
            with Server(self.room, interval=100, share=10, through=hanging(hung)) as server, server.client() as client:
                if later:
                    client.ask("watch", str(root))
                hung.mkdir()
                (hung / "file").touch()
                with server.client() as waiting:
                    asked = ask_and_wait(waiting, root, later)
                    self.check_others(server, client, other, f"beside a tree that hangs, later {later}")
                    self.check(f"its own answer, later {later}", asked.is_alive())
                    self.check_its_end(client, root, later)
                self.check_the_end(server, client, f"later {later}")

    def test_clients_that_go(self) -> None:
        """Clients that ask for a tree that hangs and go give their places back. `watch-del` answers those that wait."""
        self.check_installed("strace")
        root = self.room / "hangs"
        make_tree(root)
        hung = root / "hung"
        query = ["query", str(root), {"fields": ["name"]}]
        with Server(self.room, interval=100, share=10, through=hanging(hung)) as server, server.client() as client:
            client.ask("watch", str(root))
            hung.mkdir()
            with server.client() as scanning:
                ask_and_wait(scanning, root, True)
                for _ in range(GOING):
                    with server.client() as going:
                        going.send(*query)
                others = [server.client_when_free() for _ in range(SESSIONS - 2)]
                found = [other.ask("version") for other in others]
                self.same("clients in the places of those that went", found, [VERSION] * len(others))
                waiting = others[0]
                waiting.send(*query)
                time.sleep(0.5)
                self.check_kept_place(server, root)
                self.same("a client that waited for its turn", waiting.reply().get("error"), NOT_WATCHED)
                self.same("the end from the kept place", kept(server, "shutdown-server").get("error"), None)
                self.check_that_it_ends(server, "from the kept place")
                for other in others:
                    other.close()

    def check_kept_place(self, server: Server, root: Path) -> None:
        """All places are taken, but for one that is kept."""
        with server.client() as late:
            self.same("another command in the kept place", late.ask("watch-list"), TOO_MANY)
        with server.client() as silent:
            self.same("nothing in the kept place", silent.reply(), TOO_MANY)
        before = time.monotonic()
        self.same("a tree that hangs is given up", kept(server, "watch-del", str(root)).get("watch-del"), True)
        self.check("that is soon", time.monotonic() - before < SOON)

    def check_others(self, server: Server, client: Client, other: Path, name: str) -> None:
        """Another root is watched, asked for and followed."""
        before = time.monotonic()
        client.ask("watch", str(other))
        found = client.ask("query", str(other), {"fields": ["name"]})["files"]
        self.same(f"another root, {name}", sorted(found), [row[0] for row in walked(other)])
        with server.client() as second:
            second.ask("subscribe", str(other), "s", {"fields": ["name"]})
            second.reply()
            for number in range(3):
                (other / "d0" / f"new{number}").touch()
                while f"d0/new{number}" not in second.reply().get("files", []):
                    pass
        self.check(
            f"all of it is soon, {name}", time.monotonic() - before < SOON, [f"{time.monotonic() - before:.1f} s"]
        )

    def check_its_end(self, client: Client, root: Path, later: bool) -> None:
        """A root that hangs can be given up."""
        if later:
            before = time.monotonic()
            self.same("a tree that hangs is given up", client.ask("watch-del", str(root)).get("watch-del"), True)
            self.check("that is soon", time.monotonic() - before < SOON)
        else:
            self.same("a tree that hangs is not watched yet", str(root) in client.ask("watch-list")["roots"], False)

    def check_the_end(self, server: Server, client: Client, name: str) -> None:
        client.ask("shutdown-server")
        self.check_that_it_ends(server, name)

    def check_that_it_ends(self, server: Server, name: str) -> None:
        """The server ends soon. `strace` lets go of a call that it delays only when it is killed."""
        status = Path(f"/proc/{server.process.pid}/status")
        before = time.monotonic()
        while "\nState:\tZ" not in status.read_text() and time.monotonic() - before < SOON:
            time.sleep(0.05)
        self.check(f"the end is soon, {name}", time.monotonic() - before < SOON)
        tracer = next(line.split()[1] for line in status.read_text().splitlines() if line.startswith("TracerPid"))
        os.kill(int(tracer), signal.SIGKILL)
        self.same(f"the end beside it, {name}", server.process.wait(), 0)


def kept(server: Server, *command: object) -> Dict[str, Any]:
    """The answer to a client in the kept place, once nobody else has it."""

    def answer() -> Dict[str, Any]:
        with server.client() as client:
            return client.ask(*command)

    return look_until(answer, lambda reply: reply != TOO_MANY)


def ask_and_wait(waiting: Client, root: Path, later: bool) -> threading.Thread:
    """Asks for the tree that hangs, in a thread that waits for the answer for ever."""

    def ask() -> None:
        try:
            waiting.ask("query" if later else "watch", str(root), *([{"fields": ["name"]}] if later else []))
        except (OSError, EOFError, ValueError, RuntimeError):
            pass

    asked = threading.Thread(target=ask, daemon=True)
    asked.start()
    time.sleep(0.5)
    return asked
