"""Python's watchdog: its own polling, and the observer that has wqd watch."""

import os
import subprocess
from pathlib import Path
from typing import List

from polling.pollers import HERE, Poller, Printed, Watch, facts
from served import AS_WQ, Wqd
from wq.processes import Facts

PYTHON = "/usr/bin/python3"
PACKAGE = "the package python3-watchdog"
SERVED = "`wqd_watchdog` and its server"


def observed(kind: str, root: Path, seconds: str) -> List[str]:
    """A program in Python with an observer."""
    return [PYTHON, "-B", str(HERE / "observed.py"), kind, str(root), seconds]


class Ready(Printed):
    """A program that says when it is ready."""

    def __init__(self, command: List[str]) -> None:
        super().__init__(command)
        self.wait_for("ready\n")


class Served(Ready):
    """A program with an adapter, and the server that it asks: figures are of both together."""

    def __init__(self, command: List[str], room: Path) -> None:
        self.server = Wqd(room, **AS_WQ)
        os.environ.update(WQD_SOCK=self.server.sockname, XDG_STATE_HOME=str(room))
        super().__init__(command)

    def facts(self) -> Facts:
        own, served = super().facts(), facts(self.server.process.pid)
        return own._replace(
            memory=own.memory + served.memory, processor_seconds=own.processor_seconds + served.processor_seconds
        )

    def end(self) -> None:
        super().end()
        self.server.kill()


def watchdogs() -> List[Poller]:
    return [polling("1"), adapted("1")]


def missing() -> bool:
    """Whether the Python of the system has no watchdog."""
    ended = subprocess.run([PYTHON, "-c", "import watchdog.observers"], stderr=subprocess.DEVNULL)
    return ended.returncode != 0


def polling(seconds: str) -> Poller:
    def start(root: Path, room: Path) -> Watch:
        return Ready(observed("polling", root, seconds))

    return Poller(f"watchdog, `PollingObserver`, {seconds} s", PACKAGE if missing() else None, start)


def adapted(seconds: str) -> Poller:
    def start(root: Path, room: Path) -> Watch:
        return Served(observed("wqd", root, seconds), room)

    return Poller(SERVED, PACKAGE if missing() else None, start)
