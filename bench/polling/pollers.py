"""The pollers: how each is started, how it says that a file changed, and which Debian package has it."""

import os
import select
import shutil
import subprocess
import time
from pathlib import Path
from typing import Callable, Dict, List, NamedTuple, Optional

from served import Wqd
from wq.processes import Facts, facts_of

HERE = Path(__file__).resolve().parent

# A poller that says nothing of a change for so many seconds has missed it.
PATIENCE = 60.0
MODULES = "/usr/share/nodejs"
# The numbers of `wqd serve`, and those that it takes without a word of them.
OF_WQD: List[Dict[str, int]] = [{}, {"share": 10}, {"share": 10, "interval": 100}]
USUAL = {"interval": 1000}


class Missed(Exception):
    """A poller said nothing."""


class Watch:
    """A poller that runs."""

    process: "subprocess.Popen[bytes]"

    def facts(self) -> Facts:
        return facts(self.process.pid)

    def wait_for(self, text: str) -> None:
        """Waits until it says this text, such as the path of a file."""
        raise NotImplementedError

    def end(self) -> None:
        self.process.kill()
        self.process.wait()


def facts(process: int) -> Facts:
    found = facts_of(process)
    if found is None:
        raise Missed("it has ended")
    return found


class Printed(Watch):
    """One that prints a line for each file that changed."""

    def __init__(self, command: List[str]) -> None:
        environment = {"NODE_PATH": MODULES, **os.environ}
        self.held = b""
        self.process = subprocess.Popen(
            command, stdin=subprocess.DEVNULL, stdout=subprocess.PIPE, stderr=subprocess.DEVNULL, env=environment
        )

    def wait_for(self, text: str) -> None:
        end = time.monotonic() + PATIENCE
        while text.encode() not in self.held:
            left = end - time.monotonic()
            if left <= 0 or not select.select([self.process.stdout], [], [], left)[0]:
                raise Missed(f"it says nothing of {text}")
            assert self.process.stdout is not None
            data = os.read(self.process.stdout.fileno(), 65_536)
            if not data:
                raise Missed("it has ended")
            self.held += data
        self.held = b""


class Subscribed(Watch):
    """wqd, with one client that has a subscription."""

    def __init__(self, root: Path, room: Path, numbers: Dict[str, int]) -> None:
        server = Wqd(room, **{**USUAL, **numbers})
        self.process, self.root, self.client = server.process, root, server.client()
        self.client.ask("watch", str(root))
        self.client.subscribe(root)

    def wait_for(self, text: str) -> None:
        self.client.waits_for(os.path.relpath(text, self.root))

    def end(self) -> None:
        self.client.close()
        super().end()


class Poller(NamedTuple):
    """A row of the table."""

    title: str
    # What is missing, if it cannot be started here.
    missing: Optional[str]
    start: Callable[[Path, Path], Watch]


def pollers() -> List[Poller]:
    return [
        *(chokidar(interval) for interval in (100, 1000)),
        *(fswatch(seconds) for seconds in ("1", "0.1")),
        *(wqd(numbers) for numbers in OF_WQD),
    ]


def chokidar(interval: int) -> Poller:
    has_it = shutil.which("node") and Path(MODULES, "chokidar").is_dir()
    missing = None if has_it else "the package node-chokidar"

    def start(root: Path, room: Path) -> Watch:
        watch = Printed(["node", str(HERE / "chokidar.js"), str(root), str(interval)])
        watch.wait_for("ready\n")
        return watch

    return Poller(f"chokidar, `usePolling`, `interval: {interval}`", missing, start)


def fswatch(seconds: str) -> Poller:
    missing = None if shutil.which("fswatch") else "the package fswatch"

    def start(root: Path, room: Path) -> Watch:
        # It does not say when its first look is over.
        watch = Printed(["fswatch", "--recursive", "--monitor=poll_monitor", f"--latency={seconds}", str(root)])
        time.sleep(5)
        return watch

    return Poller(f"fswatch, `poll_monitor`, {seconds} s", missing, start)


def wqd(numbers: Dict[str, int]) -> Poller:
    def start(root: Path, room: Path) -> Watch:
        return Subscribed(root, room, numbers)

    words = ["wqd serve", *(f"--{name} {number}" for name, number in numbers.items())]
    return Poller(f"`{' '.join(words)}`", None, start)
