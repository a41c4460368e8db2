"""What a server asks of the system, as `strace` shows it, and what it does where the system interrupts it."""

import re
import time
from pathlib import Path
from typing import List, Sequence

from case import Case
from client import A_HOUR, PATIENCE, VERSION, Server, query_of_names
from shared import STRACE
from trees import fill_directory

CALLS = ["mkdir", "bind", "chmod", "link", "unlink", "rmdir"]
FILES = 10_000
TURNS = 10


class Traced(Case):
    def test_calls_at_the_start(self) -> None:
        """The socket is made in a directory that nobody else can enter, and has its mode before it has its name."""
        self.check_installed("strace")
        said = self.room / "calls"
        (self.room / "in").mkdir()
        through = [*STRACE, "-o", str(said), "-e", "trace=" + ",".join(CALLS)]
        with Server(self.room / "in", through=through):
            found = calls_in(said, f"{self.room}/in/")
        expected = [
            "mkdir .wqd0 0700",
            "bind .wqd0/s",
            "chmod .wqd0/s 0600",
            "link .wqd0/s socket",
            "unlink .wqd0/s",
            "rmdir .wqd0",
        ]
        self.same("how the socket comes", found, expected)

    def test_interrupted_calls(self) -> None:
        """Each second read of a client's stream is interrupted, and each second write: nothing is lost."""
        self.check_installed("strace")
        root = self.room / "tree"
        fill_directory(root, FILES)
        for call in ("recvfrom", "sendto"):
            self.check_an_interrupted_call(self.room, root, interrupting(call))

    def check_an_interrupted_call(self, room: Path, root: Path, through: Sequence[str]) -> None:
        name = through[-1]
        with Server(room, interval=A_HOUR, through=through) as server, server.client(root) as client:
            self.same(f"replies, {name}", [client.ask("version") for _ in range(TURNS)], [VERSION] * TURNS)
            files = client.ask("query", str(root), query_of_names()).get("files", [])
            self.same(f"a long reply, {name}", len(files), FILES)
            self.same(f"the end, {name}", server.shut_down(client), 0)


def calls_in(said: Path, above: str) -> List[str]:
    """The calls about files below a directory, which were written before the server said that it listens: each with
    those files, and with a mode."""
    end = time.monotonic() + PATIENCE
    calls: List[str] = []
    while not any(call.startswith("rmdir") for call in calls) and time.monotonic() < end:
        time.sleep(0.01)
        calls = [call_of(line, above) for line in said.read_text().splitlines() if above in line]
    return calls


def call_of(line: str, above: str) -> str:
    name = re.search(r"\b([a-z]+)\(", line)
    files = re.findall('"' + re.escape(above) + '([^"]*)"', line)
    modes = re.findall(r", (0[0-7]{3})\b", line)
    return " ".join([name.group(1) if name else "?", *files, *modes])


def interrupting(call: str) -> Sequence[str]:
    return [*STRACE, "-o", "/dev/null", "-e", f"trace={call}", "-e", f"inject={call}:error=EINTR:when=1+2"]
