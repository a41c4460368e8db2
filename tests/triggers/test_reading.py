"""Commands with a long input: one that reads nothing of it, beside clients that ask, and one that reads and writes
much."""

import os
import time
from pathlib import Path
from typing import List

from case import Timed
from client import Client, query_of_names
from triggered import Scene
from waiting import wait_until

FILES = 200_000
DIRECTORIES = 200
# How long the slowest reply of another client may take, in seconds. On a machine without other work it is a hundredth.
LATE = 1.0
# The files of a command that reads and writes much, and how many bytes it writes to each of its outputs.
NAMES = 20_000
WRITTEN = 10_000_000
# How much more memory the server may have after it, in bytes.
MORE_MEMORY = 6_000_000


class Reading(Timed):
    def test_a_command_that_never_reads(self) -> None:
        """The names of 200,000 files are the input of a command that sleeps. Meanwhile another client is answered at
        once."""
        with Scene(self.room) as scene:
            fill(scene.root)
            small = self.directory("small")
            (small / "a").touch()
            with scene.server.client(small) as other:
                begun, over = scene.out / "begun", scene.out / "over"
                scene.trigger("t", f"touch {begun}; sleep 1; touch {over}; exit 3", stdin="NAME_PER_LINE")
                self.check("it starts", wait_until(begun.exists))
                times: List[float] = []
                while not over.exists() and len(times) < 10_000:
                    times.append(self.time_of_a_query(other, small))
                self.check("it ends", wait_until(over.exists))
            self.check("replies while it runs", len(times) > 10, [f"{len(times)} replies"])
            self.check("the slowest reply while it runs", max(times) < LATE, [f"{max(times):.3f} seconds"])
            print(
                f"beside a command that never reads, the slowest of {len(times)} replies took "
                f"{max(times) * 1000:.1f} ms"
            )
            self.check("nobody waits for it any more", wait_until(lambda: not scene.children()))

    def test_a_command_that_reads_and_writes_much(self) -> None:
        """It gets its whole input, what it writes comes to where the server's own lines go, and the server keeps none
        of it."""
        with Scene(self.room) as scene:
            names = [f"a-file-of-a-long-name-{number:05}" for number in range(NAMES)]
            scene.make(*names)
            scene.client.ask("clock", str(scene.root), {"sync_timeout": 1})
            before = scene.server.least_memory()
            copy = scene.out / "copy"
            written = f"head -c {WRITTEN} /dev/zero"
            script = f"{written}; {written} >&2; cat > {copy}.new; mv {copy}.new {copy}"
            scene.trigger("t", script, stdin="NAME_PER_LINE")
            self.check("it reads its input", wait_until(copy.exists))
            self.same("what it reads", copy.read_text().splitlines(), names)
            self.check("nobody is left to be waited for", wait_until(lambda: not scene.children()))
            said = os.fstat(scene.server.said.fileno()).st_size
            self.check("what it writes", said >= 2 * WRITTEN, [f"{said} bytes"])
            is_small = scene.server.has_memory_below(before + MORE_MEMORY)
            self.check("memory after it", is_small, [f"{scene.server.memory()} bytes, before {before}"])

    def time_of_a_query(self, client: Client, root: Path) -> float:
        """How many seconds the reply to a query takes that does not crawl."""
        began = time.monotonic()
        reply = client.ask("query", str(root), {"sync_timeout": 0, **query_of_names()})
        took = time.monotonic() - began
        if reply.get("files") != ["a"]:
            self.same("a reply beside it", reply, ["a"])
        time.sleep(0.005)
        return took


def fill(root: Path) -> None:
    for directory in range(DIRECTORIES):
        path = root / f"directory{directory:03}"
        path.mkdir()
        for file in range(FILES // DIRECTORIES):
            (path / f"file{file:03}").touch()
