"""How long the file system of a tree takes to answer. One over a network may take a hundred times as long as one in
memory, and the server then scans it soon only if somebody waits."""

import os
import time
from collections import deque
from typing import Callable, Deque, Iterator

# The number of last looks, of which fewer than the second number are quick on a slow file system, and from how many
# seconds on a look is slow. One at what the kernel has in memory takes some microseconds.
LOOKS, MOST_QUICK, SLOW = 16, 12, 0.0001
AT_ONCE = 4


class Latency:
    """Looks at some files now and then, in their order."""

    def __init__(self, paths: Callable[[], Iterator[str]]) -> None:
        self.paths = paths
        self.rest = paths()
        self.seconds: Deque[float] = deque(maxlen=LOOKS)

    def look(self, count: int = AT_ONCE) -> None:
        for _ in range(count):
            path = self.next_path()
            began = time.perf_counter()
            try:
                os.stat(path)
            except OSError:
                continue
            self.seconds.append(time.perf_counter() - began)

    def next_path(self) -> str:
        """A path; again the first after the last one, or if files came or went."""
        try:
            return next(self.rest)
        except (StopIteration, RuntimeError):
            self.rest = self.paths()
            return next(self.rest)

    def is_slow(self) -> bool:
        quick = sum(seconds < SLOW for seconds in self.seconds)
        return len(self.seconds) >= AT_ONCE and quick * LOOKS < len(self.seconds) * MOST_QUICK
