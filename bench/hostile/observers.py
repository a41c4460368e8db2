"""Other clients beside a hostile one: how long they wait."""

import multiprocessing
import statistics
import time
from typing import List

from client import Client

FORK = multiprocessing.get_context("fork")
# A pause between two requests, in seconds.
EVERY = 0.002
# How long a client waits for a reply at most: programs of many patterns take some 20 minutes over a million entries.
MOST_WAIT = 7_200


class Observer:
    """A client in a process of its own that asks the same again and again, and tells how long it waited each time."""

    def __init__(self, sockname: str, *command: object) -> None:
        self.stop = FORK.Event()
        self.told = FORK.SimpleQueue()
        self.process = FORK.Process(target=self.run, args=(sockname, command))
        self.process.start()

    def run(self, sockname: str, command: tuple) -> None:
        times = []
        with Client(sockname) as client:
            client.socket.settimeout(MOST_WAIT)
            while not self.stop.is_set():
                began = time.monotonic()
                client.ask(*command)
                times.append(time.monotonic() - began)
                time.sleep(EVERY)
        self.told.put(times)

    def end(self) -> List[float]:
        """How long it waited each time."""
        self.stop.set()
        times = self.told.get()
        self.process.join()
        return times


def at_middle(times: List[float]) -> float:
    return statistics.median(times) if times else 0.0


def at_99(times: List[float]) -> float:
    """The time that 99 of 100 do not exceed."""
    return sorted(times)[len(times) * 99 // 100] if times else 0.0
