"""The cost of one hostile client's triggers for others. A round runs the programs of the triggers of a root. Then it
holds the lock that each request takes, while it makes their batches. The first batch of a trigger looks at all files,
and one that is registered anew begins anew. So the client registers its triggers again and again."""

import threading
import time
from pathlib import Path
from typing import Callable, Dict, List

from dear_lines import ATOMS, MARKS, PATTERNS, line
from client import Server
from observers import EVERY, MOST_WAIT, Observer, at_99, at_middle

# The pause of the server between two rounds, in milliseconds, and how long a case lasts, in seconds.
INTERVAL = 1_000
LASTS = 20.0
# A root may have 64 triggers, but a round of so many dear ones lasts minutes.
TRIGGERS = 8
# A wait of more seconds is long.
LONG = 0.1
COLUMNS = ("case", "get-sockname: p50, p99, longest; long", "clock: p50, p99, longest; long", "processor")
HEAD = f"| {' | '.join(COLUMNS)} |\n" + "|---" * len(COLUMNS) + "|"


def trigger(root: str, number: int, expression: object) -> bytes:
    """A trigger whose expression finds no file starts nothing."""
    return line("trigger", root, {"name": f"t{number}", "command": ["true"], "expression": expression})


def anyof(patterns: List[str]) -> object:
    return ["anyof", *[["match", pattern, "wholename"] for pattern in patterns]]


def trigger_cases(root: str) -> Dict[str, Callable[[], List[bytes]]]:
    """The lines of each case by its name."""
    letters = anyof([f"{number:0>{ATOMS - 1}}?" for number in range(PATTERNS)])
    marks = anyof([MARKS] * PATTERNS)
    return {
        "no trigger": lambda: [],
        "a trigger of a false": lambda: [trigger(root, 0, "false")],
        "a trigger of 1,000 patterns of 255 atoms": lambda: [trigger(root, 0, letters)],
        "a trigger of 1,000 patterns of a star and 254 marks": lambda: [trigger(root, 0, marks)],
        f"{TRIGGERS} triggers of 1,000 patterns of 255 atoms": lambda: [
            trigger(root, number, letters) for number in range(TRIGGERS)
        ],
    }


def register(server: Server, lines: List[bytes], ended: threading.Event) -> None:
    """A client that registers triggers again and again, some times in each interval."""
    with server.client() as client:
        client.socket.settimeout(MOST_WAIT)
        while not ended.wait(INTERVAL / 4000):
            for one in lines:
                client.send_bytes(one)
                reply = client.reply()
                if "error" in reply:
                    raise ValueError(f"a trigger is refused: {reply}")


def row_of(room: Path, root: str, name: str, lines: List[bytes]) -> str:
    """The waits of two others beside the triggers."""
    with Server(room, interval=INTERVAL) as server, server.client() as client:
        client.socket.settimeout(MOST_WAIT)
        client.ask("watch", root)
        ended = threading.Event()
        hostile = threading.Thread(target=register, args=(server, lines, ended))
        spent, began = server.processor_seconds(), time.monotonic()
        observers = [Observer(server.sockname, "get-sockname"), Observer(server.sockname, "clock", root)]
        hostile.start()
        time.sleep(LASTS)
        waits = [observer.end() for observer in observers]
        spent, took = server.processor_seconds() - spent, time.monotonic() - began
        ended.set()
        hostile.join()
    return f"| {name} | {said_of(waits[0])} | {said_of(waits[1])} | {spent:.1f} s of {took:.0f} s |"


def said_of(times: List[float]) -> str:
    long = sum(wait for wait in times if wait > LONG) / (sum(times) + EVERY * len(times))
    return f"{at_middle(times) * 1000:.1f} ms, {at_99(times) * 1000:.0f} ms, {max(times) * 1000:.0f} ms; {long:.0%}"
