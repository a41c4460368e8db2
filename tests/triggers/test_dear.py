"""A trigger whose program takes long: the other clients are answered meanwhile."""

import threading
import time
from typing import Callable, List

from case import Timed
from client import Client
from triggered import Scene
from waiting import wait_until

FILES = 300
# Each of these patterns looks for its letters at each place of a name, and fits none.
PATTERNS = 150
PATTERN = "*a" * 126 + "[b]"
EXPRESSION = ["anyof", ["name", "last"], *[["match", PATTERN, "wholename"]] * PATTERNS]
# The trigger's program takes so long at least, in seconds.
LEAST = 0.2


class Dear(Timed):
    def test_a_trigger_that_takes_long(self) -> None:
        """No reply waits for half of the time that the trigger's program takes on all files."""
        with Scene(self.room) as scene, scene.server.client() as other:
            scene.make(*("a" * 200 + f"{number:03}" for number in range(FILES)), "last")
            alone = time_of(
                lambda: scene.client.ask("query", str(scene.root), {"expression": EXPRESSION, "fields": ["name"]})
            )
            self.check("the time of the program", alone >= LEAST, [f"{alone:.3f} seconds"])
            begun = scene.out / "begun"
            waits: List[float] = []
            asking = threading.Thread(target=ask_until, args=(other, begun.exists, waits))
            asking.start()
            scene.trigger("t", f"touch {begun}", expression=EXPRESSION)
            self.check("it starts", wait_until(begun.exists))
            asking.join()
            self.check("replies meanwhile", len(waits) > 10, [f"{len(waits)} replies"])
            self.check("the slowest of them", max(waits) < alone / 2, [f"{max(waits):.3f} of {alone:.3f} seconds"])
            self.same("another trigger beside it", scene.trigger("u", "true").get("disposition"), "created")


def ask_until(client: Client, is_over: Callable[[], bool], waits: List[float]) -> None:
    """Asks again and again, and keeps how long each reply took."""
    while not is_over():
        waits.append(time_of(lambda: client.ask("get-sockname")))


def time_of(act: Callable[[], object]) -> float:
    begun = time.monotonic()
    act()
    return time.monotonic() - begun
