"""Waiting for what comes to be so."""

import os
import time
from typing import Callable, TypeVar

# A test waits so many seconds for what should come. It bounds nothing that is tested.
PATIENCE = float(os.environ.get("PATIENCE", "120"))
PAUSE = 0.01
Seen = TypeVar("Seen")


def look_until(look: Callable[[], Seen], is_right: Callable[[Seen], object], seconds: float = PATIENCE) -> Seen:
    """What is seen when it is right, or else when the patience ends."""
    end = time.monotonic() + seconds
    while True:
        seen = look()
        if is_right(seen) or time.monotonic() > end:
            return seen
        time.sleep(PAUSE)


def wait_until(is_so: Callable[[], object], seconds: float = PATIENCE) -> bool:
    """Whether something comes to be so before the patience ends."""
    return bool(look_until(is_so, bool, seconds))
