"""File systems that do not answer, such as a mount whose server is gone: whoever looks there hangs, and no signal ends
that. So a child looks first."""

import os
import select
import time
from typing import Callable, List

from .trouble import WrongWords

# So long, in seconds, a file system has to answer.
PATIENCE = 5.0


def look_at(path: str) -> None:
    try:
        os.stat(path)
    except (OSError, ValueError):
        pass


def require_answers(paths: List[str], look: Callable[[str], None] = look_at, patience: float = PATIENCE) -> None:
    """Refuses a path whose file system does not answer."""
    reading, writing = os.pipe()
    child = os.fork()
    if child == 0:
        try:
            for path in paths:
                look(path)
                os.write(writing, b".")
        finally:
            os._exit(0)
    os.close(writing)
    answered, end = 0, time.monotonic() + patience
    while answered < len(paths) and select.select([reading], [], [], max(0.0, end - time.monotonic()))[0]:
        answered += len(os.read(reading, len(paths))) or len(paths)
    os.close(reading)
    if answered < len(paths):
        raise WrongWords(f"{paths[answered]}: its file system does not answer")
    os.waitpid(child, 0)
