"""Gives back the places of roots whose directories went for good."""

import json
import os
import threading
import time
from typing import Callable, Dict

from bridge.faults import Ended
from bridge.link import Link

LOOKS = 4
# How the server's error begins if it has as many clients as it takes.
NO_PLACE = "E17:"


class Keeper:
    """Looks now and then whether the watched directories are there. One that is gone for the whole grace time is
    watched no longer. A look may take as long as the file system likes, so each root has a thread of its own."""

    def __init__(self, server: str, grace: float, say: Callable[[str], None], forget: Callable[[str], None]) -> None:
        self.server = server
        self.grace = grace
        self.say = say
        self.forget = forget
        self.lock = threading.Lock()
        # Of each root what its thread was begun with.
        self.turns: Dict[str, object] = {}

    def add(self, root: str) -> None:
        turn = object()
        with self.lock:
            if self.turns.setdefault(root, turn) is not turn:
                return
        try:
            threading.Thread(target=self.keep, args=(root, turn), daemon=True).start()
        except RuntimeError as error:
            self.say(f"{json.dumps(root)} is not looked at: {error}")
            self.remove(root)

    def remove(self, root: str) -> None:
        with self.lock:
            self.turns.pop(root, None)

    def keep(self, root: str, turn: object) -> None:
        """Looks at a root, until it is kept no longer."""
        gone_since = 0.0
        while True:
            time.sleep(self.grace / LOOKS)
            is_there = os.path.isdir(root)
            if self.turns.get(root) is not turn:
                return
            now = time.monotonic()
            gone_since = 0.0 if is_there else gone_since or now
            if gone_since and now - gone_since >= self.grace:
                self.end(root)

    def end(self, root: str) -> None:
        """Ends the watch of a root. If the server does not answer, or has no place for a client, the next look tries
        again."""
        try:
            link = Link(self.server)
        except Ended:
            return
        try:
            link.send(["watch-del", root])
            reply = json.loads(link.line())
        except Ended:
            return
        finally:
            link.close()
        if str(reply.get("error", "")).startswith(NO_PLACE):
            return
        self.forget(root)
        if "error" not in reply:
            self.say(f"{json.dumps(root)}: its directory is gone, so it is watched no longer")
