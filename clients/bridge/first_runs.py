"""First runs of triggers. Each is held back until its client was answered and nothing changes in its root.

The server has a trigger meanwhile that no file matters to, and that of the client takes its place.
"""

import json
import threading
import time
from typing import Callable, Dict, List, Optional

from bridge.faults import Ended
from bridge.link import Link
from bridge.triggers import Definition, is_held_back, text_of

# In seconds: between two looks; the longest wait for a root that changes on and on; and for a lock at the end.
PAUSE = 0.02
PATIENCE = 60.0
GRACE = 1.0


class FirstRun:
    """The trigger that the server is to have, once the client was told of it and the root has settled."""

    def __init__(self, root: str, definition: Definition, settle: float) -> None:
        self.root = root
        self.definition = definition
        self.settle = settle
        self.is_told = False
        # The clock of the root at the last look, and since when it is this one.
        self.seen: object = None
        self.since = 0.0
        self.end = time.monotonic() + PATIENCE

    def is_of(self, root: str, found: Definition) -> bool:
        """Whether the server has this trigger, as it is held back, and no other in its place."""
        return root == self.root and is_held_back(found) and text_of(found) == text_of(self.definition)


class FirstRuns:
    """A client of the server as long as it holds any back. Its lock is held while triggers come and go."""

    def __init__(self, server: str, say: Callable[[str], None]) -> None:
        self.server = server
        self.say = say
        self.lock = threading.RLock()
        self.link: Optional[Link] = None
        self.held: List[FirstRun] = []

    def hold(self, root: str, definition: Definition, settle: float) -> Optional[FirstRun]:
        """Holds a first run back; none, if the server has no place for one more client."""
        with self.lock:
            if self.link is None and not self.begin():
                return None
            found = FirstRun(root, definition, settle)
            self.held.append(found)
            return found

    def holds(self, root: str, found: Definition) -> bool:
        with self.lock:
            return any(each.is_of(root, found) for each in self.held)

    def drop(self, first: FirstRun) -> None:
        with self.lock:
            if first in self.held:
                self.held.remove(first)

    def begin(self) -> bool:
        try:
            link = Link(self.server)
        except Ended:
            return False
        try:
            if "error" not in asked(link, ["version"]):
                threading.Thread(target=self.run, args=(link,), daemon=True).start()
                self.link = link
                return True
        except (Ended, RuntimeError):
            pass
        link.close()
        return False

    def run(self, link: Link) -> None:
        try:
            while self.goes_on():
                time.sleep(PAUSE)
                for first in list(self.held):
                    self.look(link, first)
        except Ended:
            with self.lock:
                # The server has gone, and its triggers with it.
                self.held.clear()
                self.link = None
        finally:
            link.close()

    def goes_on(self) -> bool:
        with self.lock:
            if not self.held:
                self.link = None
            return bool(self.held)

    def look(self, link: Link, first: FirstRun) -> None:
        with self.lock:
            now = time.monotonic()
            if first not in self.held or not first.is_told:
                return
            # The server does not scan for it, so no look takes long. Its round scans before it starts a trigger.
            clock = asked(link, ["clock", first.root]).get("clock")
            if clock != first.seen:
                first.seen, first.since = clock, now
            if clock is None or now - first.since >= first.settle or now >= first.end:
                self.let_go(link, first)

    def let_go(self, link: Link, first: FirstRun) -> None:
        """Has the server take the client's trigger, unless it was deleted or replaced meanwhile."""
        self.held.remove(first)
        triggers = asked(link, ["trigger-list", first.root]).get("triggers")
        if isinstance(triggers, list) and any(first.is_of(first.root, each) for each in triggers):
            reply = asked(link, ["trigger", first.root, first.definition])
            if "error" in reply:
                self.say(f"a trigger of {json.dumps(first.root)} does not run: {reply['error']}")

    def end(self) -> None:
        """Lets all go, since the bridge ends and the server may stay."""
        if not self.lock.acquire(timeout=GRACE):
            return
        try:
            for first in list(self.held):
                if self.link is not None:
                    self.let_go(self.link, first)
        except Ended:
            pass
        finally:
            self.lock.release()


def asked(link: Link, command: List[object]) -> Dict[str, object]:
    link.send(command)
    reply: Dict[str, object] = json.loads(link.line())
    return reply
