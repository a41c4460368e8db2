"""The emitter of a watch: it waits for lists of the server, and queues their events."""

import contextlib
import functools
import os
import queue
import time
from typing import Any, Iterable, Optional

from watchdog.events import DirCreatedEvent, DirDeletedEvent
from watchdog.observers.api import DEFAULT_EMITTER_TIMEOUT, EventEmitter, EventQueue, ObservedWatch

from .connection import GONE, Value
from .events import events_of
from .rows import Change, difference
from .polled import Polled
from .server import Server
from .tree import Gone, Replaced, Tree
from .trouble import Lost, Unserved

# In seconds: a list waits so long for another one, since an editor saves a file in several steps, and at most so long
# for all; and how often a server is looked for.
SETTLE, MOST_SETTLE, SEARCH = 0.15, 1.0, 0.2
# So often a server may end while a watch begins.
ATTEMPTS = 3
# In seconds: how soon a server that had no place is asked again, and how seldom at last.
RETRY, MOST_RETRY = 5.0, 60.0
WAKE: Value = {"wake": True}


class WqdEmitter(EventEmitter):
    """Watches one directory. The timeout is how often it looks at the directory itself and where its links lead."""

    def __init__(
        self,
        server: Server,
        event_queue: EventQueue,
        watch: ObservedWatch,
        timeout: float = DEFAULT_EMITTER_TIMEOUT,
        **given: Any,
    ) -> None:
        super().__init__(event_queue, watch, timeout=timeout, **given)
        self.server = server
        self.new_polled = functools.partial(Polled, event_queue, watch, timeout=timeout, **given)
        self.tree: Optional[Tree] = None
        # Whether the tree has to begin anew.
        self.is_lost = False
        # How many seconds the last scan for this watch took.
        self.took = 0.0
        # What takes the tree's place without a server, when the server is asked again, and after how many seconds then.
        self.polled: Optional[Polled] = None
        self.next_try, self.pause = 0.0, RETRY

    def on_thread_start(self) -> None:
        """Takes the first picture. An error of the directory is raised as polling raises it."""
        os.stat(self.watch.path)
        try:
            self.tree = self.first_tree()
        except Unserved as reason:
            self.poll(reason)

    def first_tree(self) -> Tree:
        for _ in range(ATTEMPTS):
            with contextlib.suppress(Lost):
                self.server.reach()
                return self.new_tree()
        raise Unserved("the server ends again and again")

    def on_thread_stop(self) -> None:
        tree = self.tree
        if tree:
            tree.box.put(WAKE)
            tree.close()
        if self.polled:
            self.polled.stop()

    def new_tree(self) -> Tree:
        return Tree(self.server, self.watch.path, self.watch.is_recursive)

    def queue_events(self, timeout: float) -> None:
        if self.polled:
            self.queue_polled(self.polled, timeout)
        elif self.tree:
            self.queue_served(self.tree, timeout)

    def queue_served(self, tree: Tree, timeout: float) -> None:
        try:
            if self.is_lost:
                self.begin_again(tree)
                return
            if tree.latency.is_slow():
                self.scan(tree, timeout)
            elif self.takes(tree, timeout):
                self.settle(tree)
            if self.should_keep_running():
                tree.look()
            self.tell(tree.changes.taken())
        except (Lost, Replaced):
            self.is_lost = True
            self.tell(tree.changes.taken())
        except Gone:
            self.end()

    def scan(self, tree: Tree, timeout: float) -> None:
        """Has the server scan, after a pause of half the last scan, and of a tenth of the timeout at least: since the
        file system is slow, a scan that nobody waits for takes long."""
        if not self.takes(tree, max(self.took / 2, timeout / 10)):
            began = time.monotonic()
            tree.scan()
            self.took = time.monotonic() - began

    def takes(self, tree: Tree, seconds: float) -> bool:
        """Whether a list comes in time."""
        try:
            value = tree.box.get(timeout=seconds)
        except queue.Empty:
            return False
        if value is GONE:
            raise Lost
        if value is WAKE:
            return False
        tree.take(value)
        return True

    def settle(self, tree: Tree) -> None:
        for _ in range(int(MOST_SETTLE / SETTLE)):
            if not self.takes(tree, SETTLE):
                return

    def tell(self, changes: Iterable[Change]) -> None:
        for event in events_of(list(changes)):
            self.queue_event(event)

    def begin_again(self, before: Tree) -> None:
        """Takes a new picture after the server ended, or the directory was replaced, and tells what differs from the
        one before."""
        try:
            if not self.server.reach_again():
                self.server.require_soon()
                self.stopped_event.wait(SEARCH)
                return
            tree = self.new_tree()
        except Lost:
            self.stopped_event.wait(SEARCH)
            return
        except Unserved as reason:
            polled = self.poll(reason)
            self.tell(difference(dict(before.rows()), polled.rows()))
            before.close()
            return
        except OSError:
            if not os.path.exists(self.watch.path):
                raise Gone from None
            self.stopped_event.wait(SEARCH)
            return
        self.take_tree(tree)
        before.close()
        if before.top.identity != tree.top.identity:
            self.queue_event(DirDeletedEvent(self.watch.path))
            self.queue_event(DirCreatedEvent(self.watch.path))
        self.tell(difference(dict(before.rows()), dict(tree.rows())))

    def take_tree(self, tree: Tree) -> None:
        self.tree, self.is_lost = tree, False
        self.server.serves_again()
        if not self.should_keep_running():
            tree.close()

    # Without a place at the server.

    def poll(self, reason: Unserved) -> Polled:
        """Has watchdog's polling watch, until the server can."""
        self.server.tell_once(reason)
        self.polled = self.new_polled()
        self.polled.on_thread_start()
        self.pause = RETRY
        self.next_try = time.monotonic() + self.pause
        return self.polled

    def queue_polled(self, polled: Polled, timeout: float) -> None:
        polled.queue_events(timeout)
        if not polled.should_keep_running():
            self.stop()
        elif time.monotonic() >= self.next_try:
            self.come_back(polled)

    def come_back(self, polled: Polled) -> None:
        """Takes the server's picture if it has a place now, and tells what differs from what polling saw."""
        try:
            tree = self.new_tree() if self.server.reach_again() else None
        except Unserved:
            # The server may have looked at all files before it refused.
            self.pause, tree = min(2 * self.pause, MOST_RETRY), None
        except (Lost, OSError):
            tree = None
        if tree is None:
            self.next_try = time.monotonic() + self.pause
            return
        self.polled = None
        self.take_tree(tree)
        self.tell(difference(polled.rows(), dict(tree.rows())))

    def end(self) -> None:
        """The directory is gone, and the watch with it, as in polling."""
        self.queue_event(DirDeletedEvent(self.watch.path))
        self.stop()
