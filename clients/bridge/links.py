"""A client's connections to the server: the first is for its commands, and each takes 64 of its subscriptions."""

import select
from typing import Callable, Dict, List, Optional, Set, Tuple

from bridge.link import Link

Key = Tuple[str, str]
# So many subscriptions the server takes from one of its clients.
MOST = 64


class Links:
    """The connections. Each is made when it is needed, and one without subscriptions is given back, but for the
    first."""

    def __init__(self, server: str, ready: "select.poll", sees: Callable[[int], None]) -> None:
        self.server = server
        self.sees = sees
        self.ready = ready
        self.all: List[Link] = []
        self.subscriptions: Dict[Link, Set[Key]] = {}

    def first(self) -> Link:
        """The connection for commands."""
        in_time = [link for link in self.all if not link.late]
        return in_time[0] if in_time else self.make()

    def set_aside(self, link: Link) -> None:
        """The reply to the last command is not waited for any longer: the next ones go through another connection."""
        link.late += 1
        self.give_back(link)

    def make(self) -> Link:
        link = Link(self.server)
        self.all.append(link)
        self.subscriptions[link] = set()
        self.ready.register(link, select.POLLIN)
        self.sees(link.server_process())
        return link

    def of(self, key: Key) -> Optional[Link]:
        """The connection that a subscription goes through."""
        return next((link for link in self.all if key in self.subscriptions[link]), None)

    def for_one_more(self, key: Key) -> Link:
        """The connection for a subscription: that of the one that it replaces, or else one with a place."""
        self.first()
        found = self.of(key) or next((link for link in self.all if len(self.subscriptions[link]) < MOST), None)
        return found or self.make()

    def add(self, key: Key, link: Link) -> None:
        self.subscriptions[link].add(key)

    def remove(self, key: Key) -> None:
        """Gives the place of a subscription back, and the connection if it was its last one."""
        link = self.of(key)
        if link is not None:
            self.subscriptions[link].discard(key)
            self.give_back(link)

    def give_back(self, link: Link) -> None:
        if self.subscriptions[link] or not link.late and link is self.first():
            return
        self.ready.unregister(link)
        self.all.remove(link)
        del self.subscriptions[link]
        link.close()

    def close(self) -> None:
        for link in self.all:
            link.close()
