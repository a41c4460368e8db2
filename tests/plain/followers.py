"""Subscriptions: the lists that a client is sent without asking."""

from typing import Any, Dict, List, NamedTuple

from queries import Query, file_of, reply_to
from scripted import clock_id
from servers import Server
from views import History
from wqprogram.clocks import Bound
from wqprogram.errors import TOO_MANY_SUBSCRIPTIONS, Refused
from wqprogram.limits import MAX_SUBSCRIPTIONS
from wqprogram.records import Record


class Subscription(NamedTuple):
    """A subscription to the root with this text and number, and the tick up to which its lists went."""

    name: str
    root: str
    query: Query
    last: int

    @property
    def number(self) -> int:
        return self.query.root


class Told(NamedTuple):
    """A line that a subscription sends, and what it is: a first list, a later one or the end."""

    kind: str
    line: Dict[str, Any]
    subscription: Subscription


class Session:
    """A client as the server keeps it: its subscriptions, in the order in which they began."""

    def __init__(self) -> None:
        self.subscriptions: List[Subscription] = []

    def subscribe(self, name: str, root: str, query: Query, server: Server) -> Told:
        """Begins a subscription, in the place of the one of this name and root, and makes its first list."""
        subscription = Subscription(name, root, query, server.view.tick)
        place = self.place_of(name, query.root)
        if place is None and len(self.subscriptions) >= MAX_SUBSCRIPTIONS:
            raise Refused(TOO_MANY_SUBSCRIPTIONS)
        if place is None:
            self.subscriptions.append(subscription)
        else:
            self.subscriptions[place] = subscription
        kind = "first list" if place is None else "first list of a replacement"
        return Told(kind, list_line(subscription, reply_to(query, server.view)), subscription)

    def unsubscribe(self, name: str, number: int) -> bool:
        """Whether there was a subscription of this name and root, which is one no more."""
        place = self.place_of(name, number)
        if place is not None:
            del self.subscriptions[place]
        return place is not None

    def place_of(self, name: str, number: int) -> Any:
        names = [(subscription.name, subscription.number) for subscription in self.subscriptions]
        return names.index((name, number)) if (name, number) in names else None

    def idle(self, server: Server) -> List[Told]:
        """The lists of an idle moment of each root, the lowest number first."""
        told = []
        for number in sorted({subscription.number for subscription in self.subscriptions}):
            told += self.idle_of(number, server)
        return told

    def idle_of(self, number: int, server: Server) -> List[Told]:
        told, left = [], []
        for subscription in self.subscriptions:
            if subscription.number != number:
                left.append(subscription)
            elif number != server.root:
                told.append(Told("end of a subscription", end_line(subscription), subscription))
            else:
                told += later_lists(subscription, server.history)
                left.append(subscription._replace(last=len(server.history.passes)))
        self.subscriptions = left
        return told


def list_line(subscription: Subscription, reply: Dict[str, Any]) -> Dict[str, Any]:
    return {**reply, "root": subscription.root, "subscription": subscription.name, "unilateral": True}


def end_line(subscription: Subscription) -> Dict[str, Any]:
    return {"canceled": True, "root": subscription.root, "subscription": subscription.name, "unilateral": True}


def later_lists(subscription: Subscription, history: History) -> List[Told]:
    """The list of the files that changed after the last one, if any did. A bound is a tick from then on."""
    query = subscription.query._replace(bound=Bound("tick", subscription.last))
    files = [record for record in changed_after(subscription.last, history) if query.matches(record)]
    if not files:
        return []
    line = {
        "clock": clock_id(query.root, len(history.passes)),
        "files": [file_of(record, query) for record in files],
        "is_fresh_instance": False,
    }
    return [Told("later list", list_line(subscription, line), subscription)]


def changed_after(tick: int, history: History) -> List[Record]:
    """The names that some later pass saw otherwise than the one before it."""
    names = {name for one_pass in history.passes for name in one_pass.sights}
    later = range(tick + 1, len(history.passes) + 1)
    return [
        history.record_of(name)
        for name in sorted(names)
        if any(history.sighting(number, name) != history.sighting(number - 1, name) for number in later)
    ]
