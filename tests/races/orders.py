"""Whether a history is linearizable: whether each request can have had its effect at one moment between its sending and
its reply, so that each reply is what a server says that answers one request after the other."""

from typing import Callable, Iterator, List, Optional, Sequence, Set, Tuple

from history import Request
from shelves import Reply, Shelf

Answer = Callable[[Shelf, Request], Tuple[Shelf, Optional[Reply]]]


class Search:
    """Wing and Gong's search. Each state is visited once: the requests that had their effect, as bits, and the shelf
    that they left."""

    def __init__(self, requests: Sequence[Request], answer: Answer) -> None:
        # What was answered first is tried first, since it most often was the first to have its effect.
        self.requests = sorted(requests, key=lambda request: request.received)
        self.answer = answer
        self.owed = sum(1 << place for place, request in enumerate(self.requests) if not request.is_open)
        self.failed: Set[Tuple[int, Shelf]] = set()

    def order(self, done: int, shelf: Shelf) -> Optional[List[Request]]:
        """An order of the requests that are left, if there is one. An open one may be left out."""
        if done & self.owed == self.owed:
            return []
        if (done, shelf) in self.failed:
            return None
        for place, after in self.next_steps(done, shelf):
            rest = self.order(done | 1 << place, after)
            if rest is not None:
                return [self.requests[place], *rest]
        self.failed.add((done, shelf))
        return None

    def next_steps(self, done: int, shelf: Shelf) -> Iterator[Tuple[int, Shelf]]:
        """The requests that may come next, each with the shelf after it: none is left that was answered before they
        were sent."""
        left = [(place, request) for place, request in enumerate(self.requests) if not done >> place & 1]
        first = min(request.received for _, request in left if not request.is_open)
        for place, request in left:
            if request.sent <= first:
                after, reply = self.answer(shelf, request)
                if request.is_open or reply == request.reply:
                    yield place, after


def order_of(requests: Sequence[Request], answer: Answer) -> Optional[List[Request]]:
    """An order in which the server, from an empty shelf on, says what the replies say."""
    return Search(requests, answer).order(0, Shelf())


def shortest(requests: Sequence[Request], answer: Answer) -> List[Request]:
    """Of a history without an order a short part that has none: up to its first wrong reply, and then less and less."""
    moments = sorted(request.received for request in requests)
    found = next(cut for cut in (cut_at(requests, moment) for moment in moments) if order_of(cut, answer) is None)
    while True:
        less = next((part for part in parts(found) if order_of(part, answer) is None), None)
        if less is None:
            return found
        found = less


def cut_at(requests: Sequence[Request], moment: int) -> List[Request]:
    """The history up to a moment. What was sent before it and answered later is open."""
    begun = [request for request in requests if request.sent <= moment]
    return [request._replace(is_open=request.received > moment) for request in begun]


def parts(requests: List[Request]) -> Iterator[List[Request]]:
    """Parts of a history, each of which has an order if the whole has one."""
    for left_out in requests:
        if left_out.asked.is_read():
            yield [request for request in requests if request is not left_out]
    if any(request.asked.has_cursor for request in requests):
        yield [request for request in requests if not request.asked.has_cursor]
    names = {request.asked.name for request in requests if request.asked.name is not None}
    for name in sorted(names - {request.asked.name for request in requests if request.asked.has_cursor}):
        yield [without(request, name) for request in requests if request.asked.name != name]


def without(request: Request, name: str) -> Request:
    """The request, with a list of programs that leaves this name out."""
    if request.asked.kind != "list":
        return request
    names = [other for other in request.reply["programs"] if other != name]
    return request._replace(reply={**request.reply, "programs": names})
