"""Whether the views that replies show keep to the times of requests."""

from typing import List, Sequence, Tuple

from history import Coming, Request
from shelves import Tree


def gone_back(requests: Sequence[Request]) -> List[Tuple[Request, Request]]:
    """The pairs of requests, one answered before the other was sent, of which the second shows an earlier view."""
    shown = [(request, request.tick() or 0) for request in requests if "clock" in request.reply]
    return [(one, other) for one, tick in shown for other, later in shown if one.received < other.sent and later < tick]


def missed(requests: Sequence[Request], coming: Sequence[Coming], tree: Tree) -> List[Tuple[Request, str]]:
    """The queries that scan, each with a file that was there before it was sent and is not in its view."""
    scans = [(request, request.tick()) for request in requests if request.asked.scans]
    return [
        (request, file.name)
        for request, tick in scans
        for file in coming
        if tick is not None and file.made < request.sent and tree.ticks[file.name] > tick
    ]
