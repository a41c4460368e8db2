"""Rounds of six clients at once, each of which has an order. If one has none, the shortest part of it is printed of
which that was found."""

import functools
import os
import time
from typing import List

from case import Case
from client import Server
from history import Request
from orders import order_of, shortest
from rounds import CLIENTS, Played, make_tree, play
from shelves import answer
from views_seen import gone_back, missed

# How many rounds are played, and of which seed the first is. A seed says what the clients ask, and not when.
ROUNDS = int(os.environ.get("ROUNDS", "300"))
SEED = int(os.environ.get("SEED", "1"))
# The shortest interval that there is, in milliseconds.
INTERVAL = 10


class Linearizable(Case):
    def test_rounds(self) -> None:
        root, began, asked, at_once = self.room / "tree", time.monotonic(), 0, 0
        make_tree(root)
        with Server(self.room, interval=INTERVAL) as server:
            clients = [server.client() for _ in range(CLIENTS)]
            for seed in range(SEED, SEED + ROUNDS):
                played = play(root, clients, seed)
                asked += len(played.requests)
                at_once += overlaps(played.requests)
                self.check_round(seed, played)
        print(f"{asked} requests, {at_once} pairs at once: {time.monotonic() - began:.1f} s")
        # If no two requests met, the rounds would show nothing.
        self.check("requests at once", at_once > asked, [f"{at_once} pairs of {asked} requests"])

    def check_round(self, seed: int, played: Played) -> None:
        answered = functools.partial(answer, tree=played.tree)
        is_right = order_of(played.requests, answered) is not None
        part = [] if is_right else shortest(played.requests, answered)
        self.check(f"an order of the requests of seed {seed}", is_right, said(part))
        back = gone_back(played.requests)
        self.check(
            f"the views of seed {seed} go on", not back, [line for pair in back[:1] for line in said(list(pair))]
        )
        late = missed(played.requests, played.coming, played.tree)
        self.check(f"the scans of seed {seed}", not late, [f"{name}, {said([request])}" for request, name in late[:1]])


def overlaps(requests: List[Request]) -> int:
    """How many pairs of requests were under way at once."""
    return sum(one.sent <= other.sent < one.received for one in requests for other in requests if one is not other)


def said(requests: List[Request]) -> List[str]:
    """The requests in the order of their sending."""
    ordered = sorted(requests, key=lambda request: request.sent)
    return [request.words(ordered[0].sent) for request in ordered]
