"""A subscription of a client: how far the client was told, and what holds its lists back."""

import os
from typing import Dict, Optional, Set

from bridge.faults import Refused
from bridge.fields import Lister
from bridge.queries import Query

# Source control is at work while one of these is in the root.
LOCKS = (".hg/wlock", ".git/index.lock")
TELL, HOLD, DROP = "tell", "hold", "drop"


class Policy:
    """States, and commands of source control, that hold lists back."""

    def __init__(self, query: Dict[str, object]) -> None:
        self.held_by = names_in(query, "defer")
        self.dropped_by = names_in(query, "drop")
        self.waits_for_source_control = query.get("defer_vcs") is not False


def names_in(query: Dict[str, object], key: str) -> Set[str]:
    value = query.get(key, [])
    if not isinstance(value, list):
        raise Refused(f"{key} field must be an array of strings")
    return {each for each in value if isinstance(each, str)}


class Subscription:
    """One subscription. The server has told it up to `passed`, and the client knows it up to `told`."""

    def __init__(self, root: str, name: str, query: Query, lister: Lister, policy: Policy, settle: float) -> None:
        self.root = root
        self.name = name
        # The query to the server, without `since`.
        self.query = {key: value for key, value in query.items() if key != "since"}
        self.lister = lister
        self.policy = policy
        # For so many seconds nothing may change before the client gets a list.
        self.settle = settle
        self.states: Set[str] = set()
        self.is_paused = False
        self.told: Optional[str] = None
        self.passed: Optional[str] = None
        # Whether there may be something to tell that was held back, and when it is looked at again.
        self.has_more = False
        self.due = 0.0
        # The clock of the root at the last look whether it has settled.
        self.seen: Optional[str] = None

    def action(self) -> str:
        """Whether a list goes to the client now, later or never."""
        if self.states & self.policy.dropped_by:
            return DROP
        if self.is_paused or self.states & self.policy.held_by or self.waits_for_source_control():
            return HOLD
        return TELL

    def waits_for_source_control(self) -> bool:
        return self.policy.waits_for_source_control and any(os.path.lexists(f"{self.root}/{name}") for name in LOCKS)

    def looks_again(self) -> bool:
        """Whether time alone may end what holds its lists back. Other ends come with a notice or a command."""
        return self.has_more and not self.is_paused and not self.states & self.policy.held_by

    def drop(self, clock: str) -> None:
        """The client gets no change up to this clock."""
        self.told = clock
        self.has_more = False
