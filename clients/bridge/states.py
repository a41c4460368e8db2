"""States that clients assert of roots, as `hg.update`: who did, and which are asserted now."""

import threading
from typing import Dict, List, NamedTuple, Set, Tuple

from bridge.faults import Refused


class Wish(NamedTuple):
    """The words of `state-enter` and `state-leave` after the root."""

    name: str
    # The keys of the notice beside the name.
    keys: Dict[str, object]
    timeout: int


PATIENCE = 60_000


def wish_of(words: List[object]) -> Wish:
    """The state that a command names, by a text or by an object."""
    if len(words) != 3:
        raise Refused(f"invalid number of arguments, expected 3, got {len(words)}")
    given = words[2]
    if isinstance(given, str):
        return Wish(given, {}, PATIENCE)
    if not isinstance(given, dict):
        raise Refused("json_ref::get called on a non object type")
    if "name" not in given:
        raise Refused("key 'name' is not present in this json object")
    name, timeout = given["name"], given.get("sync_timeout", PATIENCE)
    if not isinstance(name, str):
        raise Refused("expected json string object")
    if isinstance(timeout, bool) or not isinstance(timeout, int):
        timeout = 0
    if timeout < 0:
        raise Refused("sync_timeout must be >= 0")
    return Wish(name, {"metadata": given["metadata"]} if "metadata" in given else {}, timeout)


class States:
    """The asserted states of all roots. Each belongs to the client that asserted it."""

    def __init__(self) -> None:
        self.lock = threading.Lock()
        self.owners: Dict[Tuple[str, str], object] = {}

    def enter(self, root: str, name: str, client: object) -> None:
        with self.lock:
            if (root, name) in self.owners:
                raise Refused(f"state {name} is already asserted")
            self.owners[root, name] = client

    def leave(self, root: str, name: str, client: object) -> None:
        with self.lock:
            if (root, name) not in self.owners:
                raise Refused(f"state {name} is not asserted")
            if self.owners[root, name] is not client:
                raise Refused(f"state {name} was not asserted by this session")
            del self.owners[root, name]

    def abandon(self, client: object) -> List[Tuple[str, str]]:
        """The root and the name of each state of a client that goes; they are asserted no longer."""
        with self.lock:
            found = [key for key, owner in self.owners.items() if owner is client]
            for key in found:
                del self.owners[key]
        return found

    def of(self, root: str) -> Set[str]:
        with self.lock:
            return {name for at, name in self.owners if at == root}

    def forget(self, root: str) -> None:
        """The states of a root end with its watch."""
        with self.lock:
            for key in [key for key in self.owners if key[0] == root]:
                del self.owners[key]
