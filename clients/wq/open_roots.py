"""The roots that a window has open: which others have them open too, and which are given back at its end."""

from functools import partial
from typing import IO, Collection, Dict, List, Optional

from .server import MOST_AT_END, Server


class OpenRoots:
    """Roots that other windows see to be open, until this is closed."""

    def __init__(self, server: Server, roots: List[str]) -> None:
        self.locks: Dict[str, Optional[IO[str]]] = {root: server.notes.opened(root) for root in roots}

    def close(self, server: Optional[Server], new: Collection[str] = (), is_hurried: bool = False) -> None:
        """Gives each root back that was watched for windows alone, and that no other window has open. A server that
        ended has none. If a person ends a command that begins, no reply about its new roots is waited for."""
        for root, lock in self.locks.items():
            if lock is None:
                continue
            lock.close()
            if server:
                is_new = root in new
                ask = partial(server.ask_within, 0.0 if is_new and is_hurried else MOST_AT_END)
                server.notes.give_back(root, ask, is_new)
        self.locks = {}
