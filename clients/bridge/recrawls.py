"""The warning of a root that a client had crawled anew, which Watchman puts into every reply about it."""

import threading
from typing import Dict

from bridge.configuration import Configurations

QUIET = "suppress_recrawl_warnings"
ADVICE = "https://facebook.github.io/watchman/docs/troubleshooting.html#recrawl"


class Recrawls:
    """How often each root was crawled at a client's wish."""

    def __init__(self, configurations: Configurations) -> None:
        self.configurations = configurations
        self.lock = threading.Lock()
        self.counts: Dict[str, int] = {}

    def add(self, root: str) -> None:
        if self.configurations.of(root).is_true(QUIET):
            return
        with self.lock:
            self.counts[root] = self.counts.get(root, 0) + 1

    def forget(self, root: str) -> None:
        with self.lock:
            self.counts.pop(root, None)

    def keys(self, root: str) -> Dict[str, object]:
        """The key of a reply about this root: none, if nobody had it crawled."""
        count = self.counts.get(root)
        if count is None:
            return {}
        return {
            "warning": (
                f"Recrawled this watch {count} times, most recently because:\ndebug-recrawl"
                f"To resolve, please review the information on\n{ADVICE}\nTo clear this warning, run:\n"
                f"`watchman watch-del {root} ; watchman watch-project {root}`\n"
            )
        }
