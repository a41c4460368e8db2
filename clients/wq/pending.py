"""The changes that the next run of `wq run` is for, and when it begins."""

import time
from typing import Any, Dict, List, Optional

from .changes import File

NEVER = float("inf")
# A burst that does not end is one for so many times as long as it has to be quiet.
MOST_QUIETS = 10


class Pending:
    """The changes for which a run is due, if one is. Both times are in seconds: a burst of changes has ended when it is
    quiet so long, and the run begins so much later."""

    def __init__(self, quiet: float, delay: float) -> None:
        self.quiet = quiet
        self.delay = delay
        self.is_due = False
        # Since when it is due, and since when nothing more changed. A run without a change is due at once.
        self.due_since = self.quiet_since = -NEVER
        # The names that the command is given, in the order in which they came; and of each file that changed when it
        # was modified, in milliseconds. One that is gone was not.
        self.names: Dict[str, None] = {}
        self.changed: Dict[str, Optional[int]] = {}

    def add(self, files: List[File]) -> None:
        """Files that changed."""
        if not files:
            return
        for file in files:
            name = file["name"]
            self.changed.pop(name, None)
            self.changed[name] = file["mtime_ms"] if file["exists"] else None
            self.add_name(file)
        self.quiet_since = time.monotonic()
        if not self.is_due:
            self.is_due, self.due_since = True, self.quiet_since

    def add_all(self, files: List[Any]) -> None:
        """A run is due without a change, for these files."""
        for file in files:
            self.add_name(file)
        self.is_due = True
        self.due_since = self.quiet_since = -NEVER

    def add_name(self, file: File) -> None:
        self.names.pop(file["name"], None)
        if file["exists"]:
            self.names[file["name"]] = None

    def begins_at(self) -> float:
        """When the changes that came count as a burst of which no more come, and the run may begin."""
        return min(self.quiet_since + self.quiet, self.due_since + MOST_QUIETS * self.quiet) + self.delay

    def clear(self) -> None:
        self.is_due = False
        self.names, self.changed = {}, {}
