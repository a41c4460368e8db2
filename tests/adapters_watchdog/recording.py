"""What an observer says, kept for a test."""

import os
from pathlib import Path
from typing import List, Set, Tuple

from client import PATIENCE
from waiting import look_until
from watchdog.events import FileSystemEvent, FileSystemEventHandler
from watchdog.observers.api import BaseObserver

TIMEOUT = 0.1


class Recorder(FileSystemEventHandler):
    """What an observer said of a watch."""

    def __init__(self, observer: BaseObserver, path: Path, is_recursive: bool = True) -> None:
        self.path = path
        self.events: List[Tuple[str, str, bool]] = []
        self.watch = observer.schedule(self, str(path), recursive=is_recursive)

    def on_any_event(self, event: FileSystemEvent) -> None:
        self.events.append((event.event_type, os.path.relpath(event.src_path, self.path), event.is_directory))

    def said(self) -> Set[str]:
        """The events, but for directories whose time changed."""
        return {
            f"{kind} {path}{'/' if is_directory else ''}"
            for kind, path, is_directory in list(self.events)
            if not (kind == "modified" and is_directory)
        }

    def waits_for(self, expected: Set[str]) -> Set[str]:
        found = look_until(self.said, expected.issubset, PATIENCE)
        self.events.clear()
        return found
