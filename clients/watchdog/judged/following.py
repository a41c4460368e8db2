"""An observer of watchdog, and the events that it gave."""

import threading
from pathlib import Path
from typing import Dict, List, Set, Tuple

from watchdog.events import FileSystemEvent, FileSystemEventHandler
from watchdog.observers.api import BaseObserver
from watchdog.utils.dirsnapshot import DirectorySnapshot

# Whether each path is a directory.
Picture = Dict[str, bool]
COMES, GOES, MOVES = "created", "deleted", "moved"


def picture_of(root: Path) -> Tuple[Picture, Dict[str, Tuple[int, int]]]:
    """The files below a root as watchdog's polling has them, which follows links; and size and time of each, which is
    in milliseconds."""
    snapshot = DirectorySnapshot(str(root), recursive=True)
    paths = snapshot.paths - {str(root)}
    facts = {path: (snapshot.size(path), snapshot.stat_info(path).st_mtime_ns // 1_000_000) for path in paths}
    return {path: snapshot.isdir(path) for path in paths}, facts


class Follower(FileSystemEventHandler):
    """One observer of a root."""

    def __init__(self, name: str, observer: BaseObserver, root: Path) -> None:
        self.name = name
        self.observer = observer
        self.root = str(root)
        self.events: List[FileSystemEvent] = []
        self.lock = threading.Lock()
        self.picture = picture_of(root)[0]
        self.twice: List[str] = []
        observer.schedule(self, self.root, recursive=True)
        observer.start()

    def on_any_event(self, event: FileSystemEvent) -> None:
        with self.lock:
            self.events.append(event)
            self.replay(event)

    def replay(self, event: FileSystemEvent) -> None:
        if event.src_path == self.root:
            return
        if event.event_type == COMES:
            if event.src_path in self.picture:
                self.twice.append(f"created again: {event}")
            self.picture[event.src_path] = event.is_directory
        elif event.event_type in (GOES, MOVES):
            if self.picture.pop(event.src_path, None) is None:
                self.twice.append(f"gone again: {event}")
        if event.event_type == MOVES:
            self.picture[event.dest_path] = event.is_directory

    def told_since(self, place: int) -> Set[str]:
        """The paths of the events after the first ones."""
        with self.lock:
            later = self.events[place:]
        return {path for event in later for path in (event.src_path, getattr(event, "dest_path", "")) if path}

    def close(self) -> None:
        self.observer.stop()
        self.observer.join()
