"""Prints `ready`, and then the path of each file that changed, as an observer of Python's watchdog says it:
observed.py polling|wqd ROOT SECONDS."""

import sys
import time
from pathlib import Path

sys.path[0] = str(Path(__file__).resolve().parents[2] / "clients" / "watchdog")

from watchdog.events import FileSystemEvent, FileSystemEventHandler
from watchdog.observers.polling import PollingObserver

from wqd_watchdog import WqdObserver


class Printer(FileSystemEventHandler):
    def on_any_event(self, event: FileSystemEvent) -> None:
        print(event.src_path, flush=True)


kind, root, seconds = sys.argv[1:]
observer = (WqdObserver if kind == "wqd" else PollingObserver)(timeout=float(seconds))
observer.schedule(Printer(), root, recursive=True)
observer.start()
print("ready", flush=True)
while True:
    time.sleep(60)
