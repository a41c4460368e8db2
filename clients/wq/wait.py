"""`wq wait`: ends at the first change, and prints it."""

import argparse
import time
from typing import Any, Dict, List, Optional

from .changes import FIELDS, File, counted, print_changes
from .follow import wait as wait_once
from .follow import waking
from .home import Home
from .trouble import FOUND, NOTHING
from .window import Window

# By these a file of one server is compared with that of the next one.
STATE = ["type", "size", "mtime_ms"]


def wait(options: argparse.Namespace, home: Home) -> int:
    end = None if options.timeout is None else time.monotonic() + options.timeout
    gap = "this goes on, unless something changed between"
    with waking() as woken, Window(home, options, gap, takes_names=True, fields=[*FIELDS, *STATE[1:]]) as window:
        while end is None or time.monotonic() < end:
            wait_once(window, woken, None if end is None else max(0.0, end - time.monotonic()))
            lists = window.lists()
            fresh = window.fresh_files()
            if fresh is not None:
                place = window.places.places[0]
                between = {"clock": window.clocks[0], "root": place.root, "below": place.below}
                lists.append({**between, "files": changed(window.first, fresh)})
            for found in lists:
                found["files"] = [told(file) for file in counted(found["files"], options)]
            lists = [found for found in lists if found["files"]]
            if lists:
                if not options.quiet:
                    print_changes(lists[:1], options)
                return FOUND
    return NOTHING


def changed(before: List[File], after: List[File]) -> List[File]:
    """The files that came, went or changed between two lists of those that are there."""
    old, new = by_name(before), by_name(after)
    came = [{**file, "new": name not in old} for name, file in new.items() if state_of(old.get(name)) != state_of(file)]
    return [*came, *({**file, "exists": False} for name, file in old.items() if name not in new)]


def by_name(files: List[File]) -> Dict[str, File]:
    return {file["name"]: file for file in files}


def state_of(file: Optional[File]) -> List[Any]:
    return [file[key] for key in STATE] if file else []


def told(file: File) -> File:
    return {key: value for key, value in file.items() if key in FIELDS}
