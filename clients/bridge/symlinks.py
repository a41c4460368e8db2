"""Watches where the links of a root lead, if its configuration has `watch_symlinks`."""

import contextlib
import json
import os
import threading
import time
from typing import Callable, Iterable, List, Optional, Set

from bridge.configuration import Configurations
from bridge.faults import Ended, Refused
from bridge.keeper import Keeper
from bridge.link import Link, comes_by_itself
from bridge.places import NotThere, enclosing, project_root, real_path

LINKS = {"fields": ["name"], "expression": ["allof", ["type", "l"], "exists"]}
NAME = "links"
PAUSE = 1.0


class Follower:
    """A client of the server, from the first such root on. It hears of links by a subscription."""

    def __init__(self, server: str, configurations: Configurations, keeper: Keeper, say: Callable[[str], None]) -> None:
        self.server = server
        self.configurations = configurations
        self.keeper = keeper
        self.say = say
        self.lock = threading.Lock()
        self.link: Optional[Link] = None

    def add(self, root: str) -> None:
        """Follows the links of a root. It is watched already."""
        with self.lock:
            try:
                if self.link is None:
                    self.link = Link(self.server)
                    threading.Thread(target=self.run, args=(self.link,), daemon=True).start()
                self.link.send(["subscribe", root, NAME, LINKS])
            except Ended as end:
                self.say(f"the links of {json.dumps(root)} are not followed: {end}")

    def run(self, link: Link) -> None:
        try:
            while True:
                line = link.line()
                value = json.loads(line)
                if comes_by_itself(line) and "files" in value:
                    self.follow(value["root"], value["files"])
                elif "error" in value:
                    self.say(f"links are not followed: {value['error']}")
        except Ended:
            pass
        finally:
            with self.lock:
                self.link = None
            link.close()

    def follow(self, root: str, names: Iterable[str]) -> None:
        """Watches the projects that these links of a root lead to."""
        targets: List[str] = []
        seen: Set[str] = set()
        for name in names:
            targets += targets_of(f"{root}/{name}", seen)
        if not targets:
            return
        try:
            link = Link(self.server)
        except Ended:
            time.sleep(PAUSE)
            return
        try:
            for target in targets:
                self.watch(link, target)
        except Ended:
            pass
        finally:
            link.close()

    def watch(self, link: Link, path: str) -> None:
        link.send(["watch-list"])
        watched = json.loads(link.line()).get("roots", [])
        if enclosing(path, watched):
            return
        root = project_root(path, self.configurations.root_files())
        if root is None:
            return
        try:
            self.configurations.check(root)
            self.configurations.forget(root)
            settings = self.configurations.of(root)
        except Refused:
            return
        link.send(["watch", root])
        if "error" not in json.loads(link.line()):
            self.keeper.add(root)
            if settings.is_true("watch_symlinks"):
                self.add(root)


def targets_of(path: str, seen: Set[str]) -> List[str]:
    """Where a path leads: the target of each link in it and behind it, however many there are. Paths that were seen
    before are left out, since their targets are known."""
    found: List[str] = []
    left = [path]
    while left:
        path = left.pop()
        if path in seen or path == "/":
            continue
        seen.add(path)
        above = os.path.dirname(path)
        left.append(above)
        try:
            target = os.path.join(above, os.readlink(path))
        except OSError:
            continue
        left.append(os.path.normpath(target))
        with contextlib.suppress(NotThere):
            found.append(os.path.join(real_path(os.path.dirname(target)), os.path.basename(target)))
    return found
