"""The picture that one watch has of its directory. Links are followed as watchdog's polling follows them: a link to a
file is that file, and a link to a directory has all below it."""

import os
import queue
from typing import Dict, Iterator, List, NamedTuple, Optional, Set, Tuple

from .connection import Value
from .latency import LOOKS, Latency
from .roots import lies_in, real_directory
from .rows import FIELDS, Changes, File, Row, row_of
from .server import Server
from .trouble import Lost, Unserved, say

LINK, DIRECTORY = "l", "d"
# At most this number of linked directories is followed below one watch.
MOST_LINKED = 48


class Gone(Exception):
    """The directory of the watch is gone."""


class Replaced(Exception):
    """Another directory is at the path of the watch."""


class Top(NamedTuple):
    """The directory of the watch, which the server does not list, and which one it is."""

    row: Row
    identity: Tuple[int, int]


def top_of(path: str) -> Top:
    found = os.stat(path)
    return Top(row_of(found), (found.st_dev, found.st_ino))


class Branch:
    """A directory of the server: the one of the watch, or one that a link below it leads to."""

    def __init__(self, front: str, real: str, root: str, above: List[str]) -> None:
        # Its path as events have it.
        self.front = front
        # The directories that it was reached through, itself last, without links in their paths.
        self.through = [*above, real]
        self.below = os.path.relpath(real, root) if real != root else ""
        self.rows: Dict[str, Row] = {}
        self.links: Set[str] = set()
        # The moment up to which its changes were taken.
        self.clock = ""

    def path(self, name: str) -> str:
        return os.path.join(self.front, name)

    def name_of(self, whole: str) -> str:
        """The name below the branch of a file of the root."""
        return whole[len(self.below) + 1 :] if self.below else whole

    def query(self, is_recursive: bool) -> Value:
        """All below the branch, or what is directly in it."""
        if is_recursive:
            return {"fields": FIELDS, **({"expression": ["dirname", self.below]} if self.below else {})}
        return {"fields": FIELDS, "expression": ["dirname", self.below, ["depth", "eq", 0]]}

    def is_later(self, clock: str) -> bool:
        return tick_of(clock) > tick_of(self.clock)


def tick_of(clock: str) -> int:
    return int(clock.rsplit(":", 1)[1])


class Tree:
    """What a watch sees. It is complete when it is made, and then takes lists; `changes` has what came by them."""

    def __init__(self, server: Server, path: str, is_recursive: bool) -> None:
        self.server = server
        self.path = path
        self.is_recursive = is_recursive
        self.box: "queue.Queue[Value]" = queue.Queue()
        self.changes = Changes()
        self.branches: Dict[str, Branch] = {}
        # The subscription of each branch, by its path.
        self.names: Dict[str, str] = {}
        # Links to directories that could not be followed.
        self.unfollowed: Set[str] = set()
        self.top = top_of(path)
        try:
            self.add(path, [])
        except BaseException:
            self.close()
            raise
        self.changes.taken()
        self.latency = Latency(self.paths)
        self.latency.look(LOOKS)

    def paths(self) -> Iterator[str]:
        return (path for path, _ in self.rows())

    def rows(self) -> Iterator[Tuple[str, Row]]:
        """All files, with their paths."""
        yield self.path, self.top.row
        for branch in self.branches.values():
            for name, row in branch.rows.items():
                yield branch.path(name), row

    def close(self) -> None:
        self.server.unsubscribe(list(self.branches))

    # Lists of the server.

    def add(self, front: str, above: List[str]) -> None:
        """Begins to follow a directory."""
        real = real_directory(front)
        root = self.server.root_of(real)
        branch = Branch(front, real, root, above)
        name, first = self.server.subscribe(root, branch.query(self.is_recursive), self.box)
        self.branches[name], self.names[front] = branch, name
        branch.clock = first["clock"]
        for file in first["files"]:
            self.take_file(branch, file)

    def drop(self, front: str) -> None:
        """Ends to follow a linked directory, and all that it leads to."""
        name = self.names.pop(front, None)
        if name is None:
            return
        branch = self.branches.pop(name)
        for link in branch.links:
            self.drop(branch.path(link))
        for file in list(branch.rows):
            self.set_row(branch, file, None)
        self.server.unsubscribe([name])

    def take(self, value: Value) -> None:
        """Takes a list. One of a directory that is followed no more says nothing."""
        branch = self.branches.get(value["subscription"])
        if branch is None:
            return
        if value.get("canceled"):
            raise Lost
        self.take_changes(branch, value)

    def take_changes(self, branch: Branch, value: Value) -> None:
        """Takes what changed since the clock of a branch. A list that was overtaken by a query says nothing new."""
        if branch.is_later(value["clock"]):
            branch.clock = value["clock"]
            for file in value["files"]:
                self.take_file(branch, file)

    def scan(self) -> None:
        """Has the server scan, and takes what changed. Many threads scan for who waits, and one otherwise."""
        for name in list(self.branches):
            branch = self.branches.get(name)
            if branch is None:
                continue
            found = self.server.query(name, {**branch.query(self.is_recursive), "since": branch.clock})
            if found.get("is_fresh_instance"):
                raise Lost
            if "error" not in found:
                self.take_changes(branch, found)

    def take_file(self, branch: Branch, file: File) -> None:
        name = branch.name_of(file.name)
        if file.exists and file.type == LINK:
            branch.links.add(name)
            self.look_at_link(branch, name)
            return
        if name in branch.links:
            branch.links.remove(name)
            self.drop(branch.path(name))
        there = Row(file.type == DIRECTORY, file.size, file.time) if file.exists else None
        self.set_row(branch, name, there)

    def set_row(self, branch: Branch, name: str, row: Optional[Row]) -> None:
        before = branch.rows.pop(name, None)
        if row is not None:
            branch.rows[name] = row
        if before != row:
            self.changes.note(branch.path(name), before, row)

    # What the server does not look at.

    def look(self) -> None:
        """Looks at the directory itself, and where links lead."""
        try:
            top = top_of(self.path)
        except OSError:
            raise Gone from None
        if top.identity != self.top.identity:
            raise Replaced
        self.changes.note(self.path, self.top.row, top.row)
        self.top = top
        self.latency.look()
        for name in list(self.branches):
            branch = self.branches.get(name)
            for link in sorted(branch.links) if branch else ():
                if name in self.branches:
                    self.look_at_link(self.branches[name], link)

    def look_at_link(self, branch: Branch, name: str) -> None:
        """A link that leads nowhere is not there."""
        path = branch.path(name)
        try:
            row: Optional[Row] = row_of(os.stat(path))
        except OSError:
            row = None
        real = os.path.realpath(path) if row and row.is_directory and self.is_recursive else None
        # A link to a directory above it would lead round and round.
        if real and any(lies_in(each, real) for each in branch.through):
            real = None
        followed = self.branches.get(self.names.get(path, ""))
        if followed and followed.through[-1] != real:
            self.drop(path)
            followed = None
        self.set_row(branch, name, row)
        if real and not followed and path not in self.unfollowed:
            self.follow(branch, path)

    def follow(self, branch: Branch, path: str) -> None:
        """Follows a link to a directory. If that cannot be, a person hears it, and the link is a directory alone."""
        try:
            if len(self.branches) > MOST_LINKED:
                raise Unserved(f"over {MOST_LINKED} links below it lead to directories", self.path)
            self.add(path, branch.through)
        except Unserved as reason:
            self.unfollowed.add(path)
            say(f"what is behind {path} is not watched: {reason}")
