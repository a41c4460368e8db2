"""The server that a script plays: one root that can be read, and what all clients share."""

from typing import Any, Dict, List, Optional

from programs import Program
from scripted import FIRST_ROOT
from views import History, Pass
from wqprogram.clocks import FRESH, Bound
from wqprogram.errors import NO_SUCH_PROGRAM, NOT_WATCHED, SHELF_FULL, UNREADABLE_ROOT, Refused
from wqprogram.limits import MAX_CURSORS, MAX_PROGRAMS

READABLE = "/r"


class Server:
    def __init__(self, readable: str = READABLE) -> None:
        self.readable = readable
        self.tree = Pass(0, {})
        self.programs: Dict[str, Program] = {}
        self.root: Optional[int] = FIRST_ROOT
        self.last_root = FIRST_ROOT
        self.begin_root()

    def begin_root(self) -> None:
        """Nothing was seen of the root, no cursor was used on it, and it has no trigger."""
        self.history = History()
        self.view = self.history.view()
        self.cursors: Dict[str, int] = {}
        self.triggers: Dict[str, Any] = {}

    def roots(self) -> List[str]:
        return [] if self.root is None else [self.readable]

    def watched(self, root: str) -> int:
        """The number of a root that is watched."""
        if self.root is None or root != self.readable:
            raise Refused(NOT_WATCHED)
        return self.root

    def watch(self, root: str) -> None:
        """A root that is watched stays as it is; another one gets the next number, and is listed."""
        if root != self.readable:
            raise Refused(UNREADABLE_ROOT)
        if self.root is None:
            self.last_root += 1
            self.root = self.last_root
            self.begin_root()
            self.crawl()

    def end_watch(self, root: str) -> None:
        self.watched(root)
        self.root = None
        self.begin_root()

    def crawl(self) -> None:
        """The root is crawled, if it is watched, and lists the tree."""
        if self.root is not None:
            self.history.add(self.tree)
            self.view = self.history.view()

    def use_cursor(self, name: str) -> Bound:
        """The bound of a cursor, which is moved to the last pass."""
        old = self.cursors.get(name)
        if old is None and len(self.cursors) >= MAX_CURSORS:
            raise Refused(SHELF_FULL)
        self.cursors[name] = max(old or 0, self.view.tick)
        return FRESH if old is None else Bound("tick", old)

    def add_program(self, name: str, program: Program) -> bool:
        """Whether a program was replaced. A new name stands last."""
        is_there = name in self.programs
        if not is_there and len(self.programs) >= MAX_PROGRAMS:
            raise Refused(SHELF_FULL)
        self.programs[name] = program
        return is_there

    def program(self, name: str) -> Program:
        if name not in self.programs:
            raise Refused(NO_SUCH_PROGRAM)
        return self.programs[name]

    def program_names(self) -> List[str]:
        return list(self.programs)
