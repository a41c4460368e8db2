"""Histories written by hand, some of which have no order."""

import functools
from typing import Any, Dict, List, NamedTuple, Sequence

from case import Case
from history import INSTRUCTIONS, NEW, Asked, Coming, Request, own_file
from orders import order_of, shortest
from scripted import clock_id
from shelves import VERSION, Reply, Tree, answer
from views_seen import gone_back, missed
from wqprogram.errors import NO_SUCH_PROGRAM

V0, V1, NEW2, NEW3 = own_file(0), own_file(1), f"{NEW}2", f"{NEW}3"
# The files of two versions come at the watch, and another one at each later tick.
TREE = Tree(1, {V0: 1, V1: 1, NEW2: 2, NEW3: 3})
answered = functools.partial(answer, tree=TREE)


def listed(*names: str) -> Reply:
    return {"programs": list(names), **VERSION}


def added(name: str, replaced: bool) -> Reply:
    return {"instructions": INSTRUCTIONS, "program-add": name, "replaced": replaced, **VERSION}


def deleted(name: str, was_there: bool) -> Reply:
    return {"deleted": was_there, "program-del": name, **VERSION}


def found(tick: int, files: Sequence[str], fresh: bool) -> Reply:
    return {"clock": clock_id(TREE.root, tick), "files": list(files), "is_fresh_instance": fresh, **VERSION}


NONE: Reply = {"error": NO_SUCH_PROGRAM, **VERSION}

ADD_A, ADD_A1, ADD_B = Asked("add", "a"), Asked("add", "a", version=1), Asked("add", "b")

DELETE_A, LIST = Asked("delete", "a"), Asked("list")

USE_A = LOOK = Asked("query", "a")

CURSOR, BOTH = Asked("query", has_cursor=True), Asked("query", "a", has_cursor=True)

# The files that a query lists by the program of either version, at the last view.
BY_0, BY_1 = [NEW2, NEW3, V0], [NEW2, NEW3, V1]


class Worked(NamedTuple):
    """A history, and of how many requests its shortest part without an order is: none, if it has an order."""

    name: str
    requests: List[Request]
    wrong: int


def at(client: int, sent: int, received: int, asked: Asked, reply: Dict[str, Any]) -> Request:
    return Request(client, asked, sent, received, reply)


def worked() -> List[Worked]:
    return [*of_lists(), *of_names(), *of_programs(), *of_cursors()]


def of_lists() -> List[Worked]:
    add_a = at(1, 0, 10, ADD_A, added("a", False))
    add_b = at(2, 0, 10, ADD_B, added("b", False))
    late_b = at(2, 20, 30, ADD_B, added("b", False))
    return [
        Worked("a list during an addition is before it", [add_a, at(2, 5, 6, LIST, listed())], 0),
        Worked("a list during an addition is after it", [add_a, at(2, 5, 6, LIST, listed("a"))], 0),
        Worked("a list after an addition is before it", [add_a, at(2, 11, 12, LIST, listed())], 2),
        Worked(
            "two lists in one order",
            [add_a, add_b, at(3, 11, 12, LIST, listed("b", "a")), at(4, 11, 12, LIST, listed("b", "a"))],
            0,
        ),
        Worked(
            "two lists in two orders",
            [add_a, add_b, at(3, 11, 12, LIST, listed("a", "b")), at(4, 11, 12, LIST, listed("b", "a"))],
            4,
        ),
        Worked(
            "a list has a program that is added and goes back",
            [add_a, at(2, 1, 4, LIST, listed("a")), at(3, 5, 6, LIST, listed())],
            3,
        ),
        Worked("a list that lasts has the later addition alone", [add_a, late_b, at(3, 0, 40, LIST, listed("b"))], 3),
        Worked("a list that lasts has the earlier addition alone", [add_a, late_b, at(3, 0, 40, LIST, listed("a"))], 0),
        Worked(
            "a list after a deletion is before it",
            [
                add_a,
                late_b,
                at(3, 40, 50, DELETE_A, deleted("a", True)),
                at(4, 60, 70, LIST, listed("a", "b")),
                at(1, 61, 62, LIST, listed("b")),
            ],
            3,
        ),
    ]


def of_names() -> List[Worked]:
    add = at(1, 0, 10, ADD_A, added("a", False))
    return [
        Worked(
            "two deletions at once, one finds it",
            [add, at(1, 20, 30, DELETE_A, deleted("a", True)), at(2, 20, 30, DELETE_A, deleted("a", False))],
            0,
        ),
        Worked(
            "two deletions at once, both find it",
            [add, at(1, 20, 30, DELETE_A, deleted("a", True)), at(2, 20, 30, DELETE_A, deleted("a", True))],
            3,
        ),
        Worked("two additions at once, neither replaces", [add, at(2, 0, 10, ADD_A1, added("a", False))], 2),
        Worked(
            "two additions at once, both replace",
            [at(1, 0, 10, ADD_A, added("a", True)), at(2, 0, 10, ADD_A1, added("a", True))],
            2,
        ),
        Worked(
            "a deletion between two additions",
            [add, at(2, 0, 10, ADD_A1, added("a", False)), at(3, 5, 6, DELETE_A, deleted("a", True))],
            0,
        ),
        Worked(
            "a deletion before both additions finds one",
            [
                at(1, 10, 20, ADD_A, added("a", False)),
                at(2, 10, 20, ADD_A1, added("a", False)),
                at(3, 5, 6, DELETE_A, deleted("a", True)),
            ],
            1,
        ),
    ]


def of_programs() -> List[Worked]:
    both = [at(1, 0, 10, ADD_A, added("a", False)), at(2, 20, 30, ADD_A1, added("a", True))]
    old, new = found(3, BY_0, True), found(3, BY_1, True)
    return [
        Worked("a query during a replacement by the old program", [*both, at(3, 25, 26, USE_A, old)], 0),
        Worked("a query during a replacement by the new program", [*both, at(3, 25, 26, USE_A, new)], 0),
        Worked("a query after a replacement by the old program", [*both, at(3, 31, 32, USE_A, old)], 3),
        Worked("a query before a replacement by the new program", [*both, at(3, 15, 16, USE_A, new)], 2),
        Worked("a query after an addition finds none", [both[0], at(3, 11, 12, USE_A, NONE)], 2),
        Worked("a query at an older view", [both[0], at(3, 11, 12, USE_A, found(2, [NEW2, V0], True))], 0),
        Worked("a query by two programs", [both[0], at(3, 11, 12, USE_A, found(3, [NEW2, NEW3, V0, V1], True))], 2),
    ]


def of_cursors() -> List[Worked]:
    add = at(1, 0, 10, ADD_A, added("a", False))
    first, last = found(2, [NEW2, V0, V1], True), found(3, [NEW2, NEW3, V0, V1], True)
    third, nothing = found(3, [NEW3], False), found(3, [], False)
    return [
        Worked("two uses at once, one the first", [at(1, 0, 10, CURSOR, first), at(2, 0, 10, CURSOR, third)], 0),
        Worked("two uses at once, both the first", [at(1, 0, 10, CURSOR, first), at(2, 0, 10, CURSOR, first)], 2),
        Worked(
            "a change is found twice",
            [at(1, 0, 10, CURSOR, first), at(1, 11, 12, CURSOR, third), at(2, 13, 14, CURSOR, third)],
            3,
        ),
        Worked(
            "a change is found by one of two at once",
            [at(1, 0, 10, CURSOR, first), at(1, 11, 14, CURSOR, nothing), at(2, 11, 14, CURSOR, third)],
            0,
        ),
        Worked(
            "a cursor stays when an older view comes last",
            [at(1, 0, 10, CURSOR, last), at(2, 11, 12, CURSOR, found(2, [], False)), at(1, 13, 14, CURSOR, nothing)],
            0,
        ),
        Worked(
            "a cursor goes back when an older view comes last",
            [at(1, 0, 10, CURSOR, last), at(2, 11, 12, CURSOR, found(2, [], False)), at(1, 13, 14, CURSOR, third)],
            3,
        ),
        Worked("a refused query moves no cursor", [at(1, 0, 10, BOTH, NONE), at(1, 11, 12, CURSOR, first)], 0),
        Worked(
            "a refused query moves the cursor",
            [at(1, 0, 10, BOTH, NONE), at(1, 11, 12, CURSOR, found(2, [], False))],
            2,
        ),
        Worked(
            "a query by a program moves the cursor",
            [add, at(1, 11, 12, BOTH, found(2, [NEW2, V0], True)), at(2, 13, 14, CURSOR, third)],
            0,
        ),
    ]


class WorkedHistories(Case):
    def test_worked(self) -> None:
        """Each of these histories has an order, or its shortest part without one is of as many requests as said."""
        for case in worked():
            is_wrong = order_of(case.requests, answered) is None
            length = len(shortest(case.requests, answered)) if is_wrong else 0
            self.same(case.name, length, case.wrong)

    def test_worked_views(self) -> None:
        """Replies at views that go back, and one that scanned and misses a file which was there before it was asked."""
        early, late = (at(1, 0, 10, LOOK, found(tick, BY_0, True)) for tick in (2, 3))
        later = at(2, 11, 20, LOOK, found(2, BY_0, True))
        self.same("views that stay", gone_back([early, later]), [])
        self.same("views that go back", gone_back([late, later]), [(late, later)])
        self.same("views at once in either order", gone_back([late, later._replace(sent=10)]), [])
        scan = later._replace(asked=Asked("query", "a", scans=True))
        self.same("a file that came while a query scans", missed([scan], [Coming(NEW3, 11)], TREE), [])
        self.same("a file that came before a query scans", missed([scan], [Coming(NEW3, 10)], TREE), [(scan, NEW3)])
        self.same("a file that came before a query without a scan", missed([later], [Coming(NEW3, 10)], TREE), [])
