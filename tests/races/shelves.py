"""A plain server that answers one request after the other: the programs and the cursor that clients share."""

from typing import Any, Dict, List, NamedTuple, Optional, Tuple

from history import INSTRUCTIONS, NEW, Asked, Request, own_file
from scripted import clock_id
from wqprogram.errors import NO_SUCH_PROGRAM

Reply = Dict[str, Any]
VERSION = {"version": "wq-1"}


class Shelf(NamedTuple):
    """The versions of the programs by their names, in the order of adding, and the tick of the cursor, once it was
    used."""

    programs: Tuple[Tuple[str, int], ...] = ()
    cursor: Optional[int] = None


class Tree(NamedTuple):
    """The number of a root, and the tick at which each of its files came. None changes, and none goes."""

    root: int
    ticks: Dict[str, int]

    def names(self, since: int, tick: int) -> List[str]:
        """The files that came after a tick, in the view of another."""
        return sorted(name for name, came in self.ticks.items() if since < came <= tick)


def answer(shelf: Shelf, request: Request, tree: Tree) -> Tuple[Shelf, Optional[Reply]]:
    """The shelf after a request, and its reply. There is none if a query is refused that has no error."""
    if request.asked.kind == "query":
        return answer_query(shelf, request, tree)
    after, reply = PROGRAM_COMMANDS[request.asked.kind](dict(shelf.programs), request.asked)
    return shelf._replace(programs=tuple(after.items())), {**reply, **VERSION}


def add(programs: Dict[str, int], asked: Asked) -> Tuple[Dict[str, int], Reply]:
    """A program that takes the place of another is where that was."""
    reply = {"instructions": INSTRUCTIONS, "program-add": asked.name, "replaced": asked.name in programs}
    return {**programs, asked.name or "": asked.version}, reply


def delete(programs: Dict[str, int], asked: Asked) -> Tuple[Dict[str, int], Reply]:
    others = {name: version for name, version in programs.items() if name != asked.name}
    return others, {"deleted": asked.name in programs, "program-del": asked.name}


def list_all(programs: Dict[str, int], asked: Asked) -> Tuple[Dict[str, int], Reply]:
    return programs, {"programs": list(programs)}


PROGRAM_COMMANDS = {"add": add, "delete": delete, "list": list_all}


def answer_query(shelf: Shelf, request: Request, tree: Tree) -> Tuple[Shelf, Optional[Reply]]:
    """The reply says at which view the server looked. All else follows."""
    asked, tick = request.asked, request.tick()
    version = dict(shelf.programs).get(asked.name or "")
    if asked.name is not None and version is None:
        return shelf, {"error": NO_SUCH_PROGRAM, **VERSION}
    if tick is None:
        return shelf, None
    since = shelf.cursor if asked.has_cursor else None
    names = tree.names(since or 0, tick)
    files = [name for name in names if version is None or name == own_file(version) or name.startswith(NEW)]
    reply = {"clock": clock_id(tree.root, tick), "files": files, "is_fresh_instance": since is None, **VERSION}
    return (shelf._replace(cursor=max(since or 0, tick)) if asked.has_cursor else shelf), reply
