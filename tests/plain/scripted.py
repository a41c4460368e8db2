"""The clock ids of the server that replays scripts: its start is 7, and its process 9."""

from wqprogram.clocks import Instance

SERVER = (7, 9)
FIRST_ROOT = 1


def at_root(root: int) -> Instance:
    """The root of this number."""
    start, pid = SERVER
    return Instance(start, pid, root)


FIRST = at_root(FIRST_ROOT)


def clock_id(root: int, tick: int) -> str:
    return ":".join(["c", *map(str, (*at_root(root), tick))])
