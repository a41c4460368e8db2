"""`wq --names KIND`: names that a shell completes, one a line. Without a server there are none, and none is started."""

from typing import List

from .home import Home
from .roots import place_of
from .server import Server, reached
from .terminal import name_shown, show
from .trouble import FOUND, Trouble, WrongWords

KINDS = ("programs", "triggers", "roots")


def print_names(kinds: List[str], home: Home) -> int:
    if len(kinds) != 1 or kinds[0] not in KINDS:
        raise WrongWords(f"--names takes one of {', '.join(KINDS)}")
    try:
        with reached(home, starts=False) as server:
            show(name_shown(name, None) for name in names_of(kinds[0], server) if "\n" not in name)
    except Trouble:
        pass
    return FOUND


def names_of(kind: str, server: Server) -> List[str]:
    """The programs of the server; the triggers of the root that the current directory is in; its roots."""
    if kind == "programs":
        programs: List[str] = server.ask("program-list")["programs"]
        return programs
    roots = server.roots()
    if kind == "roots":
        return roots
    return [trigger["name"] for trigger in server.ask("trigger-list", place_of(".", roots).root)["triggers"]]
