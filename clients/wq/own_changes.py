"""Notices a command that changes files which it is run for, and so causes its own next run."""

import shlex
from typing import List, Set

from .globs import escaped

# How many runs in a row are no accident, and how many names are shown.
ENOUGH, SHOWN = 3, 3


class OwnChanges:
    """The files for which the last runs began, and which the run before each may have changed."""

    def __init__(self) -> None:
        self.runs: List[Set[str]] = []
        self.is_told = False

    def add(self, names: Set[str], is_own: bool) -> Set[str]:
        """A run begins for changes of these files alone, perhaps of the last run's own. Gives once those that began
        each of the last runs."""
        self.runs = [*self.runs, names][-ENOUGH:] if names and is_own else []
        found = set.intersection(*self.runs) if len(self.runs) == ENOUGH and not self.is_told else set()
        self.is_told = self.is_told or bool(found)
        return found


def sentence(command: str, names: List[str], fronts: List[str], pause: float) -> str:
    """Says that a command may cause its own runs, how that ends and at which cost, and what the pause is from now on,
    in seconds."""
    shown = ", ".join(names[:SHOWN]) + (f" and {len(names) - SHOWN:,} more" if len(names) > SHOWN else "")
    globs = sorted({glob_of(name, fronts) for name in names})
    options = " ".join(f"--exclude {shlex.quote(glob)}" for glob in globs) if len(globs) <= SHOWN else ""
    no_self = "--no-self leaves out all that changes during a run, also what you save"
    hints = f"{options} leaves that out; {no_self}" if options else no_self
    front = f"each run of {command} may change {shown}, and so cause the next one; {hints}"
    return f"{front}; the pause before a run is {1000 * pause:g} ms from now on"


def glob_of(name: str, fronts: List[str]) -> str:
    """The glob of a file, whose name begins with a directory as it was typed."""
    front = max((front for front in fronts if name.startswith(front)), key=len, default="")
    return escaped(name[len(front) :])
