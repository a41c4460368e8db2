"""Notes of the roots that wq and the adapters had a server watch: for what, when one was last asked about, and which of
them a window has open. The server tells none of it."""

import contextlib
import fcntl
import time
from typing import IO, Any, Callable, Dict, Iterator, List, Optional

from .files import is_gone, is_locked, opened_as_own
from .kept import LOOKS, ROOTS, WINDOWS, keep, kept, path_of, room, run_of

# The purposes of a watch, of which a later one wins: one query; a window; `find --keep`; `since`; `watch` and triggers.
MOMENT, WINDOW, KEPT, SINCE, STAYS = "moment", "window", "kept", "since", "stays"
RANKS = ("", MOMENT, WINDOW, KEPT, SINCE, STAYS)
# A root makes room for another one in this order.
FIRST_TO_GO = ((WINDOW, KEPT), (SINCE,))
# Sends a command, and gives the reply; {} if none comes.
Ask = Callable[..., Dict[str, Any]]


class Notes:
    """The notes of one run of a server."""

    def __init__(self, sockname: str, process: int) -> None:
        self.sockname = sockname
        self.process = process

    def purpose(self, root: str) -> str:
        """The purpose for which wq has this server watch a root; nothing if it does not."""
        note = kept(ROOTS, self.sockname, root)
        return str(note.get("for", STAYS)) if note.get("run") == run_of(self.process) else ""

    def note(self, root: str, purpose: str, is_new: bool) -> None:
        """Notes that a root was asked about. One that another client watches is noted only if it is to stay. Another
        command may have begun to need a new one meanwhile."""
        before = self.purpose(root)
        if is_new or before or purpose == STAYS:
            self.keep(root, max(before, purpose, key=RANKS.index))

    def keep(self, root: str, purpose: str) -> None:
        with contextlib.suppress(OSError):
            note = {"run": run_of(self.process), "for": purpose, "asked": time.time()}
            keep(note, ROOTS, self.sockname, root)

    def forget(self, root: str) -> None:
        with contextlib.suppress(OSError):
            keep({}, ROOTS, self.sockname, root)

    def look(self, root: str) -> str:
        """What a person hears while the server looks at all files of a root that was not watched, and how long that
        took last, if it was long. When the same run of a server does so again, the command is named that keeps the root
        watched, unless it is to stay so."""
        run, note = run_of(self.process), kept(LOOKS, self.sockname, root)
        took = note.get("took")
        before = f", which took {took:.1f} s before" if isinstance(took, (int, float)) else ""
        if note.get("run") == run:
            hint = "" if self.purpose(root) == STAYS else "; `wq watch` would keep it watched"
            return f"the server looks at all files below {root} again{before}{hint}"
        with contextlib.suppress(OSError):
            keep({**note, "run": run}, LOOKS, self.sockname, root)
        return f"the server looks at all files below {root}{before or ' for the first time'}"

    def looked(self, root: str, seconds: float) -> None:
        """Notes how long a look at all files took, for the next one."""
        with contextlib.suppress(OSError):
            keep({"run": run_of(self.process), "took": seconds}, LOOKS, self.sockname, root)

    def is_for_a_moment(self, root: str) -> bool:
        return self.purpose(root) in ("", MOMENT)

    def droppable(self, roots: List[str]) -> Iterator[str]:
        """The roots that make room, if no window has them open: those whose directory is gone, those that need not
        stay, and those that `since` alone keeps. The least lately asked come first."""
        roots = sorted(roots, key=lambda root: float(kept(ROOTS, self.sockname, root).get("asked", 0)))
        roots = [root for root in roots if not self.has_window(root)]
        yield from (root for root in roots if is_gone(root))
        for purposes in FIRST_TO_GO:
            yield from (root for root in roots if self.purpose(root) in purposes)

    def drop_one(self, roots: List[str], ask: Ask) -> Optional[str]:
        """Ends the watch of the first root that can make room, and gives its path; nothing if each has to stay. A
        trigger was registered by somebody who needs its root."""
        for root in self.droppable(roots):
            if ask("trigger-list", root).get("triggers") == []:
                self.end(root, ask)
                return root
        return None

    def give_back(self, root: str, ask: Ask, is_new: bool = False) -> None:
        """Ends the watch of a root that was watched for windows alone, and that none has open, unless it has
        triggers. One that is new has none, and perhaps no view for a reply."""
        if self.purpose(root) == WINDOW and not self.has_window(root):
            if is_new or ask("trigger-list", root).get("triggers") == []:
                self.end(root, ask)

    def end(self, root: str, ask: Ask) -> None:
        self.forget(root)
        ask("watch-del", root)

    def opened(self, root: str) -> "Optional[IO[str]]":
        """A file that says that a window has a root open, until it is closed; nothing if that cannot be noted."""
        with contextlib.suppress(OSError):
            file = self.lock_file(root)
            fcntl.flock(file, fcntl.LOCK_SH)
            return file
        return None

    def has_window(self, root: str) -> bool:
        """Whether a window has a root open, as far as can be seen."""
        try:
            with self.lock_file(root) as file:
                return not is_locked(file)
        except OSError:
            return True

    def lock_file(self, root: str) -> IO[str]:
        room(WINDOWS)
        return open(path_of(WINDOWS, self.sockname, root), "a", encoding="utf-8", opener=opened_as_own)
