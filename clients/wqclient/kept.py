"""Notes of clients between two calls, since a server tells none of it: the clock of each name of `wq since`, the cost
of the programs that were handed to a server, the roots that are watched and the windows that have them open, which
server was stopped on purpose, and when triggers were registered. And the logs of servers."""

import contextlib
import errno
import json
import os
import stat
from typing import Any, Dict

from .files import opened_as_own

CLOCKS, BUDGETS, ROOTS, WINDOWS, LOOKS = "clocks", "budgets", "roots", "windows", "looks"
STOPS, TRIGGERS, LOGS = "stops", "triggers", "logs"
LONGEST = 65_536


def directory() -> str:
    return os.path.join(above(), "wq")


def above() -> str:
    named = os.environ.get("XDG_STATE_HOME", "")
    return named if os.path.isabs(named) else os.path.join(os.path.expanduser("~"), ".local", "state")


def room(kind: str) -> str:
    """The directory of these notes, which is made if it is not there. With sudo the home may be that of another user,
    who could have put a link there; so a directory of another is refused."""
    home = os.path.expanduser("~")
    if not os.path.isabs(above()):
        raise OSError(errno.ENOENT, "there is no home", home)
    require_own(home if above().startswith(f"{home}/") else above(), may_be_link=True)
    os.makedirs(above(), mode=0o700, exist_ok=True)
    for path in (directory(), os.path.join(directory(), kind)):
        try:
            os.mkdir(path, 0o700)
        except FileExistsError:
            require_own(path)
    return path


def require_own(path: str, may_be_link: bool = False) -> None:
    """Refuses a directory of another user, and a link to one. One that is not there is none of another user."""
    try:
        found = os.stat(path, follow_symlinks=may_be_link)
    except FileNotFoundError:
        return
    if not stat.S_ISDIR(found.st_mode) or found.st_uid != os.getuid():
        raise OSError(errno.EPERM, "it is no directory of yours", path)


def log_of(sockname: str) -> str:
    """The file for what a program says that listens at a socket. The directory of the socket is in memory on most
    systems, and a log may grow; so it takes the log only if these notes cannot."""
    try:
        return os.path.join(room(LOGS), os.path.abspath(sockname).strip("/").replace("/", "%") + ".log")
    except OSError:
        return f"{sockname}.log"


def path_of(kind: str, *parts: str) -> str:
    import hashlib  # most commands keep nothing

    name = hashlib.sha256("\0".join(parts).encode("utf-8", "surrogateescape")).hexdigest()
    return os.path.join(directory(), kind, name[:32])


def kept(kind: str, *parts: str) -> Dict[str, Any]:
    """The value that was kept under these parts of a name; an empty one if none was, or it cannot be read."""
    try:
        with open(path_of(kind, *parts), encoding="utf-8", opener=opened_as_own) as stream:
            found = json.loads(stream.read(LONGEST))
    except (OSError, ValueError):
        return {}
    return found if isinstance(found, dict) else {}


def keep(value: Dict[str, Any], kind: str, *parts: str) -> None:
    room(kind)
    path = path_of(kind, *parts)
    aside = f"{path}.{os.getpid()}"
    try:
        with open(aside, "w", encoding="utf-8", opener=opened_as_own) as stream:
            stream.truncate()
            json.dump(value, stream)
        os.replace(aside, path)
    except OSError:
        # On a full file system each call would leave a file of its own.
        with contextlib.suppress(OSError):
            os.unlink(aside)
        raise


def run_of(process: int) -> str:
    """A name of a process that no later one with its number has: its number and its start, in ticks of the system."""
    try:
        with open(f"/proc/{process}/stat", encoding="utf-8", errors="replace") as stream:
            return f"{process}:{stream.read().rsplit(')', 1)[1].split()[19]}"
    except (OSError, IndexError):
        return f"{process}:?"
