"""The place of a server's socket, and whether somebody listens there."""

import errno
import os
import socket
import stat
from typing import Optional

SOCKET = "wqd.sock"


def default_sockname() -> str:
    """The socket, if no word of a command names one: the variable WQD_SOCK, else `wqd.sock` in the directory of the
    session (XDG_RUNTIME_DIR), else in a directory of the user's own, below TMPDIR or /tmp, which is made if it is not
    there."""
    named = os.environ.get("WQD_SOCK")
    if named:
        return os.path.abspath(named)
    above = os.environ.get("XDG_RUNTIME_DIR", "")
    if is_own_directory(above):
        return os.path.join(os.path.abspath(above), SOCKET)
    return os.path.join(own_room(f"wqd-{os.getuid()}"), SOCKET)


def own_room(name: str, above: Optional[str] = None) -> str:
    """A directory of this name that nobody else can enter, below another, which is TMPDIR or /tmp if it is left out."""
    room = os.path.join(os.path.abspath(above or os.environ.get("TMPDIR") or "/tmp"), name)
    try:
        os.mkdir(room, 0o700)
    except FileExistsError:
        pass
    found = os.lstat(room)
    if not stat.S_ISDIR(found.st_mode) or found.st_uid != os.getuid() or stat.S_IMODE(found.st_mode) & 0o077:
        raise OSError(errno.EPERM, "it is no directory of yours alone", room)
    return room


def is_own_directory(path: str) -> bool:
    """Whether this user made the directory, and alone may write to it. Another user who may could put another socket
    there; the superuser may be left with the variables of one."""
    try:
        found = os.stat(path)
    except (OSError, ValueError):
        return False
    is_own = stat.S_ISDIR(found.st_mode) and found.st_uid == os.getuid() and not found.st_mode & 0o022
    return is_own and os.access(path, os.W_OK | os.X_OK)


def is_listened_on(sockname: str) -> bool:
    stream = socket.socket(socket.AF_UNIX, socket.SOCK_STREAM)
    stream.setblocking(False)
    try:
        stream.connect(os.fsencode(sockname))
    except BlockingIOError:
        return True
    except OSError:
        return False
    finally:
        stream.close()
    return True
