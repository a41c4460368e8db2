"""Opens files that somebody else may have made, such as those of a tree: a pipe is not waited for, and what is no
regular file is refused."""

import errno
import fcntl
import os
import stat
from typing import IO


def opened(path: "os.PathLike[str] | str | bytes", flags: int, follows: bool = False) -> int:
    """A regular file, for `open` as its opener. A link is refused, unless it may be one; nothing is cut off."""
    added = os.O_NONBLOCK | os.O_CLOEXEC | (0 if follows else os.O_NOFOLLOW)
    number = os.open(path, flags & ~os.O_TRUNC | added, 0o600)
    if not stat.S_ISREG(os.fstat(number).st_mode):
        os.close(number)
        raise OSError(errno.EPERM, "it is no regular file", path)
    return number


def opened_as_own(path: str, flags: int) -> int:
    """A regular file of this user, as one in a directory where others make files too."""
    number = opened(path, flags)
    if os.fstat(number).st_uid != os.getuid():
        os.close(number)
        raise OSError(errno.EPERM, "it is no file of yours", path)
    return number


def bytes_of(path: str, most: int) -> bytes:
    """The bytes of a file, or of the one that a link leads to, of which there may be so many."""
    with open(path, "rb", opener=lambda path, flags: opened(path, flags, follows=True)) as file:
        found = file.read(most + 1)
    if len(found) > most:
        raise OSError(errno.EFBIG, f"it has over {most:,} bytes", path)
    return found


def is_of_own_user(path: str) -> bool:
    """Whether a file is there that this user or the superuser made. A link is looked at itself."""
    try:
        return os.lstat(path).st_uid in (os.getuid(), 0)
    except (OSError, ValueError):
        return False


def is_gone(path: str) -> bool:
    """Whether nothing is there. What a file system does not answer is not gone."""
    try:
        os.lstat(path)
    except (FileNotFoundError, NotADirectoryError):
        return True
    except OSError:
        pass
    return False


def is_locked(file: IO[str]) -> bool:
    """Whether the file is locked now by this process, and no other had it."""
    try:
        fcntl.flock(file, fcntl.LOCK_EX | fcntl.LOCK_NB)
    except BlockingIOError:
        return False
    return True
