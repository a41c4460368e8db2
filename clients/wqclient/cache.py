"""The user's cache: what can be made anew, such as a compiled program, and bytecode of Python."""

import errno
import os
import stat
import sys
from contextlib import suppress
from importlib.machinery import (
    BYTECODE_SUFFIXES,
    EXTENSION_SUFFIXES,
    SOURCE_SUFFIXES,
    ExtensionFileLoader,
    FileFinder,
    SourceFileLoader,
    SourcelessFileLoader,
)
from types import CodeType
from typing import Optional

# So many directories above one are looked at, up to the home of a usual user.
ABOVE = 3


def room() -> str:
    above = os.environ.get("XDG_CACHE_HOME", "")
    return os.path.join(above if os.path.isabs(above) else os.path.expanduser("~/.cache"), "wqd")


def fault_of(directory: str) -> str:
    """Why nothing of a directory may be run; "" if it may. With sudo it may be the cache of another user, who could
    also rename what is below his home."""
    found = os.lstat(directory)
    if not stat.S_ISDIR(found.st_mode) or found.st_uid != os.getuid() or found.st_mode & 0o022:
        return f"{directory}: it is no directory that you alone write to"
    path = os.path.realpath(directory)
    for _ in range(ABOVE):
        path = os.path.dirname(path)
        found = os.stat(path)
        if found.st_uid not in (os.getuid(), 0) or found.st_mode & stat.S_IWOTH and not found.st_mode & stat.S_ISVTX:
            return f"{path}: it is no directory of yours alone, and what is kept below is run"
    return ""


def bytecode() -> str:
    """The directory for bytecode, which is made if it is not there. It is an error if others may write to it."""
    directory = os.path.join(room(), "bytecode")
    os.makedirs(directory, mode=0o700, exist_ok=True)
    fault = fault_of(directory)
    if fault:
        raise OSError(errno.EPERM, fault, directory)
    return os.path.realpath(directory)


class Whole(SourceFileLoader):
    """Takes no bytecode of which a part is missing. Older versions of Python keep such a part if no space is left, and
    end at it from then on."""

    def get_code(self, fullname: str) -> Optional[CodeType]:
        try:
            return super().get_code(fullname)
        except (EOFError, ValueError, TypeError):
            spec = getattr(sys.modules.get(fullname), "__spec__", None)
            if spec is None or spec.cached is None:
                raise
        with suppress(OSError):
            os.unlink(spec.cached)
        return super().get_code(fullname)


def keep_bytecode() -> None:
    """From now on Python keeps there what it compiles, and nothing beside the sources, and so starts sooner the next
    time. Without such a place it keeps nothing."""
    try:
        sys.pycache_prefix = bytecode()
    except (OSError, ValueError):
        return
    sys.dont_write_bytecode = False
    loaders = (
        (ExtensionFileLoader, EXTENSION_SUFFIXES),
        (Whole, SOURCE_SUFFIXES),
        (SourcelessFileLoader, BYTECODE_SUFFIXES),
    )
    sys.path_hooks.insert(0, FileFinder.path_hook(*loaders))
    sys.path_importer_cache.clear()
