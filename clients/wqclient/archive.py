"""An archive of modules that Python runs, such as the installed wq. Python keeps no bytecode of these, so it would
compile each module at every start."""

import marshal
import os
import sys
from contextlib import suppress
from types import CodeType
from typing import TYPE_CHECKING, Optional, cast
from zipimport import zipimporter

from . import cache

if TYPE_CHECKING:
    from importlib.abc import PathEntryFinder


class Kept(zipimporter):
    """Takes the modules of the archive from where their bytecode is kept, or else compiles and keeps them."""

    # Where those of the archive are, for this version of Python.
    directory = ""

    def get_code(self, fullname: str) -> CodeType:
        path = os.path.join(self.directory, fullname)
        code = loaded(path)
        if code is None:
            code = super().get_code(fullname)
            keep(code, path)
        return code


def loaded(path: str) -> Optional[CodeType]:
    try:
        with open(path, "rb") as stream:
            found = marshal.loads(stream.read())
    except (OSError, ValueError, EOFError, TypeError):
        return None
    return found if isinstance(found, CodeType) else None


def keep(code: CodeType, path: str) -> None:
    aside = f"{path}.{os.getpid()}"
    try:
        with open(aside, "xb") as stream:
            stream.write(marshal.dumps(code))
        os.replace(aside, path)
    except OSError:
        with suppress(OSError):
            os.unlink(aside)


def keep_bytecode(archive: str) -> None:
    """From now on the modules of an archive are kept, if nobody else may write where they are. A directory is for one
    archive, as it is now, and one version of Python."""
    try:
        found = os.stat(archive)
        above = os.path.join(cache.bytecode(), f"{sys.implementation.cache_tag}-{sys.hexversion:x}")
        name = os.path.realpath(archive).strip("/").replace("/", "%")
        Kept.directory = os.path.join(above, name, f"{found.st_size}-{found.st_mtime_ns}")
        if not os.path.isdir(Kept.directory):
            drop_old(os.path.join(above, name))
            os.makedirs(Kept.directory, mode=0o700, exist_ok=True)
    except OSError:
        return
    sys.path_hooks.insert(0, importer)
    sys.path_importer_cache.clear()


def drop_old(directory: str) -> None:
    """Drops what was kept of the archive before it was replaced."""
    from shutil import rmtree

    rmtree(directory, ignore_errors=True)


def importer(path: str) -> "PathEntryFinder":
    return cast("PathEntryFinder", Kept(path))
