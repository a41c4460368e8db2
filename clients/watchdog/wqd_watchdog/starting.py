"""Starts a server if none listens, as `wq` does."""

import os
import shutil
from pathlib import Path
from typing import Dict

from .trouble import Unserved
from .wqclient.sockets import is_listened_on
from .wqclient.starting import Unstarted, alone, begin, serve_words
from .wqclient.unit import listens_soon

PACKAGE = Path(os.path.realpath(__file__)).parent
# A clone has this file, three directories above the package.
OF_CLONE = "crates.txt"


def start_server(sockname: str) -> None:
    """Of several programs that start a server at once, one does, and the others wait."""
    try:
        with alone(sockname):
            if not is_listened_on(sockname) and not listens_soon(sockname):
                begin([command(), *serve_words(sockname)], sockname, environment())
    except Unstarted as reason:
        raise Unserved(f"the server did not start: {reason}") from None


def command() -> str:
    """The command wqd: that of the clone, the one on the PATH, or the one that is installed with this package, which is
    in lib/wqd/python below the same prefix."""
    clone, prefix = above(3), above(4)
    if (clone / OF_CLONE).is_file():
        return str(clone / "wqd")
    installed = prefix / "bin" / "wqd"
    found = shutil.which("wqd") or (str(installed) if installed.is_file() else None)
    if found is None:
        raise Unserved("no server listens, and the command wqd is not on the PATH")
    return found


def above(count: int) -> Path:
    """The directory so many above the package, or the root of the system."""
    return Path(os.path.normpath(PACKAGE.joinpath(*[".."] * count)))


def environment() -> Dict[str, str]:
    """That of this process. A program that is named has a path that another directory does not change."""
    named = os.environ.get("WQD")
    return {**os.environ, "WQD": os.path.abspath(named)} if named else dict(os.environ)
