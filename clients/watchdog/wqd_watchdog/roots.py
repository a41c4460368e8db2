"""Which root serves a directory: one that is watched around it, so that nested watches share a root."""

import os
from typing import Iterable, List, Optional

from .trouble import Unserved

SENTENCES = {
    "E11:": "the server cannot read it",
    "E12:": "it has over 1,000,000 files",
    "E13:": "16 directories are watched already, and none is free; `wq roots` lists them, and `wq unwatch` frees one",
    "E17:": "32 clients are connected to the server already",
}


def real_directory(path: str) -> str:
    """The path without links, as roots are named."""
    real = os.path.realpath(path)
    try:
        real.encode("utf-8")
    except UnicodeEncodeError:
        raise Unserved("its path is not UTF-8", path) from None
    return real


def lies_in(path: str, root: str) -> bool:
    return path == root or path.startswith(root.rstrip("/") + "/")


def nearest(directory: str, roots: Iterable[str]) -> Optional[str]:
    """The nearest root that a directory lies in."""
    around = [root for root in roots if lies_in(directory, root)]
    return max(around, key=len) if around else None


def outermost(directory: str, roots: Iterable[str]) -> str:
    """The outermost directory of these that another one lies in; itself if there is no such."""
    return min((root for root in roots if lies_in(directory, root)), key=len, default=directory)


def in_common(directories: List[str]) -> Optional[str]:
    """The directory that has all of these in it. One that is shared with others, such as /tmp, or in which the user's
    home lies, is too much."""
    found = os.path.commonpath(directories)
    is_shared = os.path.dirname(found) == "/" or found == "/"
    return None if is_shared or lies_in(os.path.realpath(os.path.expanduser("~")), found) else found


def refusal(directory: str, error: str) -> Unserved:
    """Why the server does not watch a directory."""
    return Unserved(SENTENCES.get(error[:4], error), directory)
