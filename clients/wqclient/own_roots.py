"""Directories that a person made roots of their own, by `wq watch --root`. Each client takes the nearest one for what
lies below it, until `wq unwatch`. `clients/node/lib/notes.js` reads the same notes."""

import os
from typing import Iterator, Optional

from .kept import directory, keep, kept

OWN_ROOTS = "own-roots"


def is_own_root(path: str) -> bool:
    return kept(OWN_ROOTS, path).get("root") is True


def own_root_of(path: str) -> Optional[str]:
    """The nearest one at or above a directory, whose path is absolute and has no links."""
    if not os.path.isdir(os.path.join(directory(), OWN_ROOTS)):
        return None
    return next((one for one in at_and_above(path) if is_own_root(one)), None)


def at_and_above(path: str) -> Iterator[str]:
    """A directory, and those above it, from the nearest on."""
    yield path
    while path != os.path.dirname(path):
        path = os.path.dirname(path)
        yield path


def set_own_root(path: str, is_root: bool) -> None:
    keep({"root": True} if is_root else {}, OWN_ROOTS, path)
