"""Which root is watched for a directory: that of its project, so that ten directories of one project are one root."""

import os
from typing import List, NamedTuple, Optional

from wqclient.files import is_of_own_user
from wqclient.own_roots import at_and_above, is_own_root

from .trouble import WrongWords

PROJECT_FILES = (".git", ".hg", ".watchmanconfig")
SPECIAL = "*?["


class Place(NamedTuple):
    """A root, a directory below it by its path from there, "" for the root itself, and the text before the names of its
    files: the directory as it was typed."""

    root: str
    below: str
    front: str = ""

    def path(self) -> str:
        return os.path.join(self.root, self.below) if self.below else self.root

    def rest(self, name: str) -> str:
        """A name of the root, as it is from the directory on."""
        return name[len(self.below) + 1 :] if self.below else name

    def shown(self, name: str) -> str:
        """A name of the root, as it is from where the directory was typed."""
        return self.front + self.rest(name)


def place_of(directory: str, watched: List[str]) -> Place:
    """The place of a directory that is there. The root is the nearest directory at or above it that was made one, or
    that has a file of a project, of this user or the superuser; else the nearest one that is watched already; else
    itself.
    """
    path = real_path(directory)
    above = [*at_and_above(path)]
    nearest = (one for one in above if is_project(one) or is_own_root(one))
    root = next(nearest, next((one for one in above if one in watched), path))
    return Place(root, os.path.relpath(path, root) if path != root else "", front_of(directory))


def front_of(directory: str) -> str:
    """What comes before a name below a directory: nothing if that is the current one."""
    front = directory.rstrip("/")
    if not front:
        return "/" if directory else ""
    return "" if front == "." else f"{front}/"


def is_project(path: str) -> bool:
    return any(is_of_own_user(os.path.join(path, name)) for name in PROJECT_FILES)


def real_path(directory: str) -> str:
    """The path without links, of a directory that is there and whose path is UTF-8."""
    try:
        path = os.path.realpath(directory)
        if not os.path.isdir(path):
            os.listdir(path)
    except (OSError, ValueError) as error:
        raise WrongWords(f"{directory}: {getattr(error, 'strerror', None) or error}") from None
    require_utf8(path, "the path")
    return path


def require_utf8(text: str, what: str) -> None:
    """Words of a command line may have bytes that belong to no letter."""
    try:
        text.encode("utf-8")
    except UnicodeEncodeError:
        shown = os.fsencode(text).decode("utf-8", "backslashreplace")
        raise WrongWords(f"{what} is not UTF-8, and the server sees no such names: {shown}") from None


def root_to_unwatch(word: str, watched: List[str]) -> Optional[str]:
    """The watched root that a word means: the path as it is, without its links, or that of its project."""
    given = os.path.abspath(word)
    for path in (given, os.path.realpath(given)):
        if path in watched:
            return path
    if os.path.isdir(given):
        root = place_of(given, watched).root
        return root if root in watched else None
    return None


def is_pattern(word: str) -> bool:
    return any(letter in word for letter in SPECIAL)


def is_directory(word: str) -> bool:
    try:
        return os.path.isdir(word) and not (is_pattern(word) and not os.path.lexists(word))
    except ValueError:
        return False
