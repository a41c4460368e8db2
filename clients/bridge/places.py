"""Roots: which directory a path names, and of which project it is a part."""

import os
from typing import List, NamedTuple, Optional

from bridge.faults import Refused
from wqclient.files import is_of_own_user
from wqclient.own_roots import own_root_of


class Project(NamedTuple):
    """A root, and the path of a directory below it; "" for the root itself."""

    root: str
    below: str


def text_of(root: object) -> str:
    if not isinstance(root, str):
        raise Refused("invalid value for argument 1, expected a string naming the root dir")
    return root


def resolved(root: object) -> str:
    """The directory that a path leads to, without links in its path. Watchman names roots so."""
    path = text_of(root)
    if not path.startswith("/"):
        raise Refused(f'unable to resolve root {path}: path "{path}" must be absolute')
    try:
        return in_utf8(real_path(path))
    except NotThere as fault:
        raise Refused(f"unable to resolve root {path}: realpath({path}) -> {fault}")


def resolved_if_there(root: object) -> str:
    """The same; a path that leads nowhere names the root that was there."""
    path = text_of(root)
    try:
        return in_utf8(real_path(path))
    except NotThere:
        return path


class NotThere(Exception):
    """Nothing is found at a path, for this reason."""


def real_path(path: str) -> str:
    """The path without links. Each query asks for it, and the system knows it sooner than one step after the other
    tells."""
    try:
        number = os.open(path, os.O_PATH)
    except (OSError, ValueError) as error:
        raise NotThere(getattr(error, "strerror", None) or str(error))
    try:
        return os.readlink(f"/proc/self/fd/{number}")
    except OSError:
        return os.path.realpath(path)
    finally:
        os.close(number)


def in_utf8(path: str) -> str:
    try:
        path.encode("utf-8")
    except UnicodeEncodeError:
        raise Refused(f"unable to resolve root {ascii(path)}: its path is not UTF-8")
    return path


def project_of(path: object, watched: List[str], root_files: List[str], enforces: bool) -> Project:
    """The watched root that a directory lies in, or else the project above it, unless `wq watch --root` made a nearer
    one; or else the directory itself, unless only projects may be watched."""
    if not isinstance(path, str):
        raise Refused("second argument must be a string")
    try:
        if not path.startswith("/"):
            raise NotThere("it must be absolute")
        directory = in_utf8(real_path(path))
    except NotThere as fault:
        raise Refused(f"resolve_projpath: path `{path}`: open: {path}: {fault}")
    found = enclosing(directory, watched) or project_root(directory, root_files)
    made = None if enforces else own_root_of(directory)
    root = max(found or "", made or "", key=len) or ("" if enforces else directory)
    if not root:
        raise Refused(
            f"resolve_projpath: none of the files listed in global config root_files are present in path "
            f"`{path}` or "
            "any of its parent directories"
        )
    return Project(root, directory[len(root) :].strip("/"))


def enclosing(path: str, roots: List[str]) -> Optional[str]:
    """The nearest root that a path lies in."""
    around = [root for root in roots if lies_in(path, root)]
    return max(around, key=len) if around else None


def lies_in(path: str, root: str) -> bool:
    return path == root or path.startswith(root.rstrip("/") + "/")


def project_root(directory: str, root_files: List[str]) -> Optional[str]:
    """The directory above, or this one, that a file of a project is in. A file of the first kind counts however far
    above it is, and one that another user made does not count."""
    for name in root_files:
        at = directory
        while True:
            if is_of_own_user(os.path.join(at, name)):
                return at
            if at == "/":
                break
            at = os.path.dirname(at)
    return None
