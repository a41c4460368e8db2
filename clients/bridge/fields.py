"""Fields of files: those that the server keeps, and those that the bridge reads of the listed files when it is
asked."""

import hashlib
import os
import stat
from typing import Callable, Dict, List, NamedTuple, Optional, cast

from bridge.cutting import ESCAPED, Column, Columns
from bridge.faults import Refused
from wqclient.files import opened
from wqclient.names import FIELDS

# The server knows these at the clock that it names.
KEPT = tuple(FIELDS)
BY_DEFAULT = ["name", "exists", "new", "size", "mode"]
# A fresh list has files that exist alone, and each is new.
TRUE_IF_FRESH = ("exists", "new")
# Files are told to be directories or links by the mode, which a deleted file has no longer.
MODES = {
    b"f": stat.S_IFREG,
    b"d": stat.S_IFDIR,
    b"l": stat.S_IFLNK,
    b"b": stat.S_IFBLK,
    b"c": stat.S_IFCHR,
    b"p": stat.S_IFIFO,
    b"s": stat.S_IFSOCK,
}
BILLION = 1_000_000_000
PIECE = 1_048_576

Look = Callable[[bytes, os.stat_result], object]


def times(letter: str) -> Dict[str, Look]:
    """The five forms of one of the times of a file."""

    def nanoseconds(found: os.stat_result) -> int:
        return int(getattr(found, f"st_{letter}time_ns"))

    return {
        f"{letter}time": lambda _, found: nanoseconds(found) // BILLION,
        f"{letter}time_ms": lambda _, found: nanoseconds(found) // 1_000_000,
        f"{letter}time_us": lambda _, found: nanoseconds(found) // 1_000,
        f"{letter}time_ns": lambda _, found: nanoseconds(found),
        f"{letter}time_f": lambda _, found: nanoseconds(found) / BILLION,
    }


def sum_of_content(path: bytes, found: os.stat_result) -> Optional[str]:
    """The SHA-1 of a regular file, and nothing of another. It may have become one since it was looked at."""
    if not stat.S_ISREG(found.st_mode):
        return None
    total = hashlib.sha1()
    with open(path, "rb", opener=opened) as file:
        for piece in iter(lambda: file.read(PIECE), b""):
            total.update(piece)
    return total.hexdigest()


def target_of_link(path: bytes, found: os.stat_result) -> Optional[str]:
    """The target of a link. Texts of replies are UTF-8, so each byte of it that is not becomes a question mark."""
    if not stat.S_ISLNK(found.st_mode):
        return None
    return os.readlink(path).decode("utf-8", "surrogateescape").encode("utf-8", "replace").decode("utf-8")


# These are read of the file when the list has come, and not at the clock.
READ: Dict[str, Look] = {
    **times("a"),
    **times("c"),
    **times("m"),
    "mode": lambda _, found: found.st_mode,
    "uid": lambda _, found: found.st_uid,
    "gid": lambda _, found: found.st_gid,
    "ino": lambda _, found: found.st_ino,
    "dev": lambda _, found: found.st_dev,
    "nlink": lambda _, found: found.st_nlink,
    "symlink_target": target_of_link,
    "content.sha1hex": sum_of_content,
}
for kept in KEPT:
    READ.pop(kept, None)


class Fields(NamedTuple):
    """The fields that a client wants of each file, and those that the server is asked for."""

    wanted: List[str]
    asked: List[str]

    def is_as_asked(self) -> bool:
        return self.wanted == self.asked


def fields_of(value: object, is_in_json: bool, is_fresh: bool) -> Fields:
    """The fields that a query names. In a fresh list some are true of each file, so the server is asked for them only
    if its list goes to a JSON client as it is."""
    if not isinstance(value, list) or not all(isinstance(each, str) for each in value):
        raise Refused("failed to parse query: field list must be an array of strings")
    for name in value:
        if name not in KEPT and name not in READ:
            raise Refused(f"failed to parse query: unknown field name '{name}'")
    wanted = list(dict.fromkeys(value))
    looks = [name for name in wanted if name in READ]
    known = TRUE_IF_FRESH if is_fresh and (looks or not is_in_json) else ()
    asked = [name for name in wanted if name in KEPT and name not in known]
    if looks or not asked:
        asked = list(dict.fromkeys([*asked, "name", *([] if known else ["exists"])]))
        if "mode" in looks and "type" not in asked:
            asked.append("type")
    return Fields(wanted, asked)


class Lister:
    """Makes the list of a client from a list of the server."""

    def __init__(self, fields: Fields, root: str, directory: str) -> None:
        self.fields = fields
        self.root = root
        # Names of the server begin with these bytes, which the client's are without.
        self.above = f"{directory}/".encode("utf-8", "surrogatepass") if directory else b""
        self.looks = [name for name in fields.wanted if name in READ]

    def passes(self) -> bool:
        """Whether a JSON client's list is the server's, but for the directory in front of its names."""
        return self.fields.is_as_asked() and not any(byte in ESCAPED for byte in self.above)

    def columns_of(self, found: Columns, count: int) -> List[Column]:
        """The client's columns in the order of its fields, from those of so many files of the server."""
        told = {**found, **self.looked(found, count)} if self.looks else found
        # The server was not asked for what is true of each file.
        return [told[name] if name in told else [True] * count for name in self.fields.wanted]

    def looked(self, found: Columns, count: int) -> Columns:
        """The columns that are read of the files themselves."""
        above = f"{self.root.rstrip('/')}/".encode() + self.above
        paths = [above + name for name in texts(found["name"])]
        are_there = found.get("exists", [True] * count)
        files = [looked_at(path) if is_there else None for path, is_there in zip(paths, are_there)]
        return {name: self.column(name, found, paths, files) for name in self.looks}

    def column(self, name: str, found: Columns, paths: List[bytes], files: List[Optional[os.stat_result]]) -> Column:
        """The fields of a file that is gone are not known, but for its kind."""
        look = READ[name]
        if name == "mode":
            kinds = zip(files, texts(found["type"]))
            return [file.st_mode if file else MODES.get(kind, 0) for file, kind in kinds]
        return [each_look(look, path, file) if file else None for path, file in zip(paths, files)]


def texts(column: Column) -> List[bytes]:
    return cast(List[bytes], column)


def looked_at(path: bytes) -> Optional[os.stat_result]:
    try:
        return os.lstat(path)
    except OSError:
        return None


def each_look(look: Look, path: bytes, file: os.stat_result) -> object:
    try:
        return look(path, file)
    except OSError:
        return None
