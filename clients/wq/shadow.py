"""A work tree that has the rules of another one alone: each .gitignore has the lines of the .ignore beside it too, and
after its own, since git reads no .ignore."""

import os
import stat
from typing import Dict, List, Optional

from wqclient.files import bytes_of

from .git import Unanswered

# A file of rules has at most so many bytes.
LONGEST = 1_048_576
GITIGNORE, IGNORE = ".gitignore", ".ignore"


def text_of(path: str) -> str:
    """The text of a file; nothing if it cannot be read. git follows no link for its rules. The tree may be that of a
    stranger, so no pipe is waited for, and a longer file has no rules."""
    try:
        return bytes_of(path, LONGEST).decode("utf-8", "surrogateescape")
    except OSError:
        return ""


def is_plain(path: str) -> bool:
    """Whether git may read a file of rules itself: it would wait for a pipe, and take memory for all of a long file."""
    try:
        found = os.lstat(path)
    except OSError:
        return False
    return stat.S_ISREG(found.st_mode) and found.st_size <= LONGEST


def is_directory(path: str) -> bool:
    return os.path.isdir(path) and not os.path.islink(path)


def no_room(error: OSError) -> Unanswered:
    return Unanswered(f"it has no room for the rules: {error.strerror}")


class Shadow:
    """The work tree, which is gone when this command ends."""

    def __init__(self, top: str, directories: List[str], texts: Optional[Dict[str, str]] = None) -> None:
        """The directories are those with rules, by their whole paths. Files that are not those of now have these
        texts."""
        import tempfile  # it is slow to read, and seldom needed

        self.top = top
        self.texts = texts
        self.room = tempfile.TemporaryDirectory(prefix="wq-")
        try:
            for directory in directories:
                self.add(directory)
                self.write(directory)
        except BaseException as error:
            self.close()
            if isinstance(error, OSError):
                raise no_room(error) from None
            raise

    def write(self, directory: str) -> None:
        """Writes the rules of a directory. One with another directory in their place has none."""
        own, other = os.path.join(directory, GITIGNORE), os.path.join(directory, IGNORE)
        if self.texts is not None:
            texts = [self.texts.get(own, ""), self.texts.get(other, "")]
        elif is_directory(own):
            self.add(own)
            return
        else:
            texts = ["" if os.path.islink(own) else text_of(own), text_of(other)]
        with open(
            os.path.join(self.path(directory), GITIGNORE), "w", encoding="utf-8", errors="surrogateescape", newline="\n"
        ) as stream:
            stream.write("\n".join(texts))

    def path(self, directory: str) -> str:
        return os.path.normpath(os.path.join(self.room.name, os.path.relpath(directory, self.top)))

    def add(self, directory: str) -> None:
        """Rules of directories are for directories alone, so git looks whether a name is one."""
        try:
            os.makedirs(self.path(directory), exist_ok=True)
        except OSError as error:
            raise no_room(error) from None

    def close(self) -> None:
        self.room.cleanup()
