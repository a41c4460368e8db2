"""Files below a directory in which others may write too. Each directory on the way is opened by its name in the one
above it and no link is followed, so that nothing elsewhere is written or removed."""

import contextlib
import errno
import os
import secrets
import stat
from pathlib import Path, PurePath
from typing import Iterator, List, Tuple

DIRECTORY = os.O_PATH | os.O_DIRECTORY | os.O_NOFOLLOW
FILE = os.O_RDONLY | os.O_NOFOLLOW | os.O_NONBLOCK
NEW = os.O_WRONLY | os.O_CREAT | os.O_EXCL | os.O_NOFOLLOW
SUPERUSER = 0
OTHERS_MAY_WRITE = stat.S_IWGRP | stat.S_IWOTH


class Below:
    """The directory, and what is done below it. The paths are relative ones, without `..`."""

    def __init__(self, path: Path) -> None:
        self.path = path

    def make(self, below: str) -> List[str]:
        """Makes a directory and those above it, and says which were not there. `.` is the directory itself."""
        made = []
        if not self.path.is_dir():
            os.makedirs(self.path, 0o755)
            made.append(".")
        for path in [*reversed(PurePath(below).parents), PurePath(below)][1:]:
            with self.place_of(str(path)) as (above, name), contextlib.suppress(FileExistsError):
                os.mkdir(name, 0o755, dir_fd=above)
                made.append(str(path))
        return made

    def write(self, path: str, mode: int, data: bytes) -> None:
        """Writes a file and then gives it its name, so that a program that runs under the name goes on. The file is
        new: its first name cannot be guessed, so nobody can have put a link there."""
        with self.place_of(path) as (above, name):
            aside = f".{name}.{secrets.token_hex(8)}"
            with open(os.open(aside, NEW, 0o600, dir_fd=above), "wb") as file:
                try:
                    file.write(data)
                    file.flush()
                    os.fchmod(file.fileno(), mode)
                    os.rename(aside, name, src_dir_fd=above, dst_dir_fd=above)
                except BaseException:
                    os.unlink(aside, dir_fd=above)
                    raise

    def read_own(self, path: str) -> bytes:
        """What is in a file that nobody but the caller and the superuser can have written."""
        with self.place_of(path) as (above, name), open(os.open(name, FILE, dir_fd=above), "rb") as file:
            found = os.fstat(file.fileno())
            if not stat.S_ISREG(found.st_mode):
                raise OSError(errno.EINVAL, "it is no file")
            if found.st_uid not in (os.geteuid(), SUPERUSER):
                raise PermissionError(errno.EPERM, f"it is that of user {found.st_uid}, and not yours")
            if found.st_mode & OTHERS_MAY_WRITE:
                raise PermissionError(errno.EPERM, "others may write to it")
            return file.read()

    def has(self, path: str) -> bool:
        try:
            with self.place_of(path) as (above, name):
                os.lstat(name, dir_fd=above)
        except FileNotFoundError:
            return False
        return True

    def unlink(self, path: str) -> bool:
        """Removes a file or a link, and says whether there was one."""
        try:
            with self.place_of(path) as (above, name):
                os.unlink(name, dir_fd=above)
        except (FileNotFoundError, IsADirectoryError):
            return False
        return True

    def rmdir(self, path: str) -> None:
        """Removes a directory, unless it has files of others. The directory itself goes by its own path."""
        try:
            if not PurePath(path).parts:
                os.rmdir(self.path)
                return
            with self.place_of(path) as (above, name):
                os.rmdir(name, dir_fd=above)
        except FileNotFoundError:
            return
        except OSError as error:
            if error.errno != errno.ENOTEMPTY:
                raise

    def names(self, path: str) -> List[str]:
        """The names in a directory; none if it is not there or is a link."""
        try:
            with self.place_of(path) as (above, name):
                directory = os.open(name, os.O_RDONLY | os.O_DIRECTORY | os.O_NOFOLLOW, dir_fd=above)
                try:
                    return os.listdir(directory)
                finally:
                    os.close(directory)
        except (FileNotFoundError, NotADirectoryError):
            return []

    @contextlib.contextmanager
    def place_of(self, path: str) -> Iterator[Tuple[int, str]]:
        """The opened directory that a path is in, and its name there. Errors say the whole path."""
        *above, name = PurePath(path).parts
        reached = self.path
        number = os.open(reached, os.O_PATH | os.O_DIRECTORY)
        try:
            for part in above:
                reached /= part
                outer, number = number, os.open(part, DIRECTORY, dir_fd=number)
                os.close(outer)
            reached /= name
            yield number, name
        except NotADirectoryError as error:
            raise OSError(error.errno, "it is no directory, and a link is not followed", str(reached)) from None
        except OSError as error:
            raise OSError(error.errno, error.strerror, str(reached)) from None
        finally:
            os.close(number)
