"""Trees of files, for tests and benches."""

import os
import tempfile
from contextlib import contextmanager
from pathlib import Path
from typing import Iterable, Iterator, List, NamedTuple

FILES = 60_000
FILES_OF_A_DIRECTORY = 100
MOST_FILES = 1_000_000
# A directory in memory makes a million names in a fourth of the time that a disk takes.
MEMORY = Path("/dev/shm")
# Of a project: suffixes as they are usual, words of names, some 17 entries for each directory, and multipliers that
# scatter the files.
SUFFIXES = ["c"] * 16 + ["h"] * 12 + ["cpp"] * 6 + ["rs"] * 8 + ["py"] * 8 + ["js"] * 12 + ["ts"] * 8
SUFFIXES += ["json"] * 6 + ["md"] * 4
WORDS = "alpha beta core util net http parse test main index view model store cache query clock".split()
OF_A_DIRECTORY = 17
FAR, NEAR = 2_654_435_761, 37


class Tree(NamedTuple):
    root: Path
    directories: List[str]
    files: List[str]

    def entries(self) -> int:
        return len(self.directories) + len(self.files)


def make_project(root: Path, entries: int) -> Tree:
    """A tree like that of a large project."""
    directories: List[str] = []
    for number in range(max(8, entries // OF_A_DIRECTORY)):
        name = f"{WORDS[number * 7 % len(WORDS)]}{number}"
        directories.append(name if number < 8 else f"{directories[(number - 8) // 8]}/{name}")
    for directory in directories:
        (root / directory).mkdir(parents=True)
    files = []
    for number in range(entries - len(directories)):
        directory = directories[number * FAR % len(directories)]
        name = f"{WORDS[number * 13 % len(WORDS)]}_{number}{'_test' if number % 11 == 0 else ''}"
        files.append(f"{directory}/{name}.{SUFFIXES[number * NEAR % len(SUFFIXES)]}")
        (root / files[-1]).write_bytes(b"x" * (number * 7 % 200))
    return Tree(root, directories, files)


def make_files(root: Path, names: Iterable[str]) -> None:
    """Makes files with their names in them; a name that ends in a slash is a directory."""
    for name in names:
        path = root / name
        path.parent.mkdir(parents=True, exist_ok=True)
        if name.endswith("/"):
            path.mkdir(exist_ok=True)
        else:
            path.write_text(name)


def append(path: Path) -> None:
    with path.open("ab") as file:
        file.write(b"y")


def fill_directory(directory: Path, count: int) -> None:
    """Makes a directory with so many files."""
    directory.mkdir(parents=True)
    for number in range(count):
        (directory / f"file{number}").touch()


def fill(root: Path) -> None:
    """Makes a large root of directories with files."""
    for number in range(FILES // FILES_OF_A_DIRECTORY):
        fill_directory(root / f"directory{number}", FILES_OF_A_DIRECTORY)


def in_memory(room: Path) -> "tempfile.TemporaryDirectory[str]":
    """A directory in memory if that has room, and else below this one."""
    return tempfile.TemporaryDirectory(dir=MEMORY if has_room(MEMORY) else room)


def has_room(directory: Path) -> bool:
    """Whether names can be made in a directory, and so many that a fifth is left over. A link in memory takes an
    inode."""
    return os.access(directory, os.W_OK) and os.statvfs(directory).f_favail > MOST_FILES * 6 // 5


def make_names(root: Path, directories: int, rows: int) -> None:
    """Directories with as many names each, all of which are links to one link: a row each, and no file."""
    for number in range(directories):
        directory = root / f"directory{number:02}"
        directory.mkdir(parents=True)
        opened = os.open(directory, os.O_RDONLY)
        os.symlink("nothing", "0", dir_fd=opened)
        for name in range(1, rows // directories - 1):
            os.link("0", str(name), src_dir_fd=opened, dst_dir_fd=opened, follow_symlinks=False)
        os.close(opened)


@contextmanager
def lock(directory: Path) -> Iterator[None]:
    """Nobody but a root with all its powers may read a directory, until that is over: then it can be removed again."""
    directory.chmod(0)
    try:
        yield
    finally:
        directory.chmod(0o700)
