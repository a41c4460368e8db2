"""What a walk leaves out: paths that are too long for the system, and files that go while it walks."""

import os
import threading
from pathlib import Path
from typing import List

from case import Case
from client import Server, query_of_names

# The longest path that the system takes, in bytes.
LONGEST_PATH = 4095
# Names of directories in directories, which lead far beyond it.
DIRECTORY = "f" * 200
DEPTH = 25
WALKS = 200
FLEETING = 50


def make_deep_directories(root: Path) -> List[str]:
    """Directories in directories, each with a file, and their names below the root. Each is made from its directory,
    since the paths of some are too long."""
    names, below = [], ""
    directory = os.open(root, os.O_RDONLY)
    for _ in range(DEPTH):
        os.close(os.open("file", os.O_WRONLY | os.O_CREAT, dir_fd=directory))
        os.mkdir(DIRECTORY, dir_fd=directory)
        names += [below + "file", below + DIRECTORY]
        below += DIRECTORY + "/"
        directory, upper = os.open(DIRECTORY, os.O_RDONLY, dir_fd=directory), directory
        os.close(upper)
    os.close(directory)
    return names


class Blinking(threading.Thread):
    """Makes files in a directory and takes them away again, until it is told to end."""

    def __init__(self, directory: Path) -> None:
        super().__init__()
        self.files = [directory / f"fleeting{number:02}" for number in range(FLEETING)]
        self.ends = threading.Event()

    def run(self) -> None:
        while not self.ends.is_set():
            for file in self.files:
                file.touch()
            for file in self.files:
                file.unlink()


class Fleeting(Case):
    def test_paths_that_are_too_long(self) -> None:
        """Files whose path from the root the system takes are listed, and no others."""
        root = self.directory("tree")
        names = make_deep_directories(root)
        short = sorted(name for name in names if len(name) <= LONGEST_PATH)
        with Server(self.room) as server, server.client(root) as client:
            files = client.ask("query", str(root), query_of_names())["files"]
            self.check("there are paths that are too long", 0 < len(short) < len(names))
            self.same("paths that are not too long", [len(name) for name in files], [len(name) for name in short])
            self.check("their names", files == short)

    def test_files_that_go_during_walks(self) -> None:
        """While files come and go, each walk goes on: a reply has all files that stay, and besides none but those."""
        root = self.room / "tree"
        directory = root / "directory"
        directory.mkdir(parents=True)
        for number in range(FLEETING):
            (directory / f"stays{number:02}").touch()
        stays = sorted(["directory"] + [f"directory/stays{number:02}" for number in range(FLEETING)])
        with Server(self.room) as server, server.client(root) as client:
            blinking = Blinking(directory)
            fleeting = {f"directory/{file.name}" for file in blinking.files}
            blinking.start()
            try:
                replies = [client.ask("query", str(root), query_of_names()) for _ in range(WALKS)]
            finally:
                blinking.ends.set()
                blinking.join()
            wrong = [reply for reply in replies if sorted(set(reply.get("files", [])) - fleeting) != stays]
            self.same("walks while files come and go", wrong[:1], [])
            seen = {name for reply in replies for name in reply.get("files", [])} & fleeting
            self.check("files that come and go were seen", len(seen) > 0, [f"{len(seen)} files"])
            self.same("when they are gone", client.ask("query", str(root), query_of_names())["files"], stays)
