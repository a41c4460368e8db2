"""A client that follows a tree, and what it knows beside a plain walk."""

from pathlib import Path
from typing import List

from case import Case
from client import Client, Server, walked
from pictures import Picture

FIELDS = ["name", "exists", "type", "size", "mtime_ms"]


class Follower:
    """A client that asks a root for what changed since its last answer, and keeps what it heard."""

    def __init__(self, case: Case, server: Server, root: Path) -> None:
        self.case = case
        self.client: Client = server.client()
        self.root = root
        self.picture = Picture()
        self.client.ask("watch", str(root))

    def __enter__(self) -> "Follower":
        return self

    def __exit__(self, *_: object) -> None:
        self.client.close()

    def takes(self, name: str) -> List[str]:
        """Takes the changes since the last answer. What is known then is the tree. Gives the names that changed."""
        reply = self.client.ask("query", str(self.root), {"since": "n:follower", "fields": FIELDS})
        self.picture.take(reply.get("files", []))
        self.case.same(name, self.picture.known, {row[0]: row[1:] for row in walked(self.root)})
        return sorted(file["name"] for file in reply.get("files", []))

    def hears_of(self, name: str) -> List[str]:
        """The files of the list of a subscription that has this name, when it comes."""
        while True:
            files = self.client.reply().get("files", [])
            if name in files:
                return files


def make_tree(root: Path, directories: int = 4, files: int = 6) -> None:
    for directory in range(directories):
        (root / f"d{directory}" / "below").mkdir(parents=True)
        for file in range(files):
            (root / f"d{directory}" / f"f{file}").write_text("x" * file)
        (root / f"d{directory}" / "below" / "g").touch()
