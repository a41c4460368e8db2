"""Directories below a root that the server may not read."""

from pathlib import Path
from typing import Dict, List

from case import Case
from client import A_HOUR, VERSION, Client, Server, query_of_names
from trees import lock

OPEN = ["locked", "open", "open/file"]
BELOW = ["locked/directory", "locked/directory/file", "locked/file"]


class Locked(Case):
    def test_a_locked_directory(self) -> None:
        """Of a directory that cannot be read its own row is there, and nothing below it. What is below it comes when it
        can be read, and goes when it can be no more. A directory beside it is as it was."""
        root = self.room / "tree"
        for directory in ("locked/directory", "locked", "open"):
            (root / directory).mkdir(parents=True, exist_ok=True)
            (root / directory / "file").touch()
        with Server(self.room, interval=A_HOUR, is_plain=True) as server, server.client() as client:
            with lock(root / "locked"):
                client.ask("watch", str(root))
                first = changes(client, root)
            second = changes(client, root, since=first["clock"])
            with lock(root / "locked"):
                third = changes(client, root, since=second["clock"])
        self.same("a locked directory", told(first), [(name, True) for name in OPEN])
        self.same("a directory that is no longer locked", told(second), [(name, True) for name in BELOW])
        self.same("a directory that is locked again", told(third), [(name, False) for name in BELOW])

    def test_a_root_that_cannot_be_entered(self) -> None:
        """Of a root that can be read and not entered no file can be looked at: not even those with a name that is at
        the top of the file system too. One that can be entered and not read is refused. When it can be both, all files
        are there."""
        root = self.room / "tree"
        (root / "etc").mkdir(parents=True)
        (root / "etc" / "passwd").touch()
        files = ["etc", "etc/passwd"]
        with Server(self.room, interval=A_HOUR, is_plain=True) as server, server.client(root) as client:
            for mode, expected in (
                (0o500, files),
                (0o400, []),
                (0o700, files),
                (0o000, None),
                (0o100, None),
                (0o500, files),
            ):
                root.chmod(mode)
                reply = client.ask("query", str(root), query_of_names())
                self.same(f"a root of mode {mode:03o}", reply.get("files"), expected)
                if expected is None:
                    self.same(
                        f"the refusal of mode {mode:03o}", reply, {"error": "E11: root cannot be read", **VERSION}
                    )
            root.chmod(0o700)


def changes(client: Client, root: Path, **query: object) -> dict:
    asked: Dict[str, object] = {"fields": ["name", "exists"], **query}
    return client.ask("query", str(root), asked)


def told(reply: dict) -> List[tuple]:
    """Name and existence of each file of a reply, by name."""
    return sorted((file["name"], file["exists"]) for file in reply["files"])
