"""A root with as many files as a view takes, and one more."""

import subprocess
from pathlib import Path
from typing import Any, Callable, Dict, List, Tuple

from case import Case
from client import A_HOUR, VERSION, Server, query_of_names
from trees import MOST_FILES, fill, in_memory, make_names

DIRECTORIES = 20


class Large(Case):
    def test_a_million(self) -> None:
        """A root of 1,000,000 rows is watched. With one more it cannot be crawled, and its view stays."""
        with in_memory(self.room) as shelf:
            root = Path(shelf) / "tree"
            try:
                make_names(root, DIRECTORIES, MOST_FILES)
                self.check_most_files(self.room, root)
            finally:
                subprocess.run(["rm", "-rf", str(root)], check=True)

    def test_half_of_the_files(self) -> None:
        """Every second file of a large root changes, and then every third goes: more places than a listing keeps
        apart."""
        with in_memory(self.room) as shelf, Server(self.room, interval=A_HOUR) as server, server.client() as client:
            root = Path(shelf) / "half"
            fill(root)
            client.ask("watch", str(root))
            acts: List[Tuple[str, int, Callable[[Path], object]]] = [("change", 2, written), ("go", 3, Path.unlink)]
            for what, step, act in acts:
                clock = client.ask("clock", str(root))["clock"]
                paths = [path for directory in root.iterdir() for path in sorted(directory.iterdir())[::step]]
                for path in paths:
                    act(path)
                query = {**query_of_names(), "since": clock, "expression": ["not", ["type", "d"]]}
                found = client.ask("query", str(root), query)["files"]
                self.same(
                    f"many files that {what}", sorted(found), sorted(str(path.relative_to(root)) for path in paths)
                )

    def check_most_files(self, room: Path, root: Path) -> None:
        named: Dict[str, Any] = {"path": [{"path": "", "depth": 0}], **query_of_names()}
        directories = [f"directory{number:02}" for number in range(DIRECTORIES)]
        too_many = {"error": "E12: too many files", **VERSION}
        with Server(room, interval=A_HOUR) as server, server.client(root) as client:
            reply = client.ask("query", str(root), {**named, "sync_timeout": 0})
            self.same("a root of 1,000,000 files", (reply.get("files"), reply.get("clock")), (directories, "c:7:9:1:1"))
            (root / "more").touch()
            self.same("a root of one more", client.ask("query", str(root), named), too_many)
            again = client.ask("query", str(root), {**named, "sync_timeout": 0})
            self.same("the view of a root of one more", again, reply)
            client.ask("watch-del", str(root))
            self.same("a watch of too many files", client.ask("watch", str(root)), too_many)


def written(path: Path) -> None:
    path.write_text("changed")
