"""A query of which one thread looks for the files, and one of which four do."""

import json
import socket
import subprocess
import tempfile
from pathlib import Path
from typing import Any, Dict, List

from case import Case
from client import A_HOUR, Server, query_of_names
from trees import MEMORY, has_room, make_names

FILES = 100_000
DIRECTORIES = 20
# All files, most of some directories, and few.
QUERIES: List[Dict[str, Any]] = [
    {"fields": ["name", "type", "size", "mtime_ms"]},
    {
        "path": [f"directory{number:02}" for number in range(3, 8)],
        "expression": ["not", ["match", "*7"]],
        **query_of_names(),
    },
    {"expression": ["allof", ["type", "l"], ["match", "*99"]], **query_of_names()},
]


class Workers(Case):
    def test_workers(self) -> None:
        """A server of four workers writes what one of one worker writes, over a root of 100,000 files."""
        with tempfile.TemporaryDirectory(dir=MEMORY if has_room(MEMORY) else self.room) as shelf:
            root = Path(shelf) / "tree"
            try:
                make_names(root, DIRECTORIES, FILES)
                many, one = (replies(self.room, root, workers) for workers in (4, 1))
                for query, reply, plain in zip(QUERIES, many, one):
                    self.check(
                        f"four workers and one: {query}", reply == plain, [f"{len(reply)} bytes, {len(plain)} bytes"]
                    )
                self.check_few(one[-1])
                self.check_a_list_that_is_read_late(self.room, root, many[0])
            finally:
                subprocess.run(["rm", "-rf", str(root)], check=True)

    def check_few(self, line: bytes) -> None:
        """The last query lists the files that it is to list, in the order of their names."""
        names = range(99, FILES // DIRECTORIES - 1, 100)
        files = [f"directory{number:02}/{name}" for number in range(DIRECTORIES) for name in names]
        self.same("the files of one worker", json.loads(line)["files"], sorted(files))

    def check_a_list_that_is_read_late(self, room: Path, root: Path, line: bytes) -> None:
        """A long list has the files of its clock, whatever changed while it was sent."""
        with Server(room, interval=A_HOUR, workers=4) as server, server.client() as late, server.client() as client:
            clock = client.ask("watch", str(root)) and client.ask("clock", str(root))["clock"]
            late.send("query", str(root), {**QUERIES[0], "sync_timeout": 0})
            late.socket.recv(1, socket.MSG_PEEK)
            (root / "directory00" / "0").unlink()
            (root / "new").touch()
            reply = client.ask("query", str(root), {"since": clock, **query_of_names()})
            self.same("what changed beside a long list", reply["files"], ["directory00", "directory00/0", "new"])
            self.check("a long list that is read late", late.line() == line, [f"{len(line)} bytes"])
            self.same("the end after a long list", server.shut_down(client), 0)


def replies(room: Path, root: Path, workers: int) -> List[bytes]:
    """The lines that a server of so many workers writes."""
    with Server(room, interval=A_HOUR, workers=workers) as server, server.client(root) as client:
        lines = []
        for query in QUERIES:
            client.send("query", str(root), query)
            lines.append(client.line())
        return lines
