"""Links: each is listed as a link, and nothing is listed below it."""

from case import Case
from client import Server


class Links(Case):
    def test_links(self) -> None:
        """A link to a directory, to a file, to nothing, and to the directory above."""
        root, outside = self.room / "tree", self.room / "outside"
        (root / "a").mkdir(parents=True)
        outside.mkdir()
        for path in (root / "a" / "x", outside / "y"):
            path.touch()
        for name, target in (
            ("directory", str(outside)),
            ("file", "a/x"),
            ("nothing", "/there/is/nothing"),
            ("a/up", ".."),
        ):
            (root / name).symlink_to(target)
        with Server(self.room) as server, server.client(root) as client:
            reply = client.ask("query", str(root), {"fields": ["name", "type"]})
        types = {file["name"]: file["type"] for file in reply["files"]}
        expected = {"a": "d", "a/up": "l", "a/x": "f", "directory": "l", "file": "l", "nothing": "l"}
        self.same("the types of links, and of what is beside them", types, expected)
