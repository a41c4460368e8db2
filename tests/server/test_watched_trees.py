"""Trees as a walk in Python sees them: files of each kind, and a large tree that is cut for several threads."""

import os
import shutil
from pathlib import Path
from typing import List

from case import Case
from client import VERSION, Client, Row, Server, walked
from trees import lock


class Trees(Case):
    def test_a_tree(self) -> None:
        """Each kind of file, and names and times that are out of the ordinary, as a walk in Python sees them."""
        root = self.room / "tree"
        make_tree(root)
        with lock(root / "locked"), Server(self.room, is_plain=True) as server, server.client() as client:
            reply = client.ask("watch", str(root))
            self.same("a watch", reply, {"watch": str(root), "watcher": "poll", **VERSION})
            fields = ["name", "type", "size", "mtime_ms"]
            reply = client.ask("query", str(root), {"fields": fields})
            files = [(file["name"], file["type"], file["size"], file["mtime_ms"]) for file in reply["files"]]
            self.same("the files of a tree", files, readable(root))
            self.same("the clock of a tree", reply["clock"], "c:7:9:1:1")
            link = self.room / "link"
            link.symlink_to(root)
            client.ask("watch", str(link))
            reply = client.ask("query", str(link), {"fields": ["name"]})
            self.same("a root that is a link", reply["files"], [row[0] for row in readable(root)])

    def test_a_large_tree(self) -> None:
        """A tree that two threads walk, and four, cut at names of its last listing: what changes around each cut."""
        for workers in (None, 4):
            root = self.room / f"tree{workers}"
            make_large(root)
            with Server(self.room, workers=workers) as server, server.client(root) as client:
                self.same_tree(f"a large tree, {workers} workers", client, root)
                for quarter in (1, 3, 2):
                    for name, change in CHANGES:
                        change(root, root / cut_at(walked(root), quarter))
                        self.same_tree(f"a large tree, {workers} workers, cut {quarter}, {name}", client, root)
                    make_large(root)
                    self.same_tree(f"a large tree, {workers} workers, made again", client, root)

    def same_tree(self, name: str, client: Client, root: Path) -> None:
        """The files of a root are those that a walk in Python sees, at the first look and at one over the cut of that
        look."""
        fields = ["name", "type", "size", "mtime_ms"]
        for look in ("", ", again"):
            reply = client.ask("query", str(root), {"fields": fields})
            files = [(file["name"], file["type"], file["size"], file["mtime_ms"]) for file in reply["files"]]
            self.check(name + look, files == walked(root), [f"{len(files)} files"])


def readable(root: Path) -> List[Row]:
    """What a walk in Python sees, without what is below the locked directory: root with all its powers alone sees
    that."""
    return [row for row in walked(root) if not row[0].startswith("locked/")]


def make_tree(root: Path) -> None:
    names = [
        "a/x",
        "a-b/y",
        "a.b/z",
        "a0",
        "a/b-c",
        "a/b/c",
        "a/b.c",
        "a/b/d/e",
        "a!/q",
        'a"b',
        "ab",
        "-",
        ".hidden/x",
        "..x",
        "\u00fc/\u00f6",
        "line\nbreak",
        " blank",
        "back\\slash",
    ]
    for name in names:
        path = root / name
        path.parent.mkdir(parents=True, exist_ok=True)
        path.write_text(name)
    for odd in (b"no-text\xff/x", b"directory/\xc3"):
        whole = os.path.join(bytes(root), odd)
        os.makedirs(os.path.dirname(whole), exist_ok=True)
        open(whole, "wb").close()
    for number, nanoseconds in enumerate((-1, -1_000_000, -1_000_001, 1_999_999, -(10**18), 10**18)):
        path = root / f"time{number}"
        path.touch()
        os.utime(path, ns=(nanoseconds, nanoseconds))
    (root / "link").symlink_to("a")
    (root / "to-nothing").symlink_to("/there/is/nothing")
    (root / "a" / "up").symlink_to("..")
    os.mkfifo(root / "fifo")
    (root / "locked" / "in").mkdir(parents=True)


def make_large(root: Path) -> None:
    """Some 4,000 files, for which there are four pieces."""
    for number in range(30):
        fill(root / f"directory{number:02}", 135)


def cut_at(rows: List[Row], quarter: int) -> str:
    """The name at which the tree of these rows is cut in the next walk, after so many quarters of its pieces. There is
    a piece for each 1,000 files, and in a tree of fewer the name at that place."""
    pieces = max(len(rows) // 1000, 1)
    if pieces < 4:
        return rows[len(rows) * quarter // 4][0]
    return rows[len(rows) * (pieces * quarter // 4) // pieces][0]


def fill(directory: Path, count: int) -> None:
    directory.mkdir(parents=True, exist_ok=True)
    for number in range(count):
        (directory / f"file{number:03}").touch()


def remove(path: Path) -> None:
    if path.is_dir():
        shutil.rmtree(path)
    else:
        path.unlink()


def make_directory(root: Path, cut: Path) -> None:
    remove(cut)
    fill(cut, 50)


def make_beside(root: Path, cut: Path) -> None:
    """Names that begin with that of the cut and of its directory, and go on with a byte below the slash and above
    it."""
    for above in (cut, cut.parent):
        for end in ("!", "-b", ".c", "0", "~"):
            fill(above.with_name(above.name + end), 5)


def remove_directory(root: Path, cut: Path) -> None:
    remove(cut if cut.parent == root else cut.parent)


def make_deep(root: Path, cut: Path) -> None:
    fill(cut.parent / "a" / "b" / "c", 3000)


def make_wide(root: Path, cut: Path) -> None:
    fill(root, 4000)


def make_small(root: Path, cut: Path) -> None:
    for path in list(root.iterdir())[10:]:
        remove(path)


CHANGES = (
    ("nothing changed", lambda root, cut: None),
    ("the cut deleted", lambda root, cut: remove(cut)),
    ("the cut a directory", make_directory),
    ("names that begin with the cut", make_beside),
    ("the directory of the cut deleted", remove_directory),
    ("much below a directory", make_deep),
    ("the directory of a deep cut deleted", remove_directory),
    ("much at the top", make_wide),
    ("all but little deleted", make_small),
    ("much again", make_deep),
)
