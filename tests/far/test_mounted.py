"""Trees that are mounted. All of it happens in a namespace of its own, whose mounts go with it."""

import os
import shutil
import time
from pathlib import Path
from typing import List

from case import Timed
from client import A_HOUR, PATIENCE, Server, query_of_names
from follower import Follower, make_tree
from mounts import Passing, compiled, in_namespace, made, mounted

# So long the kernel keeps what a file system says of a file, in seconds.
CACHED = 1.0


@in_namespace
class Mounted(Timed):
    def test_a_bind_mount(self) -> None:
        """A root that is another place of a directory: what changes behind it is seen."""
        source, place = made(self.room, "source", "place")
        make_tree(source)
        with mounted("bind", place, str(source)), Server(self.room, interval=A_HOUR) as server:
            with Follower(self, server, place) as follower:
                follower.takes("a bind mount")
                found = change_behind(source, follower)
                self.same("what changed behind a bind mount", found, ["d0/f1", "d1", "d1/new", "d2", "d2/f0"])

    def test_a_mount_below(self) -> None:
        """A file system in memory that comes and goes below a root."""
        (root,) = made(self.room, "root")
        make_tree(root)
        with Server(self.room, interval=A_HOUR) as server, Follower(self, server, root) as follower:
            follower.takes("before a mount")
            with mounted("tmpfs", root / "d1", "rw"):
                self.same("what a mount hides", "d1/f0" in follower.takes("after a mount"), True)
                (root / "d1" / "in memory").touch()
                self.same("a file in memory", "d1/in memory" in follower.takes("a change in memory"), True)
            self.same("what comes back", "d1/f0" in follower.takes("after the end of a mount"), True)

    def test_an_overlay(self) -> None:
        """Files of the lower tree, as of the image of a container, that are written, replaced and deleted."""
        # An overlay may not lie on another one, as in a container, and that of a user needs an option.
        with mounted("tmpfs", self.room, "rw"):
            lower, upper, work, root = made(self.room, "lower", "upper", "work", "root")
            make_tree(lower)
            layers = f"lowerdir={lower},upperdir={upper},workdir={work}"
            with mounted("overlay", root, f"{layers},userxattr", layers):
                with Server(self.room, interval=A_HOUR) as server, Follower(self, server, root) as follower:
                    self.change_an_overlay(root, follower)

    def change_an_overlay(self, root: Path, follower: Follower) -> None:
        follower.takes("an overlay")
        (root / "d0" / "f1").write_text("in place")
        (root / "d1" / "aside").write_text("another")
        (root / "d1" / "aside").replace(root / "d1" / "f2")
        (root / "d2" / "f0").unlink()
        (root / "d3").rename(root / "d3 moved") if can_move(root / "d3") else shutil.rmtree(root / "d3")
        found = follower.takes("an overlay that changed")
        for name in ("d0/f1", "d1/f2", "d2/f0", "d3/f0"):
            self.same(f"{name} of the lower tree", name in found, True)
        self.same("an overlay that rests", follower.takes("nothing changed"), [])
        os.utime(root / "d0" / "f3")
        self.same("a time of the lower tree", "d0/f3" in follower.takes("a file was touched"), True)

    def test_a_passing_file_system(self) -> None:
        """A file system in FUSE whose files change behind it: they are seen at once if the kernel keeps nothing of
        them, and else when it asks again."""
        program = compiled(self.room)
        for cached in (0.0, CACHED):
            source, place = made(self.room, f"source {cached}", f"place {cached}")
            make_tree(source)
            with Passing(program, source, place, cached), Server(self.room, interval=A_HOUR) as server:
                with Follower(self, server, place) as follower:
                    follower.takes(f"a tree in FUSE, {cached} s")
                    self.check_behind_fuse(follower, source, cached)

    def check_behind_fuse(self, follower: Follower, source: Path, cached: float) -> None:
        if not cached:
            found = change_behind(source, follower)
            self.same("what changed behind FUSE", found, ["d0/f1", "d1", "d1/new", "d2", "d2/f0"])
            return
        (source / "d0" / "f1").write_text("behind it")
        query = {**query_of_names(), "since": "n:other", "expression": ["name", "d0/f1", "wholename"]}
        follower.client.ask("query", str(follower.root), query)
        (source / "d0" / "f1").write_text("behind it again")
        began = time.monotonic()
        reply = follower.client.ask_until("query", str(follower.root), query, lambda reply: reply["files"])
        self.same("a change behind what the kernel keeps", reply["files"], ["d0/f1"])
        self.check("how long it is kept", time.monotonic() - began < cached + PATIENCE / 10)


def change_behind(source: Path, follower: Follower) -> List[str]:
    """Changes the directory behind a mount, and gives the names that an answer has then."""
    (source / "d0" / "f1").write_text("behind it")
    (source / "d1" / "new").touch()
    (source / "d2" / "f0").unlink()
    return follower.takes("after a change behind the mount")


def can_move(directory: Path) -> bool:
    """Whether a directory of the lower tree can be moved: an overlay may refuse it."""
    aside = directory.with_name("aside")
    try:
        directory.rename(aside)
    except OSError:
        return False
    aside.rename(directory)
    return True
