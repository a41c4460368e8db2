"""The picture that a watch has of its directory, beside the directory."""

import os
import shutil
import time
from pathlib import Path
from typing import Dict, List

from case import Case
from client import PATIENCE
from serving import made, restarted, served, write_longer
from waiting import wait_until
from wqd_watchdog.connection import GONE
from wqd_watchdog.rows import Change
from wqd_watchdog.server import Server
from wqd_watchdog.tree import Gone, Replaced, Tree
from wqd_watchdog.trouble import Lost, Unserved


def kinds(tree: Tree, root: Path) -> Dict[str, bool]:
    """Whether each known file is a directory, by its path from the root."""
    return {os.path.relpath(path, root): row.is_directory for path, row in tree.rows()}


def changes_of(tree: Tree, count: int) -> List[str]:
    """The next changes, when there are so many, as marks and paths: directories that were there are left out."""
    end = time.monotonic() + PATIENCE
    while time.monotonic() < end:
        shown = marks([Change(path, *pair) for path, pair in sorted(tree.changes.pairs.items())], tree.path)
        if len(shown) >= count:
            tree.changes.taken()
            return shown
        value = tree.box.get(timeout=PATIENCE)
        if value is GONE:
            raise Lost
        tree.take(value)
    return ["too late"]


def marks(changes: List[Change], root: str) -> List[str]:
    found = []
    for path, before, now in changes:
        if before != now and not (before and now and now.is_directory):
            found.append(f"{'~' if before and now else '+' if now else '-'} {os.path.relpath(path, root)}")
    return found


class Trees(Case):
    def test_a_picture(self) -> None:
        root = made(self.room)
        with served(self.room):
            server = Server()
            server.reach()
            tree = Tree(server, str(root), True)
            self.same(
                "all below it",
                kinds(tree, root),
                {".": True, "a": False, "d": True, "d/b": False, "d/e": True, "d/e/c": False},
            )
            flat = Tree(server, str(root / "d"), False)
            self.same("what is directly in it", kinds(flat, root), {"d": True, "d/b": False, "d/e": True})
            write_longer(root / "d" / "b")
            (root / "d" / "e" / "new").touch()
            self.same("a file that is written", changes_of(tree, 2), ["~ d/b", "+ d/e/new"])
            self.same("the same to both", changes_of(flat, 1), ["~ b"])
            shutil.rmtree(root / "d" / "e")
            self.same("a directory that goes", changes_of(tree, 3), ["- d/e", "- d/e/c", "- d/e/new"])
            (root / "a").unlink()
            (root / "a").mkdir()
            self.same("a directory in place of a file", changes_of(tree, 0) or changes_after(tree, "a"), [])
            self.same("its kind", kinds(tree, root)["a"], True)
            server.close()

    def test_links(self) -> None:
        """A link to a file is that file, and one to a directory has all below it; but not one that leads round."""
        root, outside = made(self.room), self.room / "outside"
        (outside / "in").mkdir(parents=True)
        for name in ("f", "in/g"):
            (outside / name).write_text(name)
        (root / "file").symlink_to(outside / "f")
        (root / "directory").symlink_to(outside)
        (root / "round").symlink_to(root)
        (root / "nowhere").symlink_to(self.room / "none")
        (outside / "in" / "back").symlink_to(outside)
        with served(self.room) as running:
            server = Server()
            server.reach()
            tree = Tree(server, str(root), True)
            found = {
                name: kind for name, kind in kinds(tree, root).items() if name.split("/")[0] not in (".", "a", "d")
            }
            linked = {
                "directory": True,
                "directory/f": False,
                "directory/in": True,
                "directory/in/g": False,
                "directory/in/back": True,
            }
            self.same("links", found, {"file": False, "round": True, **linked})
            write_longer(outside / "in" / "g")
            self.same("a file behind a link", changes_of(tree, 1), ["~ directory/in/g"])
            write_longer(outside / "f")
            (self.room / "none").touch()
            tree.look()
            changes = [each for each in changes_of(tree, 2) if "/" not in each]
            self.same("where links lead", changes, ["~ file", "+ nowhere"])
            (root / "directory").unlink()
            changes = [each for each in changes_of(tree, 5) if each != "~ directory/f"]
            self.same("a link that goes", changes, [f"- {name}" for name in sorted(linked)])
            tree.close()
            self.same("no root is left", running.client().ask("watch-list")["roots"], [])
            server.close()

    def test_shared_roots(self) -> None:
        """Directories inside one another are one root, which is given back after the last of them."""
        root = made(self.room)
        with served(self.room) as running, running.client() as client:
            server = Server()
            server.reach()
            inner = Tree(server, str(root / "d" / "e"), True)
            self.same("one root", client.ask("watch-list")["roots"], [str(root / "d" / "e")])
            outer = Tree(server, str(root), True)
            self.same("the outer root", client.ask("watch-list")["roots"], [str(root)])
            lost = ""
            try:
                changes_of(inner, 1)
            except Lost:
                lost = "it begins again"
            self.same("the inner watch", lost, "it begins again")
            again = Tree(server, str(root / "d" / "e"), True)
            self.same("its picture", kinds(again, root / "d" / "e"), {".": True, "c": False})
            self.same("still one root", client.ask("watch-list")["roots"], [str(root)])
            outer.close()
            self.same("one watch is left", client.ask("watch-list")["roots"], [str(root)])
            inner.close()
            again.close()
            self.same("no watch is left", client.ask("watch-list")["roots"], [])
            client.ask("watch", str(self.room))
            beside = Tree(server, str(root), True)
            self.same("a root of others", client.ask("watch-list")["roots"], [str(self.room)])
            beside.close()
            self.same("it stays", client.ask("watch-list")["roots"], [str(self.room)])
            server.close()

    def test_no_free_root(self) -> None:
        root = made(self.room)
        with served(self.room) as running, running.client() as client:
            for number in range(16):
                (self.room / f"other{number}").mkdir()
                client.ask("watch", str(self.room / f"other{number}"))
            server = Server()
            server.reach()
            try:
                reason = str(Tree(server, str(root), True))
            except Unserved as unserved:
                reason = str(unserved)
            expected = f"{root}: 16 directories are watched already, and none is free; `wq roots` lists them"
            self.check("a line that says so", reason.startswith(expected) and "\n" not in reason, [reason])
            client.ask("watch-del", str(self.room / "other3"))
            tree = Tree(server, str(root), True)
            self.same("one is free", len(kinds(tree, root)), 6)
            tree.close()
            server.close()

    def test_overtaken_lists(self) -> None:
        """A scan for the watch tells at once what changed, and the list that comes later says nothing new."""
        root = made(self.room)
        with served(self.room, interval=500):
            server = Server()
            server.reach()
            tree = Tree(server, str(root), True)
            write_longer(root / "a")
            tree.scan()
            (root / "new").touch()
            tree.scan()
            self.same("by scans", marks(tree.changes.taken(), str(root)), ["~ a", "+ new"])
            tree.take(tree.box.get(timeout=PATIENCE))
            self.same("by the list", tree.changes.taken(), [])
            tree.close()
            server.close()

    def test_a_server_that_ends(self) -> None:
        root = made(self.room)
        with served(self.room) as first:
            server = Server()
            server.reach()
            tree = Tree(server, str(root), True)
            again = restarted(self.room, first)
            lost = ""
            try:
                changes_of(tree, 1)
            except Lost:
                lost = "lost"
            self.same("the end of a server", lost, "lost")
            wait_until(server.reach_again)
            (root / "new").touch()
            self.same("by another one", "new" in kinds(Tree(server, str(root), True), root), True)
            server.close()
            again.kill()
            again.said.close()

    def test_a_directory_that_goes(self) -> None:
        root = made(self.room)
        with served(self.room):
            server = Server()
            server.reach()
            tree = Tree(server, str(root), True)
            tree.look()
            root.rename(self.room / "away")
            self.same("it is gone", what_is_raised(tree), "Gone")
            made(self.room)
            self.same("another one is there", what_is_raised(tree), "Replaced")
            server.close()


def changes_after(tree: Tree, name: str) -> List[str]:
    """Takes lists until a file is a directory."""
    while not tree.branches[tree.names[tree.path]].rows[name].is_directory:
        tree.take(tree.box.get(timeout=PATIENCE))
    tree.changes.taken()
    return []


def what_is_raised(tree: Tree) -> str:
    try:
        tree.look()
    except (Gone, Replaced) as raised:
        return type(raised).__name__
    return "nothing"
