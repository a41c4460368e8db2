"""File systems that go, at the root and below it: the server says so, and tells no deletions that it did not see."""

import subprocess
from pathlib import Path
from typing import Any, Dict, List

from case import Case
from client import A_HOUR, VERSION, Server
from follower import Follower, make_tree
from mounts import Passing, compiled, in_namespace, made, mounted
from waiting import wait_until

UNREADABLE = {**VERSION, "error": "E11: root cannot be read"}


@in_namespace
class Going(Case):
    def test_a_share_that_goes(self) -> None:
        """A root whose file system is unmounted cannot be read, and its files stay until it is watched anew. Once the
        file system is there again nothing has changed."""
        source, place = made(self.room, "source", "place")
        with mounted("tmpfs", source, "rw"), Server(self.room, interval=A_HOUR) as server:
            make_tree(source)
            bind(source, place)
            with Follower(self, server, place) as follower:
                before = follower.takes("a share")
                unbind(place)
                self.same("a share that went", ask(follower), UNREADABLE)
                self.same("its files stay", names(ask(follower, sync_timeout=0)), sorted(before))
                bind(source, place)
                self.same("a share that came back", follower.takes("the same files again"), [])
                unbind(place)
                self.same("a share that went once more", ask(follower), UNREADABLE)
                follower.client.ask("watch-del", str(place))
                self.same("the directory below", follower.client.ask("watch", str(place))["watch"], str(place))
                self.same("it is empty", names(ask(follower)), [])

    def test_a_file_system_that_dies_below(self) -> None:
        """A process that serves a directory below the root is killed. Nothing is told as deleted, and when another one
        serves the same files nothing has changed."""
        program = compiled(self.room)
        source, root = made(self.room, "source", "root")
        make_tree(source)
        place = root / "below"
        place.mkdir()
        (root / "beside").touch()
        with Server(self.room, interval=A_HOUR) as server, Follower(self, server, root) as follower:
            with Passing(program, source, place, 0.0) as passing:
                follower.takes("a file system below")
                passing.process.kill()
                passing.process.wait()
                wait_until(lambda: not can_be_listed(place))
                self.same("a file system that died", ask(follower), UNREADABLE)
            with Passing(program, source, place, 0.0):
                (source / "d0" / "f1").write_text("meanwhile")
                self.same("what changed meanwhile", follower.takes("it is served again"), ["below/d0/f1"])


def bind(source: Path, place: Path) -> None:
    subprocess.run(["mount", "--bind", str(source), str(place)], check=True)


def unbind(place: Path) -> None:
    subprocess.run(["umount", str(place)], check=True)


def can_be_listed(place: Path) -> bool:
    try:
        list(place.iterdir())
    except OSError:
        return False
    return True


def ask(follower: Follower, **keys: Any) -> Dict[str, Any]:
    """All files that are there, or the error."""
    return follower.client.ask("query", str(follower.root), {"fields": ["name"], "expression": "exists", **keys})


def names(reply: Dict[str, Any]) -> List[str]:
    return sorted(reply["files"])
