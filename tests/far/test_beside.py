"""Watchman beside the server on a tree that changes behind its mount: the kernel tells Watchman nothing of that."""

import shutil
import subprocess
import time
import unittest
from pathlib import Path

from case import Case
from client import A_HOUR, Client, Server
from follower import Follower, make_tree
from mounts import Passing, compiled, in_namespace, made
from waiting import wait_until

# So long Watchman may take to hear of a change, in seconds; where the kernel tells it takes a thirtieth of that.
WAITS = 1.5


class Watchman:
    """A server of Watchman, if it is installed."""

    def __init__(self, home: Path) -> None:
        sockname = home / "socket"
        program = shutil.which("watchman", path="/usr/bin:/usr/local/bin") or "watchman"
        words = [f"--sockname={sockname}", f"--logfile={home}/log", f"--pidfile={home}/pid", "--no-save-state"]
        self.process: "subprocess.Popen[bytes]" = subprocess.Popen(
            [program, "--foreground", *words],
            stdin=subprocess.DEVNULL,
            stdout=subprocess.DEVNULL,
            stderr=subprocess.DEVNULL,
        )
        wait_until(lambda: sockname.exists() or self.process.poll() is not None)
        self.client = Client(str(sockname))

    def __enter__(self) -> "Watchman":
        return self

    def __exit__(self, *_: object) -> None:
        if self.process is not None:
            self.client.close()
            self.process.kill()
            self.process.wait()

    def kernel_tells_of(self, place: Path) -> bool:
        """Whether it is there, and watches a directory by inotify."""
        if self.process is None:
            raise unittest.SkipTest("Watchman is not installed")
        return self.client.ask("watch", str(place)).get("watcher") == "inotify"


@in_namespace
class BesideWatchman(Case):
    def test_beside_watchman(self) -> None:
        """What docs/SERVER.md says of Watchman, if it is installed."""
        program = compiled(self.room)
        source, place, home = made(self.room, "source", "place", "home")
        make_tree(source)
        with Passing(program, source, place, 0.0), Watchman(home) as watchman:
            if watchman.kernel_tells_of(place):
                clock = watchman.client.ask("clock", str(place))["clock"]
                with Server(self.room, interval=A_HOUR) as server, Follower(self, server, place) as follower:
                    follower.takes("beside Watchman")
                    (source / "d0" / "f1").write_text("behind it")
                    (source / "d1" / "new").touch()
                    self.same(
                        "what this server lists", follower.takes("a change beside Watchman"), ["d0/f1", "d1", "d1/new"]
                    )
                time.sleep(WAITS)
                query = {"since": clock, "sync_timeout": 0, "fields": ["name"]}
                self.same("what Watchman lists", watchman.client.ask("query", str(place), query)["files"], [])
