"""Scenes in JavaScript, and drawn histories. Each runs in a Node of its own, beside others."""

import os
import shutil
import subprocess
import unittest
from pathlib import Path
from typing import Dict, List

import built
from case import Beside
from node_version import OLDEST, version

HERE = Path(__file__).resolve().parent
COMPARE = built.TOP / "clients" / "node" / "compare"
HISTORIES = 28
# A scene or a comparison that hangs is ended after so many seconds; that bounds nothing that is tested.
PATIENCE = 500.0
# Where Debian has packages for Node.
MODULES = "/usr/share/nodejs"


def environment(room: Path) -> Dict[str, str]:
    """That of a user of an own, whose server is the program that is tested."""
    found = {name: value for name, value in os.environ.items() if not name.startswith(("WQD", "CHOKIDAR", "NODE_"))}
    modules = os.pathsep.join(filter(None, (os.environ.get("NODE_PATH"), MODULES)))
    return {
        **found,
        "WQD": str(built.program_path()),
        "HOME": str(room),
        "XDG_STATE_HOME": str(room / "state"),
        "XDG_RUNTIME_DIR": str(room),
        "TMPDIR": str(room),
        "NODE_PATH": modules,
    }


def ended_of(words: List[str], room: Path) -> "subprocess.CompletedProcess[str]":
    return subprocess.run(
        words,
        env=environment(room),
        cwd=room,
        stdout=subprocess.PIPE,
        stderr=subprocess.STDOUT,
        stdin=subprocess.DEVNULL,
        timeout=PATIENCE,
        encoding="utf-8",
        errors="replace",
    )


class Versions(Beside):
    def test_version(self) -> None:
        """Without Node, which a package is for, nothing else is to be tested."""
        self.assertEqual(version() > 0, shutil.which("node") is not None)


@unittest.skipIf(version() < OLDEST, f"no Node of version {OLDEST} or later is installed")
class Node(Beside):
    def test_globs(self) -> None:
        self.check_scene("globs.js")

    def test_events(self) -> None:
        self.check_scene("events.js")

    def test_paths(self) -> None:
        self.check_scene("paths.js")

    def test_options(self) -> None:
        self.check_scene("options.js")

    def test_links(self) -> None:
        self.check_scene("links.js")

    def test_faults(self) -> None:
        self.check_scene("faults.js")

    def test_places(self) -> None:
        self.check_scene("places.js")

    def test_restarts(self) -> None:
        self.check_scene("restarts.js")

    def test_tools(self) -> None:
        self.check_scene("tools.js")

    def check_scene(self, name: str) -> None:
        """A scene prints a line for each check that it makes: `ok` or `failed`, and its name."""
        self.room.chmod(0o700)
        ended = ended_of(["node", str(HERE / name)], self.room)
        lines = ended.stdout.splitlines()
        for line in lines:
            word, _, rest = line.partition(" ")
            if word in ("ok", "failed"):
                self.check(rest, word == "ok")
            elif line.startswith("left out: "):
                print(line)
        self.check(f"{name} ends", ended.returncode == 0 and "end" in lines, lines[-20:])

    def test_histories(self) -> None:
        self.room.chmod(0o700)
        ended = ended_of(["node", str(COMPARE), "--histories", str(HISTORIES)], self.room)
        lines = ended.stdout.splitlines()
        expected = f"wqd-chokidar: {HISTORIES} of {HISTORIES} histories right"
        self.check("drawn histories", ended.returncode == 0 and expected in lines, lines[-40:])
        print("".join(f"{line}\n" for line in lines if line.startswith(("compare:", "chokidar,"))), end="")
