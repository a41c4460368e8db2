"""What a command is given: its arguments, environment, directory, input and handles."""

import json
import os
import threading
from pathlib import Path
from typing import Any, Dict, List, Tuple

from case import Case
from client import ENVIRONMENT, VERSION, Client, query_of_names
from triggered import Run, Scene

# The variables that sh sets itself.
OF_THE_SHELL = ("PWD", "OLDPWD", "SHLVL", "_")
OF_C_FILES = {"expression": ["suffix", "c"]}


class Starts(Case):
    def test_starts(self) -> None:
        """A start with all files, one with a file that came, and one with a file that went."""
        with Scene(self.room) as scene:
            scene.make("a.c", "b.c", "b.h")
            more = {"append_files": True, "stdin": "NAME_PER_LINE", **OF_C_FILES}
            reply = scene.trigger("t", scene.recorder(), **more)
            self.same("a trigger", reply, {"disposition": "created", "triggerid": "t", **VERSION})
            first = scene.run(1)
            self.check_files("the first start", first, ["a.c", "b.c"])
            self.check_surroundings(scene, first)
            self.same("no clock before the first start", "WATCHMAN_SINCE" in first.env, False)
            scene.make("c.c")
            second = scene.run(2)
            self.check_files("a file that came", second, ["c.c"])
            self.check_clocks("the second start", second, first)
            (scene.root / "a.c").unlink()
            third = scene.run(3)
            self.check_files("a file that went", third, ["a.c"])
            self.check_clocks("the third start", third, second)

    def check_files(self, name: str, run: Run, names: list) -> None:
        self.same(f"the arguments: {name}", run.args, names)
        self.same(f"the input: {name}", run.input, "".join(f"{each}\n" for each in names).encode())

    def check_clocks(self, name: str, run: Run, before: Run) -> None:
        """A start has the clock of the one before."""
        self.same(f"{name} is since the one before", run.env.get("WATCHMAN_SINCE"), before.env["WATCHMAN_CLOCK"])
        self.check(f"the clock of {name} is another", run.env["WATCHMAN_CLOCK"] != before.env["WATCHMAN_CLOCK"])

    def check_surroundings(self, scene: Scene, run: Run) -> None:
        """The directory is the root. The environment is the server's with some variables. No handle of the server is
        there."""
        clock = run.env.get("WATCHMAN_CLOCK", "")
        self.check("the clock is of the root", clock.startswith("c:7:9:1:"), [clock])
        expected = {"WATCHMAN_CLOCK": clock, "WATCHMAN_ROOT": str(scene.root), "WATCHMAN_TRIGGER": "t"}
        self.same("the variables that the server sets", run.watchman(), expected)
        self.same("the directory", run.directory, str(scene.root))
        found = {name: value for name, value in run.env.items() if name not in OF_THE_SHELL and name not in expected}
        servers = {name: value for name, value in ENVIRONMENT.items() if name not in OF_THE_SHELL}
        self.same("the environment of the server", found, servers)
        # ls itself has opened the directory that it lists.
        self.same("the handles of a command", run.handles, ["0", "1", "2", "3"])

    def test_directories_beside_walks(self) -> None:
        """While another root is walked all the time, a command is found in its own root by a relative path, and runs
        there."""
        large = self.room / "large"
        for number in range(100):
            (large / f"directory{number:02}").mkdir(parents=True)
            for file in range(100):
                (large / f"directory{number:02}" / f"file{file:02}").touch()
        with Scene(self.room) as scene, scene.server.client(large) as other:
            script = scene.root / "script"
            script.write_text(f"#!/bin/sh\npwd >> '{scene.out}/log'\n")
            script.chmod(0o700)
            ends = threading.Event()
            walking = threading.Thread(target=walk_until, args=(ends, other, large))
            walking.start()
            try:
                scene.register("t", ["./script"])
                for number in range(3):
                    scene.make(f"a{number}")
                    self.check(f"start {number} beside walks", scene.has_lines(number + 1))
            finally:
                ends.set()
                walking.join()
            self.same("the directories of commands beside walks", set(scene.lines()), {str(scene.root)})

    def test_inputs(self) -> None:
        """Each form of input, with a limit and without."""
        objects = [{"exists": True, "name": "a.c"}, {"exists": True, "name": "b.c"}]
        text = json.dumps(objects, separators=(",", ":")).encode() + b"\n"
        forms: List[Tuple[Dict[str, object], bytes, bool]] = [
            ({}, b"", False),
            ({"stdin": "/dev/null"}, b"", False),
            ({"stdin": "NAME_PER_LINE"}, b"a.c\nb.c\n", False),
            ({"stdin": "NAME_PER_LINE", "max_files_stdin": 2}, b"a.c\nb.c\n", False),
            ({"stdin": "NAME_PER_LINE", "max_files_stdin": 1}, b"a.c\n", True),
            ({"stdin": ["name"], "max_files_stdin": 1}, b'["a.c"]\n', True),
            ({"stdin": ["name", "exists"]}, text, False),
            ({"max_files_stdin": 1}, b"", False),
        ]
        for place, (more, data, is_cut) in enumerate(forms):
            part = self.room / str(place)
            part.mkdir()
            with Scene(part) as scene:
                scene.make("a.c", "b.c")
                scene.trigger("t", scene.recorder(), **more, **OF_C_FILES)
                run = scene.run(1)
                self.same(f"the input with {more}", run.input, data)
                overflow = "true" if is_cut else None
                self.same(f"whether it is cut with {more}", run.env.get("WATCHMAN_FILES_OVERFLOW"), overflow)
                self.same(f"no names appended with {more}", run.args, [])

    def test_output(self) -> None:
        """What a command writes comes to where the server's own lines go. Its input is /dev/null if there is none."""
        with Scene(self.room) as scene:
            scene.make("a")
            scene.trigger("t", "readlink /proc/self/fd/0; echo said by a command >&2")
            self.check("the output of a command", scene.server.says(b"/dev/null\nsaid by a command\n"))

    def test_lists(self) -> None:
        """Triggers are listed as they were given, replaced at their place, and deleted."""
        with Scene(self.room) as scene:
            root = str(scene.root)
            given: Dict[str, Any] = {"name": "t", "command": ["true"], "append_files": True, "frob": 7, **OF_C_FILES}
            scene.client.ask("trigger", root, given)
            scene.register("u", ["true"])
            kept = {name: value for name, value in given.items() if name != "frob"}
            listed = [kept, {"command": ["true"], "name": "u"}]
            self.same("a list", scene.client.ask("trigger-list", root), {"triggers": listed, **VERSION})
            reply = scene.client.ask("trigger", root, given)
            self.same("a replacement", reply, {"disposition": "replaced", "triggerid": "t", **VERSION})
            with scene.server.client() as other:
                self.same("a list of another client", other.ask("trigger-list", root)["triggers"], listed)
            for is_there in (True, False):
                reply = scene.client.ask("trigger-del", root, "t")
                self.same(f"a deletion, {is_there}", reply, {"deleted": is_there, "trigger": "t", **VERSION})
            self.same("a list after it", scene.client.ask("trigger-list", root)["triggers"], listed[1:])
            self.same("no trigger ran in the tree", os.listdir(scene.root), [])


def walk_until(ends: threading.Event, client: Client, root: Path) -> None:
    """Has a root walked again and again."""
    while not ends.is_set():
        client.ask("query", str(root), {"expression": "false", **query_of_names()})
