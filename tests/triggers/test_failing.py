"""Commands that cannot be started. The operator is told of each once, and it is tried again at each round."""

import time
from pathlib import Path

from case import Case
from triggered import QUIET, Scene
from waiting import wait_until

# How many commands may run at once, and how many triggers of one root cannot start.
MOST_RUNS = 1024
MISSING = 63

# Files that may be executed or are not there, and why they cannot be.
NO_PROGRAMS = (
    ("directory", b"Permission denied"),
    ("link", b"No such file or directory"),
    ("loop", b"Too many levels of symbolic links"),
    ("plain", b"Exec format error"),
    ("empty", b"Exec format error"),
    ("strange", b"No such file or directory"),
    ("cut", b"Exec format error"),
)


def told_of(scene: Scene, name: str) -> bytes:
    """How the line begins that tells of a trigger."""
    return f'"{scene.root}": trigger "{name}" could not be started: '.encode()


class Failing(Case):
    def is_told_once(self, scene: Scene, name: str) -> None:
        """A trigger cannot be started, and in many rounds that is told once."""
        line = told_of(scene, name)
        self.check(f"the operator is told of {name}", wait_until(lambda: line in scene.server.errors()))
        time.sleep(QUIET)
        self.same(f"how often the operator is told of {name}", scene.server.errors().count(line), 1)

    def test_a_command_that_is_not_there(self) -> None:
        """Beside it another trigger goes on, and it leaves no handle and no child."""
        with Scene(self.room) as scene:
            scene.make("a")
            handles = count_of_handles(scene)
            scene.register("missing", ["no-such-command-at-all"])
            scene.trigger("beside", scene.log("beside"), append_files=True)
            self.is_told_once(scene, "missing")
            scene.make("b")
            self.check("a trigger beside it", scene.has_lines(2))
            self.same("the starts beside it", scene.lines(), ["beside a", "beside b"])
            self.check("no child is left", wait_until(lambda: not scene.children()))
            self.check("no handle is left", wait_until(lambda: count_of_handles(scene) == handles))

    def test_many_commands_that_are_not_there(self) -> None:
        """Starts fail in round after round, more of them than commands may run at once. Beside them another trigger
        still starts."""
        with Scene(self.room) as scene:
            scene.make("a")
            scene.trigger("beside", scene.log("beside"), append_files=True)
            for number in range(MISSING):
                scene.register(f"missing{number}", ["no-such-command-at-all"])
            for number in range(MOST_RUNS // MISSING + 2):
                self.check(f"a trigger starts after {number} rounds of failures", scene.has_lines(number + 1))
                scene.make(f"file{number:02}")
            self.check("no start fails since too many run", b"too many" not in scene.server.errors())

    def test_a_script_that_may_not_be_run(self) -> None:
        """Once it may be run, it is given the files of all starts that failed."""
        with Scene(self.room) as scene:
            script = scene.out / "script"
            script.write_text("#!/bin/sh\n" + scene.log("ran") + "\n")
            scene.make("a")
            scene.register("t", [str(script)], append_files=True)
            self.is_told_once(scene, "t")
            scene.make("b")
            scene.see()
            time.sleep(QUIET)
            self.same("no start before it may be run", scene.lines(), [])
            script.chmod(0o755)
            self.check("it runs once it may", scene.has_lines(1))
            self.same("the files of all starts that failed", scene.lines(), ["ran a b"])
            script.chmod(0o644)
            scene.make("c")
            self.check("it is told anew", wait_until(lambda: scene.server.errors().count(told_of(scene, "t")) == 2))

    def test_files_that_are_no_programs(self) -> None:
        """Each is told of once with its reason, and another trigger goes on beside them."""
        with Scene(self.room) as scene:
            scene.make("a")
            make_no_programs(scene.out)
            for name, _ in NO_PROGRAMS:
                scene.register(name, [str(scene.out / name)])
            scene.register("long", ["x" * 5_000])
            scene.register("much", ["true", "x" * 200_000])
            scene.trigger("beside", scene.log("beside"), append_files=True)
            for name, reason in (*NO_PROGRAMS, ("long", b"File name too long"), ("much", b"Argument list too long")):
                line = told_of(scene, name) + reason
                self.check(f"the operator is told of {name}", wait_until(lambda: line in scene.server.errors()))
            self.check("a trigger beside files that are no programs", scene.has_lines(1))
            scene.make("b")
            self.check("it goes on", scene.has_lines(2))
            time.sleep(QUIET)
            counts = [scene.server.errors().count(told_of(scene, name) + reason) for name, reason in NO_PROGRAMS]
            self.same("how often the operator is told of each", counts, [1] * len(NO_PROGRAMS))
            self.check("no child of them is left", wait_until(lambda: not scene.children()))

    def test_names_that_no_variable_holds(self) -> None:
        """A name with a byte 0 can be registered, and never starts."""
        with Scene(self.room) as scene:
            scene.make("a")
            scene.trigger("t\0u", scene.log("ran"))
            line = f'"{scene.root}": trigger "t\\u0000u" could not be started: '.encode()
            self.check("the operator is told of a byte 0", wait_until(lambda: line in scene.server.errors()))
            self.same("no start under a byte 0", scene.lines(), [])


def count_of_handles(scene: Scene) -> int:
    return len(list(Path(f"/proc/{scene.server.process.pid}/fd").iterdir()))


def make_no_programs(directory: Path) -> None:
    (directory / "directory").mkdir()
    (directory / "link").symlink_to("/there/is/nothing")
    (directory / "loop").symlink_to("loop")
    texts = (
        ("plain", b"echo\n"),
        ("empty", b""),
        ("strange", b"#!/there/is/nothing\n"),
        ("cut", b"\x7fELF" + b"\0" * 100),
    )
    for name, text in texts:
        (directory / name).write_bytes(text)
        (directory / name).chmod(0o755)
