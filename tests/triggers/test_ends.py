"""How commands end: by a signal, after a stop, after the server, and with a child of theirs that keeps their input."""

import json
import os
import signal
import time

from case import Timed
from triggered import QUIET, Scene
from waiting import wait_until

# How many seconds a command stays, and how much sooner the server has to end.
STAYS = 2.0
SOON = 1.5
# More names than go into a pipe.
NAMES = 3_000


class Ends(Timed):
    def test_a_command_that_ends_by_a_signal(self) -> None:
        """A command that kills itself has ended as any other, and is started again."""
        with Scene(self.room) as scene:
            scene.make("a")
            scene.trigger("t", scene.log("ran") + "; kill -9 $$", append_files=True)
            self.check("the first start", scene.has_lines(1))
            scene.make("b")
            self.check("the second start", scene.has_lines(2))
            self.same("the starts", scene.lines(), ["ran a", "ran b"])
            self.check("nobody is left to be waited for", wait_until(lambda: not scene.children()))

    def test_how_commands_ended(self) -> None:
        """The server tells its operator of each command that ended otherwise than with status 0, with its trigger."""
        with Scene(self.room) as scene:
            scene.make("a")
            for name, script in (("fine", "exit 0"), ("fails", "exit 3"), ('a "signal"', "kill -9 $$")):
                scene.trigger(name, f"{scene.log('ran')}; {script}")
            for name, end in (("fails", "with status 3"), ('a "signal"', "by signal 9")):
                line = f"{json.dumps(str(scene.root))}: trigger {json.dumps(name)} ended {end}\n".encode()
                self.check(f"the operator is told of {name}", wait_until(lambda: line in scene.server.errors()))
                self.same(f"how often the operator is told of {name}", scene.server.errors().count(line), 1)
            self.check("all have run", scene.has_lines(3))
            self.check("nobody is told of status 0", b'"fine"' not in scene.server.errors())

    def test_a_command_that_is_stopped(self) -> None:
        """A command that is stopped has not ended: it is not started again until it went on and ended."""
        with Scene(self.room) as scene:
            scene.make("a")
            scene.trigger("t", f"{scene.log('$$')}; kill -STOP $$; {scene.log('over')}", append_files=True)
            self.check("it is stopped", wait_until(lambda: scene.children() == ["T"]))
            scene.make("b")
            scene.see()
            time.sleep(QUIET)
            number = scene.lines()[0].split()[0]
            self.same("no start while it is stopped", scene.lines(), [f"{number} a"])
            os.kill(int(number), signal.SIGCONT)
            self.check(
                "the next start is stopped too",
                wait_until(lambda: len(scene.lines()) == 3 and scene.children() == ["T"]),
            )
            self.same("it went on", scene.lines()[1], "over a")
            next_number, *files = scene.lines()[2].split()
            self.same("what came meanwhile", files, ["b"])
            os.kill(int(next_number), signal.SIGCONT)
            self.check("nobody is left to be waited for after a stop", wait_until(lambda: not scene.children()))

    def test_a_command_that_outlives_the_server(self) -> None:
        """The server ends at once, and the command goes on."""
        with Scene(self.room) as scene:
            scene.make("a")
            scene.trigger("t", f"{scene.log('begun')}; sleep {STAYS}; {scene.log('over')}")
            self.check("it begins", scene.has_lines(1))
            began = time.monotonic()
            self.same("the status of a server whose command runs", scene.server.shut_down(scene.client), 0)
            took = time.monotonic() - began
            self.check("it ends at once", took < SOON, [f"{took:.3f} seconds"])
            self.same("the socket of a server whose command runs", os.path.exists(scene.server.sockname), False)
            self.check("the command goes on", scene.has_lines(2))
            self.same("its lines", scene.lines(), ["begun", "over"])

    def test_a_grandchild(self) -> None:
        """A child of the command keeps its input open. If that was not written whole, the end comes with that of the
        child."""
        with Scene(self.room) as scene:
            scene.make("a")
            took = self.time_to_the_second_start(scene, "short", "b")
            self.check("a short input does not wait for the child", took < SOON, [f"{took:.3f} seconds"])
            scene.client.ask("trigger-del", str(scene.root), "short")
            scene.make(*(f"a-file-of-a-long-name-{number}" for number in range(NAMES)))
            took = self.time_to_the_second_start(scene, "long", "c")
            self.check("a long input waits for the child", took > STAYS / 2, [f"{took:.3f} seconds"])

    def time_to_the_second_start(self, scene: Scene, name: str, file: str) -> float:
        """Starts a command that ends at once, with a child that has its input open. Gives the seconds from a change,
        just after that, to its second start."""
        before = len(scene.lines())
        # A shell gives /dev/null to what it starts in the background, unless it is told otherwise.
        script = f"{scene.log(name)}; exec 3<&0; sleep {STAYS} <&3 > /dev/null 2>&1 & exit 0"
        scene.trigger(name, script, stdin="NAME_PER_LINE")
        self.check(f"a start with a {name} input", scene.has_lines(before + 1))
        began = time.monotonic()
        scene.make(file)
        self.check(f"a second start with a {name} input", scene.has_lines(before + 2))
        return time.monotonic() - began
