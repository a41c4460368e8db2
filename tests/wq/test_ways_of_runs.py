"""`wq run`: what a command is handed, what a change does while it runs, its own changes, and keys at a terminal."""

import itertools
import os
import pty
import signal
import subprocess
import sys
import termios
import time
from typing import Dict, List, Tuple

import built
from case import Beside, Timed
from client import PATIENCE
from runs import Log, change_until, command, has_runs
from scene import COMMAND, AtTerminal, Going, Scene, called_at_terminal, following, said, without_delays, wrong
from waiting import wait_until

SHOWS = 'printf "%s %s [%s]\\n" "$WQ_ROOT" "$WQ_CHANGED_COUNT" "$WQ_CHANGED"'
ENDED = "sh ended with status 0"


class WaysOfRuns(Timed, Beside):
    def test_handed(self) -> None:
        """Variables and names, as many as the system takes."""
        with Scene(self.room) as scene:
            with scene.begin("run", "src", "*.h", "--", "sh", "-c", SHOWS) as going:
                self.check("nothing changed before the first run", going.prints(f"{scene.tree} 0 []\n"))
                scene.write("src/x y.h")
                self.check("one name", going.prints(f"{scene.tree} 1 [./src/x y.h]\n"))
                scene.write("src/new\nline.h")
                self.check("one that is counted alone", going.prints(f"{scene.tree} 1 []\n"))
                (scene.tree / "src/new\nline.h").unlink()
                self.check("and when it goes", going.waits_for(lambda one: one.output.count(b" 1 []\n") == 2))
                (scene.tree / "src/x y.h").unlink()
                self.check("one that went", going.waits_for(lambda one: one.output.count(b"1 [./src/x y.h]\n") == 2))
            with scene.begin("run", "src", "*.h", "--", "sh", "-c", 'echo "$WQ_CLOCK"') as going:
                self.check("the clock of a run", going.prints("\n"))
                clock = going.output.decode().strip()
                with scene.client() as client:
                    asked = client.ask("query", str(scene.tree), {"since": clock, "fields": ["name"]})
                self.same("is one of the server", asked["is_fresh_instance"], False)
            self.check_many_names(scene)
            self.check_shell(scene)

    def check_many_names(self, scene: Scene) -> None:
        many = scene.tree / "many"
        many.mkdir()
        for number in range(900):
            (many / f"{number:04}{'x' * 200}.long").touch()
        script = 'printf "%s %s" "$WQ_CHANGED_COUNT" "$WQ_CHANGED" | wc -c'
        with scene.begin("run", "many", "--", "sh", "-c", script) as going:
            self.check("a first run", going.prints("2\n"))
            texts = itertools.count(1)

            def has_all(one: Going) -> bool:
                # A scan may come while they are written, and part them.
                if 60_000 < int(one.output.split()[-1]) < 65_542:
                    return True
                text = "changed" * next(texts)
                for number in range(900):
                    (many / f"{number:04}{'x' * 200}.long").write_text(text)
                one.read(1)
                return False

            self.check("names of 64 KiB", going.waits_for(has_all))
        # A small stack has the system take fewer bytes of arguments.
        script = "echo \\$#; exit \\$(( \\$# > 400 ))"
        ended = run_by_shell(scene, f'ulimit -s 256; exec "$0" run many --once -- sh -c "{script}" sh {{}}')
        counts = [int(word) for word in ended.output.split()]
        self.check("names for several processes", len(counts) > 1 and sum(counts) == 900, [str(ended)[:300]])
        status = 1 if max(counts or [0]) > 400 else 0
        self.same(
            "how they end together",
            (ended.status, without_delays(ended.errors)),
            (status, said(f"sh ended with status {status}")),
        )

    def check_shell(self, scene: Scene) -> None:
        scene.write("src/$x.h")
        ended = scene.wq("run", "src", "*.h", "--once", "--shell", "--", "echo {} && echo $((1 + 1)) | cat")
        output = b"./src/$x.h ./src/deep/c.h\n2\n"
        self.same("a text for a shell", ended, built.Ended(output, said("echo ended with status 0"), 0))
        ended = scene.wq("run", "--once", "--shell", "--", "exit", "3")
        self.same("words for a shell", ended, built.Ended(b"", said("exit ended with status 3"), 3))

    def test_busy(self) -> None:
        """A change while the command runs."""
        with Scene(self.room) as scene:
            log = Log(scene)
            self.check_ignore(scene, log)
            self.check_restart_by(scene, log)
            self.check_signal(scene)
            self.check_delay(scene, log)
            self.check_ways(scene)

    def check_ignore(self, scene: Scene, log: Log) -> None:
        log.hold.touch()
        with scene.begin("run", ".", "*.c", "--on-busy", "ignore", *command()) as going:
            self.check("a run that is held", going.waits_for(has_runs(log, 1)))
            scene.write("src/a.c", "while it runs")
            time.sleep(0.3)
            log.hold.unlink()
            self.check("it ends", going.says(ENDED))
            time.sleep(0.4)
            self.same("what changed meanwhile is ignored", log.runs(), 1)
            change_until(scene, going, log, 2)
            self.same("Ctrl-C", going.ends(signal.SIGINT), 130)
        log.clear()

    def check_restart_by(self, scene: Scene, log: Log) -> None:
        log.hold.touch()
        with scene.begin("run", "*.c", "--on-busy", "restart", "--stop-signal", "sigusr1", *command()) as going:
            self.check("a run that will be ended", going.waits_for(has_runs(log, 1)))
            change_until(scene, going, log, 2)
            self.check("by the signal that was asked for", going.says("sh was ended by SIGUSR1\n"))
            going.ends(signal.SIGINT)
        log.hold.unlink()
        log.clear()

    def check_signal(self, scene: Scene) -> None:
        script = "trap 'echo again' HUP; echo begun; while :; do sleep 0.02; done"
        with scene.begin("run", "*.c", "--on-busy", "signal", "--stop-signal", "1", "--", "sh", "-c", script) as going:
            self.check("a command that hears signals", going.prints("begun\n"))
            for turn in range(2):
                scene.write("src/a.c", "x" * (70 + turn))
                self.check("a change is a signal", going.waits_for(lambda one: one.output.count(b"again\n") > turn))
            self.same("it is ended with this", (going.ends(signal.SIGTERM), going.output.count(b"begun")), (143, 1))

    def check_delay(self, scene: Scene, log: Log) -> None:
        with scene.begin("run", "*.c", "--delay", "700", "--debounce", "0", *command()) as going:
            self.check("a first run without a delay", going.waits_for(has_runs(log, 1)))
            time.sleep(0.2)
            began = time.monotonic()
            change_until(scene, going, log, 2)
            self.check("one for a change comes later", time.monotonic() - began > 0.7, [str(time.monotonic() - began)])
            going.ends(signal.SIGINT)
        log.clear()

    def check_ways(self, scene: Scene) -> None:
        for words, line in (
            (["--on-busy", "skip"], "--on-busy takes wait, restart, ignore or signal, and not skip"),
            (
                ["--restart", "--on-busy", "wait"],
                "--restart is --on-busy restart, and --on-busy wait is beside it: take one out",
            ),
            (
                ["--no-self", "--restart"],
                "--no-self leaves out what changes while the command runs, and --on-busy restart goes by that: take "
                "one out",
            ),
            (["--stop-signal", "never"], "--stop-signal takes a signal, such as INT, HUP or 15, and not never"),
            (["--delay=-1"], "argument --delay: -1 is no number of milliseconds from 0 on; see `wq run --help`"),
        ):
            wrong(self, scene, ["run", *words, "--", "true"], line)

    def test_unended(self) -> None:
        """A command that even SIGKILL does not end, as while a file system hangs, does not keep wq."""
        script = (
            "import signal, sys; sys.path.insert(0, sys.argv[1]); from wq.commands_run import Command, Run\n"
            "class Unending(Run):\n"
            "    def signal(self, number, to_all=True): pass\n"
            "run = Unending(Command(['sleep', '30'], False, False, True, False), [['sleep', '30']], [], {}, set())\n"
            "run.begin()\n"
            "while open(f'/proc/{run.process.pid}/stat').read().split()[1:3] != ['(sleep)', 'S']: pass\n"
            "run.end_at_once(signal.SIGTERM, 0.2)\n"
            "run.process.kill()\n"
        )
        began = time.monotonic()
        ended = built.call([sys.executable, "-IBc", script, str(built.TOP / "clients")], timeout=PATIENCE)
        self.check("it ends", time.monotonic() - began < 20, [str(ended)])
        self.check("and says why", b"was killed and does not end: state S\n" in ended.errors, [str(ended.errors)])

    def test_own(self) -> None:
        """A command that causes its own next run hears so after the third."""
        with Scene(self.room) as scene:
            log = Log(scene)
            writes = ["--", "sh", "-c", 'echo run >> "$LOG"; date +%N > src/out.o; date +%N > made.txt']
            with scene.begin("run", *writes) as going:
                self.check("its own changes", going.says("and so cause the next one"))
                lines = [line for line in following(going).decode().splitlines() if ENDED not in line]
                # A scan between the two writes of a run may part them.
                expected = [[own(names)] for names in (["made.txt", "src/out.o"], ["made.txt"], ["src/out.o"])]
                self.check("what is said of them", lines in expected, [f"expected: {expected}", f"found:    {lines}"])
                going.waits_for(has_runs(log, log.runs() + 2))
                self.same("once", going.errors.count(b"leaves that out"), 1)
                self.same("the pause is doubled", b"the pause before a run is 200 ms from now on" in going.errors, True)
            log.clear()
            for options in (["--exclude", "made.txt", "--exclude", "src/out.o"], ["--no-self"]):
                with scene.begin("run", *options, *writes) as going:
                    self.check(f"a run with {options}", going.says(ENDED))
                    time.sleep(0.5)
                    self.same(f"no other one with {options}", log.runs(), 1)
                    scene.write("src/a.c", "a person")
                    self.check(f"but for a change, {options}", going.waits_for(has_runs(log, 2)))
                log.clear()
                scene.write("src/a.c", "before")

    def test_accused(self) -> None:
        """A file that a person edits is not taken for one that the command changes."""
        with Scene(self.room) as scene:
            script = ["--", "sh", "-c", "echo begun; sleep 0.7"]
            ways: List[List[str]] = [["--restart"], ["--on-busy", "signal", "--stop-signal", "CONT"], []]
            for options in ways:
                with scene.begin("run", *options, "src", "*.c", *script) as going:
                    self.check(f"a run {options}", going.prints("begun"))
                    for turn in range(5):
                        scene.write("src/a.c", "x" * (turn + 1))
                        if not options:
                            scene.write("src/b b.c", "by nobody" * turn)
                            os.utime(scene.tree / "src/b b.c", (turn, turn))
                        begun = going.output.count(b"begun")
                        going.waits_for(lambda one: "signal" in options or one.output.count(b"begun") > begun)
                    self.same(f"nothing is said of it {options}", b"may change" in going.errors, False)
                    going.ends(signal.SIGINT)

    def test_terminal_of_run(self) -> None:
        """Keys, and how a terminal hears of an end."""
        with Scene(self.room) as scene:
            words = ["run", "*.h", "--", "sh", "-c", "echo ran $1", "sh", "{}"]
            more = [(ENDED, b"c"), ("\x1b[3J", b"q")]
            found = called_at_terminal(scene, words, {"NO_COLOR": "1"}, keys=b"\n", after=ENDED, more=more)
            runs = f"ran ./src/deep/c.h\nwq: {ENDED}\n"
            first, rest = found.text.split("\n", 1)
            self.same("Enter, c and q", (rest, found.status), (f"{runs}{runs}\x1b[H\x1b[2J\x1b[3J", 0))
            self.check("the keys are named", first.endswith("; Enter runs it again, q ends, c clears"), [first])
            held = ["run", "--restart", "--", "sh", "-c", "echo begun; sleep 1000"]
            found = called_at_terminal(scene, held, keys=b"\r", after="begun", more=[("begun", b"q")])
            self.same(
                "Enter restarts", (found.status, found.text.count("begun"), "SIGTERM" in found.text), (0, 2, True)
            )
            terminals: List[Tuple[Dict[str, str], str]] = [
                ({}, "\a"),
                ({"TERM": "xterm-kitty"}, "\x1b]9;true ended with status 0\a"),
            ]
            for variables, end in terminals:
                words = ["run", "--once", "--notify", "--", "true"]
                found = called_at_terminal(scene, words, {**variables, "NO_COLOR": "1"})
                self.same(f"an end is told by {end!r}", found, AtTerminal(f"wq: true ended with status 0\n{end}", 0))
            errors = scene.wq("run", "--once", "--notify", "--", "true").errors
            self.same("and to no file", errors, said("true ended with status 0"))
            self.check_mode(scene)

    def check_mode(self, scene: Scene) -> None:
        """The terminal is as it was before, in a command and at the end."""
        first, second = pty.openpty()
        before = termios.tcgetattr(second)
        script = "stty -a | grep -o -- '-*icanon'"
        words = ["setsid", "-c", "-w", COMMAND, "run", "--", "sh", "-c", script]
        with subprocess.Popen(
            words, cwd=scene.tree, env=scene.environment, stdin=second, stdout=subprocess.PIPE, stderr=subprocess.PIPE
        ) as going:
            assert going.stdout is not None and going.stderr is not None
            self.same("the mode in a command", going.stdout.readline(), b"icanon\n")
            for _ in range(2):
                going.stderr.readline()
            self.check(
                "keys are read at once between runs",
                wait_until(lambda: not termios.tcgetattr(second)[3] & termios.ICANON),
            )
            os.write(first, b"q")
            self.same("q ends", going.wait(PATIENCE), 0)
        self.same("the mode after the end", termios.tcgetattr(second), before)
        os.close(first)
        os.close(second)


def run_by_shell(scene: Scene, text: str) -> built.Ended:
    """A text for a shell, in which `$0` is wq."""
    return built.call(["sh", "-c", text, COMMAND], cwd=scene.tree, env=scene.environment, timeout=PATIENCE)


def own(names: List[str]) -> str:
    """What is said of a command whose runs change these files."""
    hint = " ".join(f"--exclude {name}" for name in names)
    return (
        f"wq: each run of sh may change {', '.join(names)}, and so cause the next one; {hint} leaves that out; "
        "--no-self leaves out all that changes during a run, also what you save; the pause before a run is 200 ms from "
        "now on"
    )
