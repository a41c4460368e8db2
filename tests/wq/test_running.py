"""`wq run`: one run at a time, bursts, names, restarts, and how it ends."""

import os
import signal
import subprocess
import time
from pathlib import Path

import built
from case import Beside, Timed
from client import PATIENCE
from runs import Log, change_until, command, has_runs
from scene import COMMAND, Scene, following, said, touch_until, write_until, wrong
from waiting import wait_until


class Running(Timed, Beside):
    def test_run(self) -> None:
        with Scene(self.room) as scene:
            log = Log(scene)
            self.check_turns_of_runs(scene, log)
            self.check_bursts(scene, log)
            self.check_names_of_runs(scene, log)
            self.check_restart_of_runs(scene, log)

    def check_turns_of_runs(self, scene: Scene, log: Log) -> None:
        """It runs now, and after a change; what changes while it runs is one more run."""
        with scene.begin("run", ".", "*.c", *command()) as going:
            self.check("a run at once", going.waits_for(has_runs(log, 1)))
            self.check("how it ended is said", going.says("wq: sh ended with status 0\n"))
            log.hold.touch()
            change_until(scene, going, log, 2)
            scene.write("src/a.c", "while it runs")
            tick = scene.changes()
            scene.write("src/b b.c", "once more")
            self.check("both changes are seen", going.waits_for(lambda _: scene.changes() > tick))
            time.sleep(0.2)
            self.same("one run at a time", log.runs(), 2)
            log.hold.unlink()
            self.check("one more run", going.waits_for(has_runs(log, 3)))
            self.check("three ends", going.says("ended with status 0", 3))
            scene.write("Makefile", "does not fit the glob")
            time.sleep(0.3)
            self.same("and no further one", log.runs(), 3)
            self.same("Ctrl-C of run", going.ends(signal.SIGINT), 130)
        log.clear()

    def check_bursts(self, scene: Scene, log: Log) -> None:
        with scene.begin("run", "--debounce", "900", *command()) as going:
            self.check("a run before the burst", going.waits_for(has_runs(log, 1)))
            time.sleep(0.2)
            for number in range(20):
                scene.write(f"burst/{number}.c")
                time.sleep(0.03)
            self.check("a run after the burst", going.waits_for(has_runs(log, 2)))
            time.sleep(1.2)
            self.same("a burst is one run", log.runs(), 2)
            self.same("SIGTERM of run", going.ends(signal.SIGTERM), 143)
        log.clear()

    def check_names_of_runs(self, scene: Scene, log: Log) -> None:
        with scene.begin("run", ".", "*.h", *command("{}")) as going:
            self.check("the names of the first run", going.waits_for(lambda _: log.names() == ["./src/deep/c.h"]))
            scene.write("src/x y.h")
            self.check("the names that changed", going.waits_for(lambda _: log.names()[1:2] == ["./src/x y.h"]))
            (scene.tree / "src/x y.h").unlink()
            scene.write("src/-z.h")
            self.check("no name that is gone", going.waits_for(lambda _: log.names()[2:3] == ["./src/-z.h"]))
        log.clear()
        with scene.begin("run", "src", "*.h", "--stdin", "--once", "--", "cat") as going:
            self.same("names on standard input", (going.ends(), going.output), (0, b"./src/-z.h\n./src/deep/c.h\n"))
        with scene.begin("run", "src", "*.h", "--stdin", "-0", "--once", "--", "cat") as going:
            self.same("with bytes 0", (going.ends(), going.output), (0, b"./src/-z.h\0./src/deep/c.h\0"))
        with scene.begin("run", scene.tree / "src", "?z.h", "--once", "--", "echo", "{}") as going:
            self.same(
                "a directory by its whole path", (going.ends(), going.output), (0, f"{scene.tree}/src/-z.h\n".encode())
            )
        with scene.begin("run", "?z.h", "src/deep", "src", "--once", "--", "echo", "{}") as going:
            self.same("two directories", (going.ends(), going.output), (0, b"./src/-z.h\n"))
        wrong(self, scene, ["run", "*.nothing", "--once", "--", "echo", "{}"], "no file matches", status=1)
        with scene.begin("run", "src/deep", "--postpone", "--once", "--", "echo", "{}") as going:
            touch_until(scene, going, "src/deep/c.h")
            self.same("run --postpone --once", (going.ends(), going.output), (0, b"./src/deep/c.h\n"))
        with scene.begin("run", "*.nothing", "--", "echo", "of", "{}") as going:
            self.check("it follows", going.says("following 0 files"))
            touch_until(scene, going, "src/z.nothing")
            told = {b"of ./src/z.nothing"}
            self.same("no run without a name", set(going.output.splitlines()), told)
            (scene.tree / "src" / "z.nothing").unlink()
            write_until(scene, going, "src/y.nothing", lambda one: b"y.nothing" in one.output)
            told.add(b"of ./src/y.nothing")
            self.same("nor for one that went", set(going.output.splitlines()), told)
            self.same("Ctrl-C after it", going.ends(signal.SIGINT), 130)
            self.same("it says", set(following(going).splitlines()), {b"wq: echo ended with status 0"})

    def check_restart_of_runs(self, scene: Scene, log: Log) -> None:
        """A run and all that it started get SIGTERM; one that stays gets SIGKILL."""
        log.hold.touch()
        with scene.begin("run", "--restart", "*.c", *command()) as going:
            self.check("a run that goes on", going.waits_for(has_runs(log, 1)))
            change_until(scene, going, log, 2)
            self.check("it was ended", going.says("wq: sh was ended by SIGTERM\n"))
            self.same("Ctrl-C ends the other", going.ends(signal.SIGINT), 130)
        log.hold.unlink()
        log.clear()
        stays = (
            'trap \'\' TERM; sleep 1000 & echo $! > "$LOG.child"; echo run >> "$LOG"; ' "while :; do sleep 0.05; done"
        )
        with scene.begin("run", "--restart", "*.c", "--", "sh", "-c", stays) as going:
            self.check("a run that stays", going.waits_for(has_runs(log, 1)))
            child = int(Path(f"{log.path}.child").read_text())
            began = time.monotonic()
            change_until(scene, going, log, 2)
            self.check("it is killed", going.says("wq: sh was ended by SIGKILL\n"))
            self.check("after five seconds", 4.5 < time.monotonic() - began < 30, [str(time.monotonic() - began)])
            self.check("with what it started", is_gone(child))
            os.kill(going.process.pid, signal.SIGKILL)
            os.killpg(os.getpgid(int(Path(f"{log.path}.child").read_text())), signal.SIGKILL)

    def test_left_behind(self) -> None:
        """A process that a run started with --restart, and that hears no signal, does not go on after that: not beside
        the next run, and not after the end. A daemon does."""
        leaves = (
            'sh -c \'trap "" HUP INT TERM; echo $$ >> "$LOG.left"; while :; do sleep 0.05; done\' & '
            'rm -f "$LOG.daemon"; setsid sh -c \'echo $$ > "$LOG.daemon"; exec sleep 1000\' & '
            'while [ ! -s "$LOG.left" ] || [ ! -s "$LOG.daemon" ]; do sleep 0.01; done; echo run >> "$LOG"; wait'
        )
        with Scene(self.room) as scene:
            log = Log(scene)
            left = Path(f"{log.path}.left")
            with scene.begin("run", "--restart", "*.c", "--", "sh", "-c", leaves) as going:
                self.check("a run", going.waits_for(has_runs(log, 1)))
                change_until(scene, going, log, 2)
                self.check("what the first run left", is_gone(int(left.read_text().split()[0])))
                self.same("SIGTERM", going.ends(signal.SIGTERM), 143)
                self.check("what is left", all(map(is_gone, map(int, left.read_text().split()))))
                daemon = int(Path(f"{log.path}.daemon").read_text())
                self.check("a daemon goes on", state_of(daemon) in list("SRD"))
                os.kill(daemon, signal.SIGKILL)

    def test_left_by_ended(self) -> None:
        """With --restart, what a run left in its group that has ended itself does not go on either. Else it does."""
        leaves = 'sleep 1000 & echo $! >> "$LOG.left"; echo run >> "$LOG"'
        with Scene(self.room) as scene:
            log = Log(scene)
            left = Path(f"{log.path}.left")
            with scene.begin("run", "--restart", "*.c", "--", "sh", "-c", leaves) as going:
                self.check("a run", going.says("wq: sh ended with status 0\n"))
                first = int(left.read_text())
                self.check("what it left", state_of(first) in list("SRD"))
                change_until(scene, going, log, 2)
                self.check("has gone before the next one", state_of(first) in ("Z", ""))
                self.check("a second run", going.says("wq: sh ended with status 0\n", 2))
                self.same("SIGTERM", going.ends(signal.SIGTERM), 143)
                self.check("what is left", all(map(is_gone, map(int, left.read_text().split()))))
                ends = [line for line in going.errors.splitlines() if b"ended" in line]
                self.same("each end is told once", ends, [b"wq: sh ended with status 0"] * log.runs())
            left.unlink()
            log.clear()
            with scene.begin("run", "*.c", "--", "sh", "-c", leaves) as going:
                change_until(scene, going, log, 2)
                # What a run leaves that still goes on ends with it.
                self.check("the last run has ended", going.says("wq: sh ended with status 0\n", log.runs()))
                self.same("Ctrl-C without --restart", going.ends(signal.SIGINT), 130)
            for process in map(int, left.read_text().split()):
                self.check("what it left", state_of(process) in list("SRD"))
                os.kill(process, signal.SIGKILL)

    def test_ends_of_run(self) -> None:
        with Scene(self.room) as scene:
            for script, status, words in (
                ("exit 0", 0, "sh ended with status 0"),
                ("exit 7", 7, "sh ended with status 7"),
                ("kill -9 $$", 137, "sh was ended by SIGKILL"),
                ("kill $$", 143, "sh was ended by SIGTERM"),
            ):
                ended = scene.wq("run", "--once", "--", "sh", "-c", script)
                self.same(f"run --once of {script}", ended, built.Ended(b"", said(words), status))
            self.same("what a command prints", scene.wq("run", "--once", "--", "echo", "a b").output, b"a b\n")
            self.same("two dashes in a command", scene.wq("run", "--once", "--", "echo", "--", "-x").output, b"-- -x\n")
            self.same(
                "the directory of a command",
                scene.wq("run", "src", "--once", "--", "pwd").output,
                f"{scene.tree}\n".encode(),
            )
            self.same(
                "bytes that are no UTF-8 for a command",
                scene.call(["run", "--once", "--", "printf", b"\xff"]).output,
                b"\xff",
            )
            wrong(self, scene, ["run", "--once", "--", "not-there"], "not-there: there is no such command", status=127)
            (scene.tree / "plain").write_text("no program")
            wrong(self, scene, ["run", "--once", "--", "./plain"], "./plain: Permission denied", status=126)
            reason = "run takes `--` and a command after it, such as: wq run '*.c' -- make"
            for without in (["run"], ["run", "*.c"], ["run", "*.c", "--"]):
                wrong(self, scene, without, reason)
            wrong(
                self,
                scene,
                ["run", "--debounce=-1", "--", "true"],
                "argument --debounce: -1 is no number of milliseconds from 0 on; see `wq run --help`",
            )
            closed = ["sh", "-c", '"$0" run --once -- sh -c "exit 5" 2>&-', COMMAND]
            code = subprocess.run(closed, cwd=scene.tree, env=scene.environment, timeout=PATIENCE).returncode
            self.same("a run without standard error", code, 5)


def is_gone(process: int) -> bool:
    """Whether a process that nobody waits for has ended."""
    return wait_until(lambda: state_of(process) in ("Z", ""))


def state_of(process: int) -> str:
    """The letter that the system tells of a process, or nothing if there is none."""
    try:
        return Path(f"/proc/{process}/stat").read_text().rsplit(")", 1)[1].split()[0]
    except OSError:
        return ""
