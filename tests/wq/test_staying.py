"""Windows that stay: `wq follow` and `wq run` beyond the end of a server, a server that hangs, and the roots that are
given back."""

import contextlib
import os
import re
import signal
import subprocess
import sys
import time
from pathlib import Path
from typing import Iterator, List

import built
from case import Beside, Timed
from client import PATIENCE
from scene import Going, Scene, facts, said, without_delays
from stand_ins import Holding
from waiting import wait_until

FOLLOWING = r"following ([0-9,]+) files? below (\S+); changes show within about [0-9.]+ s, later under load"
# Listen and answer nothing. The one hears no SIGTERM, the other is busy.
SILENT = """
import signal, socket, sys, time
signal.signal(signal.SIGTERM, signal.SIG_IGN)
listener = socket.socket(socket.AF_UNIX)
listener.bind(sys.argv[1])
listener.listen(5)
print("listens", flush=True)
"""
DEAF = f"{SILENT}time.sleep(1000)"
BUSY = f"{SILENT}while True: sum(range(100_000)); time.sleep(0.001)"


# So long, in seconds, a command that says nothing needs to begin once its root is watched.
BEGUN = 2.0
# The state of a stream in the kernel's list of sockets.
CONNECTED = "03"
ENDED = "the server has ended before it answered, and another one is asked"


class Staying(Timed, Beside):
    def is_said(self, name: str, errors: bytes, *patterns: str) -> None:
        """The lines of standard error, as patterns that say no more than they must."""
        lines = without_delays(errors).decode().splitlines()
        is_right = len(lines) == len(patterns) and all(map(re.fullmatch, (f"wq: {one}" for one in patterns), lines))
        self.check(name, is_right, [f"expected: {patterns}", f"found:    {lines}"])

    def test_windows(self) -> None:
        with Scene(self.room) as scene:
            self.check_follow_after(scene)
            self.check_run_after(scene)
            self.check_stop_beside(scene)
            self.check_end_of_none(scene)

    def check_follow_after(self, scene: Scene) -> None:
        """A server that is killed is started again, one that is restarted is asked on."""
        with scene.begin("follow", ".", "*.c") as going:
            self.check(
                "follow says what it follows", going.says("following 2 files below .; changes show within about 0.")
            )
            os.kill(facts(scene)["process"], signal.SIGKILL)
            self.check("another server", going.says("was started"))
            scene.write("src/a.c", "after the kill")
            self.check("a change after it", going.prints("~ src/a.c\n"))
            scene.wq("restart", "--interval", "40")
            self.check("a third server", going.says("another one listens"))
            scene.write("src/b b.c", "after the restart")
            self.check("a change after that", going.prints("~ src/b b.c\n"))
            changes = b"~ src/a.c\n~ src/b b.c\n"
            self.same("Ctrl-C after two servers", (going.ends(signal.SIGINT), going.output), (130, changes))
            gap = "; what changed between is not listed"
            self.is_said(
                "a line for each server",
                going.errors,
                FOLLOWING,
                f"the server has ended, and another one was started; {FOLLOWING}{gap}",
                f"the server has ended, and another one listens; {FOLLOWING}{gap}",
            )
        self.same("the root is given back to the third", scene.wq("roots"), built.Ended(b"", b"", 1))

    def check_run_after(self, scene: Scene) -> None:
        """A command runs once more after the end of a server, with all names, and a run that goes on is left alone."""
        with scene.begin("run", ".", "*.h", "--", "echo", "of", "{}") as going:
            self.check("the first run", going.prints("of ./src/deep/c.h\n"))
            scene.wq("restart", "--interval", "40")
            self.check("a run after the restart", going.waits_for(lambda one: one.output == b"of ./src/deep/c.h\n" * 2))
            scene.write("src/new.h")
            self.check("and one for a change", going.prints("of ./src/new.h\n"))
            time.sleep(0.3)
            self.same("no further run", going.output.count(b"\n"), 3)
            self.check("what is said of it", going.says("echo runs once for what changed between\n"))
        with scene.begin("run", "--", "sh", "-c", "echo begun; sleep 1; echo done") as going:
            self.check("a run that goes on", going.prints("begun\n"))
            os.kill(facts(scene)["process"], signal.SIGKILL)
            self.check("is not ended", going.prints("begun\ndone\n"))
            self.check("and another one follows", going.prints("begun\ndone\nbegun\n"))

    def test_gone_root(self) -> None:
        """A root that goes is waited for, and a command runs in the directory that came in its place."""
        with Scene(self.room) as scene:
            with scene.begin("run", "*.h", "--", "sh", "-c", "pwd; ls Makefile new 2> /dev/null") as going:
                self.check("a first run", going.prints("Makefile\n"))
                scene.tree.rename(scene.room / "old")
                self.check("a root that is gone", going.says(f"{scene.tree} is gone; waiting for it"))
                scene.write("new")
                scene.write("a.h")
                self.check("a run in the new directory", going.prints("new\n"))

    def check_stop_beside(self, scene: Scene) -> None:
        """A window does not start a server that somebody stopped, and goes on with the next one."""
        with scene.begin("follow", "src") as going:
            self.check("a window", going.says("following"))
            ended = scene.wq("stop")
            line = said(f"the server at {scene.sockname} has ended")
            self.same("stop beside a window", ended, built.Ended(b"", line, 0))
            self.check("it waits", going.says("the server was stopped; this goes on as soon as another one listens"))
            self.same("no server is started", scene.wq("status").status, 1)
            scene.wq("start", "--interval", "40")
            self.check("it goes on", going.says("the server has ended, and another one listens"))
            scene.write("src/a.c", "after the stop")
            self.check("with a change", going.prints("~ src/a.c\n"))
            scene.wq("stop")
            self.check("stopped once more", going.says("was stopped", 2))
            self.same("Ctrl-C without a server", going.ends(signal.SIGINT), 130)
        scene.wq("start", "--interval", "40")

    def check_end_of_none(self, scene: Scene) -> None:
        """A server that never stays is given up."""
        broken = scene.room / "broken"
        broken.write_text("#!/bin/sh\necho it cannot >&2\nexit 1\n")
        broken.chmod(0o755)
        with scene.begin("follow", WQD=str(broken)) as going:
            self.check("a window of a good server", going.says("following"))
            os.kill(facts(scene)["process"], signal.SIGKILL)
            self.same("the next one does not start", (going.ends(), going.errors.endswith(b": it cannot\n")), (3, True))

    def test_hung(self) -> None:
        """After five seconds a person hears which process does not answer; `wq stop` ends it all the same."""
        with Scene(self.room) as scene:
            process = facts(scene)["process"]
            with scene.begin("follow") as window:
                self.check("a window of a server that will be stopped", window.says("following"))
                os.kill(process, signal.SIGSTOP)
                words = (
                    f"the server, process {process}, has not answered for 5 s: it is stopped; "
                    f"`kill -CONT {process}` lets it go on, and `wq stop` ends it"
                )
                with scene.begin("find", "*.h") as going:
                    self.check("a stopped server", going.says(f"wq: {words}\n"))
                    self.check("in a window", window.says(f"wq: the server, process {process}, is stopped; "))
                    os.kill(process, signal.SIGCONT)
                    self.same("one that goes on", (going.ends(), going.output), (0, b"src/deep/c.h\n"))
            os.kill(process, signal.SIGSTOP)
            asked = f"the server, process {process}, was asked to end, and has not answered: it is stopped"
            ended = said(asked, f"process {process} is sent SIGTERM", f"the server at {scene.sockname} has ended")
            self.same("stop of a stopped server", scene.wq("stop"), built.Ended(b"", ended, 0))
            self.same("it is gone", scene.wq("status").status, 1)
            self.check_deaf(scene)

    def check_deaf(self, scene: Scene) -> None:
        """A search hears of a server that is busy, and meanwhile another one is stopped that hears nothing."""
        busy_at, deaf_at = str(scene.room / "busy"), str(scene.room / "deaf")
        with silent(BUSY, busy_at) as busy, silent(DEAF, deaf_at) as deaf:
            with scene.begin("find", WQD_SOCK=busy_at) as going:
                asked = (
                    f"the server, process {deaf.pid}, was asked to end, and has not answered: it waits, and took "
                    "no processor time"
                )
                lines = said(
                    asked,
                    f"process {deaf.pid} is sent SIGTERM",
                    f"process {deaf.pid} is sent SIGKILL",
                    f"the server at {deaf_at} has ended",
                )
                ended = scene.wq("stop", WQD_SOCK=deaf_at)
                self.same("stop of a process that hears nothing", ended, built.Ended(b"", lines, 0))
                self.same("it was killed", deaf.wait(PATIENCE), -signal.SIGKILL)
                words = f"wq: the server, process {busy.pid}, has not answered for 5 s: it is busy, and took "
                self.check("a busy server", going.says(words))
                busy.kill()
                started = said(ENDED, f"started a server at {busy_at}")
                self.same("one that is killed", (going.ends(), going.errors.endswith(started)), (0, True))
                scene.wq("stop", WQD_SOCK=busy_at)

    def test_killed(self) -> None:
        """A server that is killed before it answered: the next one is asked. If it was stopped, a person hears that."""
        with Scene(self.room) as scene:
            process = facts(scene)["process"]
            os.kill(process, signal.SIGSTOP)
            with scene.begin("find", "*.h") as going:
                self.check("it is asked", wait_until(lambda: is_connected(going.process.pid)))
                os.kill(process, signal.SIGKILL)
                self.same("the answer of another one", (going.ends(), going.output), (0, b"src/deep/c.h\n"))
                lines = said(ENDED, f"started a server at {scene.sockname}")
                self.same("what is said", without_delays(going.errors), lines)
            process = facts(scene)["process"]
            os.kill(process, signal.SIGSTOP)
            with scene.begin("since", "*.h") as going:
                self.check("it is asked too", wait_until(lambda: is_connected(going.process.pid)))
                scene.wq("stop")
                self.same("a server that is stopped", going.ends(), 3)
                last = said("the server was stopped before it answered; `wq start` starts another one")
                self.check("what is said of that", going.errors.endswith(last), [str(going.errors)])
            self.same("none is started", scene.wq("status").status, 1)

    def test_waiting(self) -> None:
        """A wait goes on over the end of a server, and ends at what changed between."""
        with Scene(self.room) as scene:
            with scene.begin("wait", "./never") as going:
                self.kill_beside(scene, going)
                self.check("another server", going.says("was started"))
                time.sleep(0.5)
                self.same("it goes on", (going.process.poll(), going.output), (None, b""))
                scene.write("never")
                self.same("up to a change", (going.ends(), going.output), (0, b"+ never\n"))
            with scene.begin("wait", "src") as going:
                self.kill_beside(scene, going, "src/a.c", "src/new")
                self.same(
                    "what changed between", (going.ends(), going.output), (0, b"~ src/a.c\n+ src/new\n- src/b b.c\n")
                )

    def kill_beside(self, scene: Scene, going: Going, *names: str) -> None:
        """Kills the server of a command that waits. If names are given, these files are written when it is stopped, and
        another one is gone."""
        process = facts(scene)["process"]
        going.waits_for(lambda _: bool(scene.roots()))
        going.read(BEGUN)
        os.kill(process, signal.SIGSTOP)
        for name in names:
            scene.write(name, "changed between")
            (scene.tree / "src" / "b b.c").unlink(missing_ok=True)
        os.kill(process, signal.SIGKILL)

    def test_given_back(self) -> None:
        """A window gives a root back that was watched for windows alone, when the last one ends."""
        with Scene(self.room) as scene:
            with scene.begin("follow", "src") as first:
                self.check("a first window", first.says("following"))
                with scene.begin("run", "*.h", "--", "true") as second:
                    self.check("a second one", second.says("true ended with status 0"))
                    first.ends(signal.SIGINT)
                    self.same("the root stays for the second", scene.names("roots"), [str(scene.tree)])
                    scene.wq("find")
                    self.same("beside a search too", scene.names("roots"), [str(scene.tree)])
                    second.ends(signal.SIGTERM)
            self.same("and is given back by it", scene.wq("roots").status, 1)
            self.check_stays(scene, ["watch"], is_before=False)
            self.check_stays(scene, ["since", "-n", "a"], is_before=True)
            self.check_stays(scene, ["trigger", "t", ".", "--", "true"], is_before=False)
            self.check_stays(scene, ["find", "--keep"], is_before=True)
            scene.wq("ask", f'["watch","{scene.tree}"]')
            with scene.begin("follow") as going:
                going.says("following")
                going.ends(signal.SIGINT)
            self.same("the root of another client stays", scene.names("roots"), [str(scene.tree)])
            names = [str(scene.room / name) for name in "ab"]
            for name in names:
                os.mkdir(name)
            self.same(
                "run --once gives back too",
                (scene.wq("run", names[0], "--once", "--", "true").status, scene.names("roots")),
                (0, [str(scene.tree)]),
            )

    def test_ended_at_its_begin(self) -> None:
        """A command that a person ends while it begins gives its root back, whichever reply it waits for."""
        with Scene(self.room) as scene:
            for place, (words, word, number, status) in enumerate(
                (
                    (["follow", "src"], b'"watch"', signal.SIGINT, 130),
                    (["follow", "src"], b'"watch"', signal.SIGTERM, 143),
                    (["follow", "src"], b'"query"', signal.SIGINT, 130),
                    (["follow", "src"], b'"subscribe"', signal.SIGTERM, 143),
                    (["run", "src", "--", "true"], b'"query"', signal.SIGINT, 130),
                    (["find", "src"], b'"watch"', signal.SIGINT, 130),
                )
            ):
                held = Holding(str(self.room / f"held{place}"), scene.sockname, word)
                with scene.begin(*words, WQD_SOCK=held.sockname) as going:
                    self.check(f"{words} waits for {word!r}", held.is_reached.wait(PATIENCE))
                    ended = going.ends(number)
                    wait_until(lambda: not scene.roots())
                    self.same(f"{words} at {word!r}", (ended, scene.roots()), (status, []))

    def check_stays(self, scene: Scene, words: List[str], is_before: bool) -> None:
        """The root of a command that needs it for longer stays, whether that came before the window or in it."""
        if is_before:
            scene.wq(*words)
        with scene.begin("follow") as going:
            going.says("following")
            if not is_before:
                scene.wq(*words)
            going.ends(signal.SIGINT)
        self.same(f"the root of {words} stays", scene.names("roots"), [str(scene.tree)])
        scene.wq("unwatch")

    def test_sixteen(self) -> None:
        """If 16 roots are watched, one makes room that nobody needs: the least lately asked."""
        with Scene(self.room) as scene:
            names = [str(self.room / f"r{number:02}") for number in range(20)]
            for name in names:
                os.mkdir(name)
            scene.wq("watch", names[0])
            scene.wq("since", "-n", "a", names[1])
            scene.wq("trigger", "t", names[2], "--", "true")
            with Going(scene, ["follow", names[3]]) as window:
                self.check("a window of a root", window.says("following"))
                for name in names[4:16]:
                    scene.wq("find", name, "--keep")
                scene.wq("find", names[4])
                self.same("sixteen roots are watched", scene.names("roots"), names[:16])
                words = "was asked about least lately, and is watched no longer: 16 roots may be"
                dropped = [f"{name} {words}" for name in names]
                ended = scene.wq("find", names[16])
                self.same("a search drops the least lately asked", ended, built.Ended(b"", said(dropped[5]), 1))
                scene.wq("find", names[16], "--keep")
                with Going(scene, ["follow", names[17]]) as other:
                    self.check("a window drops the next", other.says(dropped[6]))
                    self.check("and follows", other.says("following 0 files"))
                    ended = scene.wq("run", names[18], "--once", "--", "true")
                    self.same("run drops one", ended, built.Ended(b"", said(dropped[7], "true ended with status 0"), 0))
            kept = [*names[:5], *names[8:17], names[17]]
            self.same("the others stay", scene.names("roots"), kept)
            self.check_gone(scene, names)
            first = scene.wq("find", names[6]).errors.split(b"\n")[0]
            self.same("none that must stay is dropped", first, b"wq: E13: too many roots")

    def check_gone(self, scene: Scene, names: List[str]) -> None:
        """A root whose directory is gone makes room first, and one that `since` alone keeps last."""
        os.rmdir(names[9])
        scene.wq("since", names[18])
        gone = f"{names[9]} is gone, and is watched no longer: 16 roots may be"
        ended = scene.wq("since", names[19])
        self.same("since drops one", ended, built.Ended(b"", said(gone, "first since here: listing everything"), 1))
        scene.wq("watch", *(name for name in scene.names("roots") if name != names[1]))
        least = said(f"{names[1]} was asked about least lately, and is watched no longer: 16 roots may be")
        self.same("watch drops what since keeps", scene.wq("watch", names[5]).errors, least)


def is_connected(process: int) -> bool:
    """Whether a process has a stream that somebody listens to."""
    with contextlib.suppress(OSError):
        links = {os.readlink(handle) for handle in Path(f"/proc/{process}/fd").iterdir()}
        rows = [line.split() for line in Path("/proc/net/unix").read_text().splitlines()[1:]]
        return any(row[5] == CONNECTED and f"socket:[{row[6]}]" in links for row in rows)
    return False


@contextlib.contextmanager
def silent(script: str, sockname: str) -> "Iterator[subprocess.Popen[bytes]]":
    """A process that listens and answers nothing."""
    with subprocess.Popen([sys.executable, "-c", script, sockname], stdout=subprocess.PIPE) as process:
        assert process.stdout is not None
        process.stdout.readline()
        try:
            yield process
        finally:
            process.kill()
