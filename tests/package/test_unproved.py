"""./wq and ./wqd if nothing is built: the program that the kit compiles without proof, and that is kept. A script takes
the place of the kit, and starts the program as `rt try` does."""

import os
import signal
import subprocess
import sys
import time
from pathlib import Path
from typing import Dict, List

import built
from case import Case
from client import PATIENCE, Client
from clones import bare
from waiting import wait_until
from wq.compiled import how_far

KIT = """#!/bin/sh
# rt version, and rt try --seconds N -- WORD..
[ "$*" != version ] || { echo "kit ${KIT:-1}"; exit; }
echo "$@" >> "$ROOM/calls"
[ "$1 $2 $4" = "try --seconds --" ] || exit 9
shift 4
sleep "${COMPILES:-0}"
while [ -n "$WAITS" ] && [ ! -e "$ROOM/go" ]; do sleep 0.05; done
[ -z "$FAILS" ] || { echo "error: it does not compile" >&2; exit 1; }
exec "$PROGRAM" "$@"
"""
COMPILES = (
    b"nothing is built yet; the kit compiles the program without proof, in some minutes, and it is kept for " b"later\n"
)
FIRST = b"wq: " + COMPILES
NOT_PROVED = (
    b"wq: not proved, and some 40 times slower a file, since it checks each access; ./wqd --build proves and "
    b"builds it\n"
)


class Asking:
    """Calls of ./wq in a copy of the scripts in which nothing is built. At the end its server is ended."""

    def __init__(self, room: Path) -> None:
        self.top = room / "top"
        self.top.mkdir()
        bare(self.top)
        self.calls = room / "calls"
        self.runtime = room / "run"
        self.runtime.mkdir(mode=0o700)
        self.sockname = self.runtime / "wqd.sock"
        self.root = room / "root"
        self.root.mkdir()
        (self.root / "a.c").touch()
        self.files = f"{self.root}/a.c\n".encode()
        kit = room / "kit"
        kit.mkdir()
        (kit / "rt").write_text(KIT)
        (kit / "rt").chmod(0o755)
        self.environment: Dict[str, str] = {
            **os.environ,
            "PATH": f"{kit}:{os.environ['PATH']}",
            "XDG_RUNTIME_DIR": str(self.runtime),
            "ROOM": str(room),
            "PROGRAM": str(built.program_path()),
            "XDG_STATE_HOME": str(room / "state"),
            "XDG_CACHE_HOME": str(room / "cache"),
        }
        for name in ("WQD", "WQD_SOCK"):
            self.environment.pop(name, None)

    def __enter__(self) -> "Asking":
        return self

    def __exit__(self, *_: object) -> None:
        try:
            with Client(str(self.sockname)) as client:
                client.ask("shutdown-server")
        except OSError:
            pass

    def start(self, *words: str, **environment: str) -> subprocess.Popen:
        """A call, whose two streams are one, so that their order shows."""
        command = [str(self.top / "wq"), *words]
        environment = {**self.environment, **environment}
        return subprocess.Popen(
            command, stdout=subprocess.PIPE, stderr=subprocess.STDOUT, env=environment, preexec_fn=hear_interrupts
        )

    def find(self, **environment: str) -> built.Ended:
        return ended(self.start("find", str(self.root), **environment))

    def compilations(self) -> int:
        return len(self.calls.read_text().splitlines()) if self.calls.exists() else 0

    def started(self) -> bytes:
        return f"wq: started a server at {self.sockname}\n".encode()


def hear_interrupts() -> None:
    """A job in the background ignores SIGINT, and so would what it starts."""
    signal.signal(signal.SIGINT, signal.SIG_DFL)


def ended(process: subprocess.Popen) -> built.Ended:
    output, _ = process.communicate(timeout=PATIENCE)
    return built.Ended(output, b"", process.returncode)


class Unproved(Case):
    def test_unproved(self) -> None:
        """The first call compiles, and says so before it answers; the next one finds the server, and says that it is
        not proved. A call after the end of that server starts the program that was kept."""
        with Asking(self.room) as asking:
            reply = NOT_PROVED + asking.files
            first = built.Ended(FIRST + asking.started() + reply, b"", 0)
            self.same("a first call", asking.find(), first)
            words = asking.calls.read_text().split()
            self.same("how the kit is called", words[:2] + words[3:5], ["try", "--seconds", "--", "serve"])
            self.same("a second call", (asking.find(), asking.compilations()), (built.Ended(reply, b"", 0), 1))
            self.same("no root is left", ended(asking.start("roots")), built.Ended(NOT_PROVED, b"", 1))
            gone = NOT_PROVED + f"wq: the server at {asking.sockname} has ended\n".encode()
            self.same("the end of the server", ended(asking.start("stop")), built.Ended(gone, b"", 0))
            again = built.Ended(asking.started() + reply, b"", 0)
            self.same("a call after the end", (asking.find(), asking.compilations()), (again, 1))
            proved = subprocess.run([str(asking.top / "wqd"), "serve"], stderr=subprocess.PIPE, env=asking.environment)
            self.same("wqd beside it", (proved.returncode, b"not built" in proved.stderr), (1, True))

    def test_kept(self) -> None:
        """A program is kept for its sources and its kit, and three are kept at most. `./wqd replay` and `./wqd check`
        take it too."""
        with Asking(self.room) as asking:
            unproved = b"wqd: not proved, and slow, since it checks each access; ./wqd --build proves and builds it\n"
            compiles = b"wqd: " + COMPILES
            reply = b'1 {"clock":"c:7:9:1:0","version":"wq-1"}\n'

            def replayed(script: bytes, *words: str, **values: str) -> built.Ended:
                return built.call([str(asking.top / "wqd"), *words], input=script, env={**asking.environment, **values})

            script = b'ask 1 ["clock","/r"]\n'
            self.same("a first replay", replayed(script, "replay"), built.Ended(reply, compiles + unproved, 0))
            self.same("a second one", replayed(script, "replay"), built.Ended(reply, unproved, 0))
            missing = replayed(b"", "check", str(self.room / "missing"))
            self.same("check", (missing.status, missing.errors.startswith(unproved)), (1, True))
            self.same("one compilation", asking.compilations(), 1)
            self.same(
                "./wq after that", asking.find(), built.Ended(asking.started() + NOT_PROVED + asking.files, b"", 0)
            )
            source = asking.top / "crates" / "wqd" / "src" / "main.rt"
            source.write_text("fn main() { }\n")
            self.same("other sources", replayed(script, "replay"), built.Ended(reply, compiles + unproved, 0))
            for kit in ("2", "3"):
                self.same(f"kit {kit}", replayed(script, "replay", KIT=kit), built.Ended(reply, compiles + unproved, 0))
            self.same("what is kept", len(list((self.room / "cache" / "wqd" / "programs").glob("*/wqd"))), 3)
            self.same("kept still", replayed(script, "replay", KIT="2"), built.Ended(reply, unproved, 0))
            self.same("the server goes on", asking.find(), built.Ended(NOT_PROVED + asking.files, b"", 0))

    def test_how_far(self) -> None:
        """What a person hears while the kit compiles: by the clock, of the processor, and how much of that it needs."""
        for (took, used, needs), left in (
            ((15, 15, 200), "about 3 minutes left"),
            ((15, 5, 65), "about 3 minutes left"),
            ((90, 80, 120), "about 45 s left"),
            ((90, 120, 120), "nearly done"),
            ((300, 250, 200), "nearly done"),
            ((15, 0, 6), "about 2 minutes left"),
        ):
            self.same(f"{used} of {needs} s", how_far(took, used, needs), f"compiling for {took} s so far, {left}")

    def test_turns(self) -> None:
        """Of calls at once one compiles, and the others wait for it."""
        with Asking(self.room) as asking:
            calls = [asking.start("find", str(asking.root), "--keep", COMPILES="1") for _ in range(3)]
            done: List[bytes] = sorted((ended(call).output for call in calls), key=len)
            reply = NOT_PROVED + asking.files
            expected = [reply] * 2 + [FIRST + asking.started() + reply]
            self.same("calls at once", (done, asking.compilations()), (expected, 1))

    def test_compilation(self) -> None:
        """A compilation that fails, that is interrupted, and for which there is no kit; a directory that others may
        enter."""
        with Asking(self.room) as asking:
            log = self.room / "cache" / "wqd" / "programs" / "log"
            words = (
                "wq: the server did not start: the program could not be compiled: error: it does not compile "
                f"(all of it is in {log})\n"
            )
            self.same("a compilation that fails", asking.find(FAILS="1"), built.Ended(FIRST + words.encode(), b"", 3))
            log.parent.chmod(0o777)
            words = f"wq: the server did not start: {log.parent}: it is no directory that you alone write to\n"
            self.same("programs that others may put there", asking.find(), built.Ended(words.encode(), b"", 3))
            log.parent.chmod(0o700)
            for number, status in ((signal.SIGTERM, 143), (signal.SIGINT, 130)):
                before = asking.compilations()
                call = asking.start("find", WAITS="1")
                wait_until(lambda: asking.compilations() > before)
                call.send_signal(number)
                self.same(f"{number.name} to a call that compiles", ended(call).status, status)
                (self.room / "go").touch()
                time.sleep(0.6)
                self.same("its server", asking.sockname.exists(), False)
                (self.room / "go").unlink()
            missing = asking.find(PATH=f"{Path(os.path.realpath('/bin/sh')).parent}:{python_directory()}")
            words = (
                "wq: the server did not start: nothing is built, and the Rattle kit is missing: its command rt is not "
                f"on the PATH\nwq: a release has the program: put that at {asking.top}/release/wqd, or name it by the "
                "variable WQD\n"
            )
            self.same("no kit", missing, built.Ended(words.encode(), b"", 3))
            own = self.room / f"wqd-{os.getuid()}"
            own.mkdir(mode=0o755)
            says = f"wq: {own}: it is no directory of yours alone\n".encode()
            refused = asking.find(XDG_RUNTIME_DIR="", TMPDIR=str(self.room))
            self.same("a directory of others", refused, built.Ended(says, b"", 3))

    def test_built_meanwhile(self) -> None:
        """A server of a built program is not said to be without proof. One that is there goes on until it is ended."""
        with Asking(self.room) as asking:
            asking.find()
            program = asking.top / "crates" / "wqd" / "out" / "wqd"
            program.parent.mkdir()
            program.write_text(f'#!/bin/sh\nexec "{built.program_path()}" "$@"\n')
            program.chmod(0o755)
            self.same("the server of before", asking.find(), built.Ended(NOT_PROVED + asking.files, b"", 0))
            ended(asking.start("stop"))
            self.same("a built program", asking.find(), built.Ended(asking.started() + asking.files, b"", 0))
            self.same("how it is started", asking.compilations(), 1)


def python_directory() -> str:
    return os.path.dirname(os.path.realpath(sys.executable))
