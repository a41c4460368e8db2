"""A directory for one client: a project, a PATH on which `watchman` is that of wqd, and a server of its own."""

import contextlib
import ctypes
import json
import os
import signal
import subprocess
import sys
import time
from pathlib import Path
from typing import Callable, Dict, Iterator, List, NamedTuple, Optional

from tried.packages import PYTHON, Packages
from waiting import wait_until
from wq.processes import state_of

TOP = Path(__file__).resolve().parent.parent.parent
COMMAND = TOP / "clients" / "watchman"
HERE = Path(__file__).resolve().parent
PATIENCE = 60.0
PAUSE = 0.05
# A place of a session that is over may still be taken.
ATTEMPTS = 100
# By linux/prctl.h.
SET_CHILD_SUBREAPER = 36


class Outcome(NamedTuple):
    """The task of a client, and the reason if it failed; none if it did not."""

    done: str
    fault: Optional[str]


class Running:
    """A client that runs, and writes lines."""

    def __init__(self, process: subprocess.Popen, log: Path) -> None:
        self.process = process
        self.log = log

    def lines(self) -> List[str]:
        return self.log.read_text(errors="replace").splitlines()

    def waits_for(self, is_right: Callable[[List[str]], object], seconds: float = PATIENCE) -> bool:
        """Whether its lines become right in time."""
        wait_until(lambda: is_right(self.lines()) or self.process.poll() is not None, seconds)
        return bool(is_right(self.lines()))

    def end(self) -> None:
        self.process.terminate()
        self.process.wait()


class Room:
    """The directory, in which clients run."""

    def __init__(self, path: Path, packages: Packages, interval: int = 200) -> None:
        self.path = path
        self.packages = packages
        self.project = path / "project"
        self.project.mkdir()
        bin_, state = path / "bin", path / "state"
        bin_.mkdir()
        state.mkdir(mode=0o700)
        (bin_ / "watchman").symlink_to(COMMAND)
        self.environment: Dict[str, str] = {
            **os.environ,
            "PATH": f"{bin_}:/usr/bin:/bin:/usr/sbin:/sbin",
            "XDG_RUNTIME_DIR": str(state),
            "HOME": str(path),
            "WQD_INTERVAL": str(interval),
            "PYTHONDONTWRITEBYTECODE": "1",
            "GIT_CONFIG_NOSYSTEM": "1",
        }
        for name in ("WATCHMAN_SOCK", "WQD_SOCK"):
            self.environment.pop(name, None)

    def __enter__(self) -> "Room":
        return self

    def __exit__(self, *_: object) -> None:
        for _ in range(ATTEMPTS):
            said = self.run(["watchman", "--no-pretty", "--no-spawn", "--no-local", "shutdown-server"])
            if said.returncode != 0 or '"shutdown-server":true' in said.stdout:
                return
            time.sleep(PAUSE)
        print(f"clients/run: the server of {self.path} does not end: {said.stdout}{said.stderr}", file=sys.stderr)

    def run(self, command: List[str], text: str = "", at: Optional[Path] = None) -> "subprocess.CompletedProcess[str]":
        return subprocess.run(
            self.packages.words(command),
            input=text,
            capture_output=True,
            env=self.environment,
            cwd=at or self.project,
            timeout=PATIENCE * 5,
            encoding="utf-8",
            errors="replace",
        )

    def begin(self, command: List[str], name: str) -> Running:
        log = self.path / f"{name}.log"
        with open(log, "wb") as file:
            process = subprocess.Popen(
                self.packages.words(command),
                stdin=subprocess.DEVNULL,
                stdout=file,
                stderr=file,
                env=self.environment,
                cwd=self.project,
            )
        return Running(process, log)

    def watchman(self, *words: str, text: str = "") -> Dict[str, object]:
        """The output of the command of wqd."""
        said = self.run(["watchman", "--no-pretty", *words], text)
        if said.returncode != 0:
            raise ValueError(f"watchman {' '.join(words)}: {said.stderr}")
        reply: Dict[str, object] = json.loads(said.stdout)
        return reply

    def end_server(self) -> None:
        """Ends the server, and the bridge with it."""
        self.run(["watchman", "--no-spawn", "shutdown-server"])

    def kill_server(self) -> None:
        kill(int(str(self.watchman("get-pid")["pid"])))

    def kill_bridge(self) -> None:
        """The number of the bridge is the first word of its lock."""
        kill(int(Path(f"{self.sockname()}.lock").read_text().split()[0]))

    def sockname(self) -> str:
        return str(self.watchman("get-sockname")["sockname"])

    def python(self, script: str, *words: str) -> "subprocess.CompletedProcess[str]":
        return self.run([PYTHON, str(HERE / script), *words])

    def put(self, name: str, text: str = "x\n") -> Path:
        """Writes a file of the project at once, so that nobody sees a half of it."""
        path = self.project / name
        path.parent.mkdir(parents=True, exist_ok=True)
        aside = self.path / "aside"
        aside.write_text(text)
        aside.rename(path)
        return path


def kill(process: int) -> None:
    """Kills a process, and waits until it has ended; it may stay in the system's table after that."""
    os.kill(process, signal.SIGKILL)
    wait_until(lambda: state_of(process) in ("", "Z"), PATIENCE)


@contextlib.contextmanager
def unreaped() -> Iterator[None]:
    """Processes that clients leave behind come to this one meanwhile, which does not look at them: those that end stay
    in the system's table, as in a container whose first process does not look either."""
    system = ctypes.CDLL(None)
    system.prctl(SET_CHILD_SUBREAPER, 1)
    try:
        yield
    finally:
        system.prctl(SET_CHILD_SUBREAPER, 0)


def outcome(done: str, found: object, expected: object) -> Outcome:
    return Outcome(done, None if found == expected else f"found {found} and not {expected}")
