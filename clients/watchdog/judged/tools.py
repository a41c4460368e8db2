"""Real tools of Debian that run until they are ended, with lines of output that are waited for."""

import os
import select
import shutil
import socket
import subprocess
import time
from pathlib import Path
from typing import Dict, List, Optional, Sequence

PACKAGE = Path(__file__).resolve().parents[1] / "wqd_watchdog"
PYTHON = "/usr/bin/python3"
MKDOCS, WATCHMEDO, STRACE = "/usr/bin/mkdocs", "/usr/bin/watchmedo", "strace"
PATIENCE = 60.0
# The calls that ask a file system, of the server and of Python.
CALLS = "statx,newfstatat,openat,getdents64"
DETECTED, REBUILT, READY = "Detected file changes", "Reloading browsers", "Serving on"


def is_there(command: str) -> bool:
    return shutil.which(command) is not None


def delayed(microseconds: int) -> List[str]:
    """The words before a command whose every call to a file system takes longer."""
    calls = ["-e", f"trace={CALLS}", "-e", f"inject={CALLS}:delay_enter={microseconds}"]
    return [STRACE, "-f", "-D", "-qq", "--seccomp-bpf", "-o", "/dev/null", *calls]


def served(command: str) -> List[str]:
    """The words that run a command with the observer of wqd."""
    return [PYTHON, str(PACKAGE), command]


class Tool:
    """A tool that runs, and what it wrote so far."""

    def __init__(self, command: Sequence[str], directory: Path, environment: Optional[Dict[str, str]] = None) -> None:
        settings = {**os.environ, "PYTHONUNBUFFERED": "1", **(environment or {})}
        self.process = subprocess.Popen(
            command,
            cwd=directory,
            stdin=subprocess.DEVNULL,
            stdout=subprocess.PIPE,
            stderr=subprocess.STDOUT,
            env=settings,
        )
        self.said = ""

    def __enter__(self) -> "Tool":
        return self

    def __exit__(self, *_: object) -> None:
        self.process.kill()
        self.process.wait()
        assert self.process.stdout
        self.process.stdout.close()

    def reads(self, seconds: float) -> bool:
        """Reads what it writes next, and says whether something came in time."""
        assert self.process.stdout
        if not select.select([self.process.stdout], [], [], seconds)[0]:
            return False
        data = os.read(self.process.stdout.fileno(), 65_536)
        self.said += data.decode(errors="replace")
        return bool(data)

    def waits_for(self, text: str, count: int = 1, patience: float = PATIENCE) -> float:
        """The seconds until it has said a text so many times."""
        began = time.monotonic()
        while self.said.count(text) < count:
            left = began + patience - time.monotonic()
            if left <= 0 or not self.reads(left):
                raise ValueError(f"{self.process.args!r} did not say {text!r} {count} times: {self.said[-2000:]}")
        return time.monotonic() - began

    def rests(self, seconds: float) -> str:
        """The lines that it says for some seconds."""
        before, end = len(self.said), time.monotonic() + seconds
        while time.monotonic() < end and self.reads(max(0.0, end - time.monotonic())):
            pass
        return self.said[before:]


def free_port() -> int:
    with socket.socket() as free:
        free.bind(("127.0.0.1", 0))
        return int(free.getsockname()[1])


def make_project(project: Path, sources: int) -> Path:
    """A project of mkdocs with three pages and a small theme, which also watches sources, as those from which pages are
    made. Gives one of them."""
    (project / "docs").mkdir(parents=True)
    for name in ("index", "one", "two"):
        (project / "docs" / f"{name}.md").write_text(f"# {name}\n")
    (project / "theme").mkdir()
    (project / "theme" / "main.html").write_text("<html><body>{{ page.content }}</body></html>")
    (project / "mkdocs.yml").write_text("site_name: tried\ntheme: {name: null, custom_dir: theme}\nwatch: [src]\n")
    for number in range(sources):
        directory = project / "src" / f"d{number // 20}"
        directory.mkdir(parents=True, exist_ok=True)
        (directory / f"f{number}.py").write_text("pass\n")
    return project / "src" / "d0" / "f0.py"


def mkdocs_words() -> List[str]:
    return ["serve", "--dev-addr", f"127.0.0.1:{free_port()}"]
