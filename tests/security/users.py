"""Another user of the machine, whose processes the superuser can start."""

import contextlib
import json
import os
import signal
import socket
import traceback
import unittest
from pathlib import Path
from typing import Callable, Iterator

of_two_users = unittest.skipUnless(os.getuid() == 0, "only the superuser can be two users")
# No account has this number on most machines, and none needs it.
OTHER = 61_002


@contextlib.contextmanager
def other(function: Callable[..., None], *words: object) -> Iterator[int]:
    """A process of the other user, which does something until it is ended."""
    number = os.fork()
    if number == 0:
        try:
            os.setpgid(0, 0)
            become_other()
            function(*words)
        except BaseException:
            traceback.print_exc()
        os._exit(1)
    try:
        yield number
    finally:
        # What it started goes with it.
        with contextlib.suppress(ProcessLookupError):
            os.killpg(number, signal.SIGKILL)
        os.kill(number, signal.SIGKILL)
        os.waitpid(number, 0)


def become_other() -> None:
    os.setgroups([])
    os.setresgid(OTHER, OTHER, OTHER)
    os.setresuid(OTHER, OTHER, OTHER)


def for_all(room: Path, mode: int = 0o1777) -> Path:
    """A directory below a room into which all users write, as /tmp."""
    room.chmod(0o755)
    path = room / "all"
    path.mkdir()
    path.chmod(mode)
    return path


def given(path: Path) -> Path:
    """A directory that the other user made."""
    path.mkdir()
    os.chown(str(path), OTHER, OTHER)
    return path


# A server that says that nothing changed, but for a file that it made up.
FORGED = {"clock": "c:1:2:3:4", "files": ["planted.c"], "is_fresh_instance": False, "roots": [], "version": "wq-1"}


def serve(path: str, reply: bytes = json.dumps(FORGED).encode() + b"\n", *renames: str) -> None:
    """Answers each line at a socket to which all may connect."""
    with contextlib.suppress(FileNotFoundError):
        os.unlink(path)
    listener = socket.socket(socket.AF_UNIX)
    listener.bind(path)
    os.chmod(path, 0o777)
    listener.listen(64)
    while True:
        stream, _ = listener.accept()
        with contextlib.suppress(OSError), stream:
            stream.settimeout(1)
            while stream.recv(65_536):
                stream.sendall(reply)


def memory_of(process: int) -> int:
    """The most memory that a process had so far, in mebibytes."""
    lines = Path(f"/proc/{process}/status").read_text().splitlines()
    return next(int(line.split()[1]) for line in lines if line.startswith("VmHWM:")) // 1024
