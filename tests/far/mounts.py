"""Directories and file systems that are mounted for a test."""

import contextlib
import os
import shutil
import subprocess
import unittest
from pathlib import Path
from typing import Iterator, List

from client import PATIENCE
from waiting import wait_until

HERE = Path(__file__).resolve().parent
# What needs mounts is left out unless the script `run` found a namespace for them.
in_namespace = unittest.skipUnless("IN_NAMESPACE" in os.environ, "this machine gives no namespace for mounts")


@contextlib.contextmanager
def mounted(kind: str, place: Path, *several: str) -> Iterator[None]:
    """A file system that is mounted by the first of these options that the machine takes. Without one the test is left
    out."""
    said = b""
    for options in several:
        how = ["--bind", options] if kind == "bind" else ["-t", kind, "-o", options, "none"]
        words = ["mount", *how, str(place)]
        ended = subprocess.run(words, stdin=subprocess.DEVNULL, stdout=subprocess.PIPE, stderr=subprocess.STDOUT)
        said = ended.stdout
        if ended.returncode == 0:
            try:
                yield
            finally:
                subprocess.run(["umount", str(place)], check=True)
            return
    raise unittest.SkipTest(f"{kind}: {said.decode(errors='replace').strip()}")


def made(room: Path, *names: str) -> List[Path]:
    for name in names:
        (room / name).mkdir()
    return [room / name for name in names]


class Passing:
    """A mount of that file system. The kernel keeps what it says for so many seconds."""

    def __init__(self, program: Path, source: Path, place: Path, cached: float) -> None:
        self.place = place
        options = f"attr_timeout={cached},entry_timeout={cached},negative_timeout=0"
        command = [str(program), str(source), "-f", "-s", "-o", options, str(place)]
        self.process = subprocess.Popen(command, stdin=subprocess.DEVNULL)

    def __enter__(self) -> "Passing":
        wait_until(lambda: os.path.ismount(self.place) or self.process.poll() is not None)
        return self

    def __exit__(self, *_: object) -> None:
        subprocess.run(["umount", str(self.place)], check=True)
        self.process.wait(PATIENCE)


def compiled(room: Path) -> Path:
    """The file system that passes all on, compiled. If it cannot be, the test is left out."""
    if not os.access("/dev/fuse", os.R_OK | os.W_OK):
        raise unittest.SkipTest("there is no /dev/fuse that may be opened")
    if shutil.which("pkg-config") is None or subprocess.run(["pkg-config", "--exists", "fuse3"]).returncode != 0:
        raise unittest.SkipTest("Debian's package libfuse3-dev is not installed")
    flags = subprocess.run(["pkg-config", "--cflags", "--libs", "fuse3"], stdout=subprocess.PIPE, check=True)
    program = room / "passing"
    command = ["cc", "-O1", "-Wall", "-o", str(program), str(HERE / "passing.c"), *flags.stdout.decode().split()]
    subprocess.run(command, check=True)
    return program
