"""The built program, as the test scripts run it."""

import os
import subprocess
import sys
import tempfile
from itertools import zip_longest
from pathlib import Path
from typing import Any, List, NamedTuple, Optional, Sequence, Union

TOP = Path(__file__).resolve().parent.parent
DEFAULT_PROGRAM = TOP / "crates" / "wqd" / "out" / "wqd"


class Ended(NamedTuple):
    """What a run wrote, and the status that it ended with."""

    output: bytes
    errors: bytes
    status: int


def program_path() -> Path:
    """The program that the variable WQD names, or else the one that this repository builds."""
    path = Path(os.environ.get("WQD", DEFAULT_PROGRAM)).resolve()
    if not os.access(path, os.X_OK):
        sys.exit(f"there is no program at {path}: build it with ./wqd --build, or name one by the variable WQD")
    return path


def call(command: Sequence[Union[str, bytes, Path]], **options: Any) -> Ended:
    """Runs a command to its end. The options are those of `subprocess.run`."""
    ended: "subprocess.CompletedProcess[bytes]" = subprocess.run(command, capture_output=True, **options)
    return Ended(ended.stdout, ended.stderr, ended.returncode)


def run(words: Sequence[Union[str, bytes]], script: bytes = b"", program: Optional[Path] = None) -> Ended:
    """Runs the program with these words and this standard input."""
    return call([str(program or program_path()), *words], input=script)


def replay(script: bytes, program: Optional[Path] = None) -> Ended:
    return run(["replay"], script, program)


def check(file: bytes) -> Ended:
    """What the program says of a program file with these bytes."""
    with tempfile.NamedTemporaryFile() as named:
        named.write(file)
        named.flush()
        return run(["check", named.name])


def excerpt(text: bytes, length: int = 2000) -> str:
    """A text for a message: cut where it is long, with bytes that are not UTF-8 escaped."""
    cut = text if len(text) <= length else text[:length] + b" .. (%d bytes)" % len(text)
    return cut.decode("utf-8", "backslashreplace")


def first_difference(plain: bytes, ended: bytes) -> List[str]:
    """The first line in which what the plain program writes and what the built one does differ."""
    pairs = enumerate(zip_longest(plain.split(b"\n"), ended.split(b"\n"), fillvalue=b""), 1)
    for number, (one, other) in pairs:
        if one != other:
            return [f"the first difference is in line {number}", f"plain: {excerpt(one)}", f"built: {excerpt(other)}"]
    return []


def tracked() -> List[str]:
    """The files of the project, as git knows them."""
    listed = subprocess.run(["git", "-C", str(TOP), "ls-files", "-z"], stdout=subprocess.PIPE, check=True).stdout
    return [name for name in listed.decode().split("\0") if name and (TOP / name).is_file()]
