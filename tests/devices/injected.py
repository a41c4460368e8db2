"""Runs of the program in which `strace` makes calls of the system fail."""

import os
import re
import subprocess
import sys
import tempfile
from pathlib import Path
from typing import Iterator, List, NamedTuple, Tuple

import built

STRACE = ["strace", "-f", "-qq"]
# A run that fails at more calls than this does not come to an end.
MOST_CALLS = 2_000


class Fault(NamedTuple):
    """A call of the system that fails with this error, from the first of these on, each so many calls."""

    call: str
    error: str
    when: str

    def words(self) -> List[str]:
        return ["-e", f"trace={self.call}", "-e", f"inject={self.call}:error={self.error}:when={self.when}"]


def run(words: List[str], script: bytes, fault: Fault) -> Tuple[built.Ended, bool]:
    """How a run with this fault ends, and whether a call failed in it."""
    with tempfile.NamedTemporaryFile() as log:
        through = [*STRACE, "-o", log.name, *fault.words()]
        command = [*through, str(built.program_path()), *words]
        return built.call(command, input=script), b"(INJECTED)" in log.read()


def calls_before(call: str, words: List[str], script: bytes, first: str) -> int:
    """How many calls of a name come before the first one whose arguments begin so: those that load the program."""
    with tempfile.NamedTemporaryFile(mode="r+") as log:
        command = [*STRACE, "-o", log.name, "-e", f"trace={call}", str(built.program_path()), *words]
        subprocess.run(command, input=script, stdout=subprocess.DEVNULL, stderr=subprocess.DEVNULL)
        calls = [line for line in log.read().splitlines() if re.search(rf"\b{call}\(", line)]
    for number, line in enumerate(calls):
        if f"{call}({first}" in line:
            return number
    sys.exit(f"tests/devices: no {call} begins with {first}: {calls}")


def each_failing(
    call: str, error: str, words: List[str], script: bytes, first: str
) -> Iterator[Tuple[int, built.Ended]]:
    """Runs in which one call after the other fails, until a run meets none, which comes last as number 0."""
    before = calls_before(call, words, script, first)
    for number in range(1, MOST_CALLS):
        ended, failed = run(words, script, Fault(call, error, str(before + number)))
        if not failed:
            yield 0, ended
            return
        yield number, ended
    sys.exit(f"tests/devices: {call} failed {MOST_CALLS} times")


def names_in(root: Path) -> List[str]:
    """The names of all files below a directory, in their order."""
    found = []
    for above, directories, files in os.walk(root):
        found += [os.path.relpath(os.path.join(above, name), root) for name in [*directories, *files]]
    return sorted(found)
