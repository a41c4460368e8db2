"""The commands that a page shows after `$ `, each with what it writes, and a directory in which they are run. In an
output `..` stands for any text within a line, and for any lines if it is a line by itself."""

import re
import subprocess
from pathlib import Path
from typing import Dict, List, NamedTuple, Sequence

from waiting import PATIENCE

PROMPT = "$ "


class Command(NamedTuple):
    """A command, and what the page says that it writes."""

    line: str
    output: List[str]


def commands_of(lines: List[str]) -> List[Command]:
    starts = [place for place, line in enumerate(lines) if line.startswith(PROMPT)]
    if starts[:1] != [0]:
        raise ValueError(f"a session begins with a command: {lines[:1]}")
    ends = [*starts[1:], len(lines)]
    return [Command(lines[start][len(PROMPT) :], lines[start + 1 : end]) for start, end in zip(starts, ends)]


def is_as_shown(written: str, expected: List[str]) -> bool:
    return re.fullmatch("".join(pattern_of(line) for line in expected), written) is not None


def pattern_of(line: str) -> str:
    if line == "..":
        return r"(?:[^\n]*\n)*?"
    return "[^\n]*".join(re.escape(part) for part in line.split("..")) + "\n"


class Shell:
    """A directory with commands of its own, of which each has the words that it runs."""

    def __init__(self, room: Path, directory: Path, environment: Dict[str, str], **commands: Sequence[str]) -> None:
        self.note, bin_ = room / "directory", room / "bin"
        self.directory = directory
        self.environment = {**environment, "PATH": f"{bin_}:{environment['PATH']}"}
        bin_.mkdir()
        for name, words in commands.items():
            command = bin_ / name
            command.write_text("#!/bin/sh\nexec " + " ".join(f"'{word}'" for word in words) + ' "$@"\n')
            command.chmod(0o755)

    def do(self, line: str, **variables: str) -> str:
        """The output of a command, standard output and standard error. A `cd` in it holds for the commands after it."""
        words = ["sh", "-c", f'{line}\nstatus=$?\npwd > "$0"\nexit $status', str(self.note)]
        ended = subprocess.run(
            words,
            cwd=self.directory,
            env={**self.environment, **variables},
            stdin=subprocess.DEVNULL,
            stdout=subprocess.PIPE,
            stderr=subprocess.STDOUT,
            timeout=PATIENCE,
        )
        self.directory = Path(self.note.read_text().rstrip("\n")) if self.note.exists() else self.directory
        return ended.stdout.decode("utf-8", "backslashreplace")

    def write(self, name: str, lines: List[str]) -> None:
        (self.directory / name).write_text("".join(f"{line}\n" for line in lines), encoding="utf-8")
