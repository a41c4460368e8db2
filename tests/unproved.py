"""Programs of a directory here that are compiled without proof beside the crates: their tests, and their answers."""

import re
import subprocess
from pathlib import Path
from typing import Iterable, List

import built
from case import Case

# All tests end within so many seconds.
ENDS = 600


class Unproved(Case):
    """A part whose directory has such tests."""

    tests: Path

    def check_all(self) -> None:
        said = what_is_said(self.tests)
        passes = {name: how == "ok" for name, how in re.findall(r"^test (\S+) \.\.\. (.*)$", said, re.M)}
        names = names_of_tests(self.tests)
        for name in names:
            self.check(name, passes.get(name, False), [said[-2000:]])
        self.check("no other test is run", not passes.keys() - set(names), sorted(passes))


def names_of_tests(directory: Path) -> List[str]:
    """The tests of each file, such as `step::each_pass_is_seen`."""
    names: List[str] = []
    for path in sorted(directory.glob("*.rattle")):
        tests = re.findall(r"^#\[test\]\nfn (\w+)", path.read_text(encoding="utf-8"), re.M)
        names += [f"{path.stem}::{test}" for test in tests]
    return names


def what_is_said(directory: Path) -> str:
    command = [
        str(built.TOP / "bench" / "apart"),
        str(directory),
        "try",
        "--test",
        "--steps",
        "1",
        "--seconds",
        str(ENDS),
    ]
    ended = subprocess.run(command, stdin=subprocess.DEVNULL, stdout=subprocess.PIPE, stderr=subprocess.STDOUT)
    return ended.stdout.decode(errors="replace")


def answers(directory: Path, asked: Iterable[str], *words: str) -> List[str]:
    """What main.rattle of a directory answers to these lines: its own lines after `> `."""
    command = [str(built.TOP / "bench" / "apart"), str(directory), "try", *words]
    script = "".join(f"{line}\n" for line in asked).encode()
    ended = subprocess.run(command, input=script, stdout=subprocess.PIPE, stderr=subprocess.STDOUT)
    output = ended.stdout.decode(errors="replace")
    found = [line[2:] for line in output.split("\n") if line.startswith("> ")]
    if not found:
        raise ValueError(f"no answers: {output[-2000:]}")
    return found
