"""What scripts write into pages and pictures is what they write today, and no file has the marks of a merge that was
left in the middle."""

import re
from pathlib import Path
from typing import Iterator

import built
from case import Case

# Each ends with 1, and says what to run, if something is not as it writes it. tests/definitions/run has docs/crates.
CHECKS = ["docs/counts --check", "docs/figures", "docs/chain --check", "docs/ways --check", "docs/terminal/draw"]
MERGE = re.compile(rb"^(?:<{7}|[|]{7}|>{7})(?: .*)?$|^={7}$", re.M)


def marked(top: Path) -> Iterator[str]:
    """The places of the marks of merges."""
    for name in built.tracked():
        text = (top / name).read_bytes()
        yield from (f"{name}, line {text.count(bytes([10]), 0, at.start()) + 1}" for at in MERGE.finditer(text))


class Generated(Case):
    def test_scripts(self) -> None:
        for command in CHECKS:
            ended = built.call([built.TOP / command.split()[0], *command.split()[1:]])
            said = (ended.output + ended.errors).decode()
            self.check(command, ended.status == 0 and not said, said.splitlines())

    def test_merges(self) -> None:
        self.assertEqual(list(marked(built.TOP)), [])
