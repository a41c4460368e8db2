"""Asks main.rattle for each case of `cases`, and compares its answer with that of `expected`. What calls the crates is
compiled without proof beside them."""

from itertools import zip_longest
from pathlib import Path
from typing import List

from case import Case
from unproved import ENDS, answers

HERE = Path(__file__).resolve().parent


class Calls(Case):
    def test_cases(self) -> None:
        expected = lines_of("expected")
        found = answers(HERE, lines_of("cases"), "--steps", "1", "--seconds", str(ENDS))
        for line, other in zip_longest(expected, found, fillvalue=""):
            self.same(line or other, other, line)


def lines_of(name: str) -> List[str]:
    """The lines of a file that are no remarks and not empty."""
    lines = (HERE / name).read_text(encoding="utf-8").split("\n")
    return [line for line in lines if line and not line.startswith("#")]
