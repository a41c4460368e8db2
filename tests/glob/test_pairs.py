"""Compares `wq_glob` with a plain matcher, on all short patterns and texts and on some long ones. The program is
main.rattle, which is compiled without proof beside the crates. Each line that it prints has to be that of the file
`expected`."""

import subprocess
from itertools import zip_longest
from pathlib import Path
from typing import List

import built
from case import Case
from unproved import ENDS

HERE = Path(__file__).resolve().parent


class Pairs(Case):
    def test_pairs(self) -> None:
        expected = (HERE / "expected").read_text(encoding="utf-8").splitlines()
        for number, (line, other) in enumerate(zip_longest(expected, printed(), fillvalue=""), 1):
            self.same(f"line {number}", other, line)


def printed() -> List[str]:
    """The lines that main.rattle prints. It is compiled with optimisation, since it tries 62 million pairs."""
    command = [str(built.TOP / "bench" / "apart"), str(HERE), "quick", str(ENDS)]
    ended = subprocess.run(command, stdin=subprocess.DEVNULL, capture_output=True)
    if ended.returncode != 0:
        raise ValueError(f"status {ended.returncode}: {ended.stderr.decode(errors='replace')[-2000:]}")
    return ended.stdout.decode().splitlines()
