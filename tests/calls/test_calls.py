"""Tests of calls of the libraries."""

from pathlib import Path

import unproved


class Calls(unproved.Unproved):
    tests = Path(__file__).resolve().parent

    def test_all(self) -> None:
        self.check_all()
