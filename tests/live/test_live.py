"""Tests of the shared view."""

from pathlib import Path

import unproved


class Live(unproved.Unproved):
    tests = Path(__file__).resolve().parent

    def test_all(self) -> None:
        self.check_all()
