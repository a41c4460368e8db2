"""What the tests of all parts begin with."""

import os
import shutil
import tempfile
import traceback
import unittest
from pathlib import Path
from typing import Any, Callable, Iterable, List

# Traces of failures leave out the lines of this module.
__unittest = True
# A value that is written in more columns is shown by its differences too.
MOST_COLUMNS = 100


def is_chosen(row: str) -> bool:
    """Whether a row of a table is to be looked at: all are, or those with the word of `--row` in their names."""
    return os.environ.get("ROW", "") in row


def place() -> str:
    """The line of the test that calls the function here which calls this one."""
    frame = traceback.extract_stack(limit=3)[0]
    return f"{frame.filename}, line {frame.lineno}"


def needs(*commands: str) -> Callable[[Any], Any]:
    """Leaves out a test, or a class of tests, if one of these commands is not installed."""
    missing = [command for command in commands if shutil.which(command) is None]
    return unittest.skipIf(missing, f"not installed: {', '.join(missing)}")


class Case(unittest.TestCase):
    """Tests that go on after a check that failed. Each has a directory of its own."""

    def setUp(self) -> None:
        directory = tempfile.TemporaryDirectory()
        self.addCleanup(directory.cleanup)
        self.room = Path(directory.name).resolve()

    def directory(self, name: str) -> Path:
        """Makes a directory in the room."""
        made = self.room / name
        made.mkdir()
        return made

    def check(self, name: str, is_right: object, details: Iterable[str] = ()) -> None:
        if not is_chosen(name):
            return
        with self.subTest(name):
            if not is_right:
                self.fail("\n".join([place(), *details]))

    def same(self, name: str, found: object, expected: object) -> None:
        if not is_chosen(name):
            return
        with self.subTest(name):
            if found != expected:
                self.fail("\n".join([place(), *self.differences(found, expected)]))

    def differences(self, found: object, expected: object) -> List[str]:
        """What was found and what was expected, a line each. Long ones have their differences below."""
        lines = [f"found:    {found!r}", f"expected: {expected!r}"]
        if max(map(len, lines)) <= MOST_COLUMNS:
            return lines
        try:
            self.assertEqual(found, expected)
        except AssertionError as error:
            return [*lines, "differences, - found, + expected:", str(error)]
        return lines

    def check_installed(self, command: str) -> None:
        self.check(f"{command} is there", shutil.which(command))


class Beside(Case):
    """Tests that wait most of their time. Each runs in a process of its own, beside others."""


class Timed(Case):
    """Tests that measure times. A machine that does other things can make one late, so such a test runs up to so many
    times, until all of it holds. Each run that failed is printed."""

    TRIES = 3

    def run(self, result: Any = None) -> Any:
        if result is None or not hasattr(result, "again"):
            return super().run(result)
        for left in reversed(range(self.TRIES)):
            tried = result.again()
            super().run(tried)
            if not tried.failed or not left:
                break
            result.tell_again(self, tried)
        result.take(tried)
        return result
