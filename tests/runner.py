"""Runs the tests of a part of the gate, for the part's script `run`:

    tests/PART/run [-k WORD] [--row WORD] [-v] [-f] [NAME..]

runs all tests of the part, or those with WORD in their names, or the modules, classes and tests of these names, such as
`test_answers.Answers.test_ask`. The words are those of `python3 -m unittest`. With `--row` only the rows of tables
count that have its word in their names. What failed is printed with its name and trace. The last line,
`N passed, M failed`, counts sub-tests, and tests without one."""

import os
import re
import subprocess
import sys
import unittest
from concurrent.futures import ThreadPoolExecutor
from pathlib import Path
from typing import Any, Iterator, List, Sequence

TESTS = Path(__file__).resolve().parent
# A part uses modules of these parts too.
SHARED = ("server", "plain", "check", "protocol", "wq", "bridge")
CLIENTS = TESTS.parent / "clients"
DIRECTORIES = (TESTS, *(TESTS / name for name in SHARED), CLIENTS, CLIENTS / "watchdog", TESTS.parent / "contrib")
sys.path[:0] = [str(directory) for directory in DIRECTORIES]

from case import Beside

# So many tests run beside the others; most of their time they wait.
AT_ONCE = 4
LAST_LINES = re.compile(r"^-{70}\nRan .*\n\n.*\n+(\d+) passed, (\d+) failed\n\Z", re.M)


class Result(unittest.TextTestResult):
    """Counts each sub-test, and each test without one."""

    def __init__(self, *words: Any, **named: Any) -> None:
        super().__init__(*words, **named)
        self.passed = 0
        self.failed_beside = 0
        self.has_parts = False

    @property
    def failed(self) -> int:
        return len(self.failures) + len(self.errors) + len(self.unexpectedSuccesses) + self.failed_beside

    def wasSuccessful(self) -> bool:
        return self.failed == 0 and self.testsRun > 0

    def startTest(self, test: unittest.TestCase) -> None:
        super().startTest(test)
        self.has_parts = False

    def addSubTest(self, test: unittest.TestCase, subtest: unittest.TestCase, err: Any) -> None:
        super().addSubTest(test, subtest, err)
        self.has_parts = True
        self.passed += err is None

    def addSuccess(self, test: unittest.TestCase) -> None:
        super().addSuccess(test)
        self.passed += not self.has_parts and "ROW" not in os.environ

    def addSkip(self, test: unittest.TestCase, reason: str) -> None:
        super().addSkip(test, reason)
        self.stream.write(f"left out: {test.id()}: {reason}\n")

    def again(self) -> "Result":
        """An empty one, for one run of a test that may run again."""
        made = Result(self.stream, self.descriptions, 0)
        made.failfast = self.failfast
        return made

    def tell_again(self, test: unittest.TestCase, tried: "Result") -> None:
        """Says what failed in a run of a test that runs again."""
        for failed, trace in (*tried.failures, *tried.errors):
            self.stream.write(f"once more: {failed.id()}: {trace.strip().splitlines()[-1]}\n")

    def take(self, tried: "Result") -> None:
        """Counts the last run of a test that may run again."""
        self.failures += tried.failures
        self.errors += tried.errors
        self.skipped += tried.skipped
        self.unexpectedSuccesses += tried.unexpectedSuccesses
        self.passed += tried.passed
        self.testsRun += tried.testsRun
        self.shouldStop = self.shouldStop or tried.shouldStop

    def add_output(self, name: str, output: str) -> None:
        """Counts what a test counted that ran in a process of its own, and prints what it said."""
        last = LAST_LINES.search(output)
        self.stream.write(output[: last.start()] if last else f"{output}failed: {name} counted nothing\n")
        self.passed += int(last[1]) if last else 0
        self.failed_beside += int(last[2]) if last else 1


class AtOnce(unittest.TestSuite):
    """Tests that run in processes of their own, beside those of another suite."""

    def __init__(self, tests: Sequence[unittest.TestCase], others: unittest.TestSuite) -> None:
        super().__init__([*others, *tests])
        self.names = [test.id() for test in tests]
        self.others = others

    def run(self, result: Any, debug: bool = False) -> Any:
        with ThreadPoolExecutor(AT_ONCE) as pool:
            outputs = pool.map(output_of, self.names)
            self.others.run(result, debug)
            for name, output in zip(self.names, outputs):
                result.add_output(name, output)
        result.testsRun += len(self.names)
        return result


def output_of(name: str) -> str:
    """What a test prints in a process of its own."""
    flags = [f"-{'I' * sys.flags.isolated}B"]
    command = [sys.executable, *flags, __file__, sys.argv[1], name]
    ended = subprocess.run(command, stdout=subprocess.PIPE, stderr=subprocess.STDOUT)
    return ended.stdout.decode("utf-8", "backslashreplace")


def tests_of(suite: unittest.TestSuite) -> Iterator[unittest.TestCase]:
    for test in suite:
        if isinstance(test, unittest.TestSuite):
            yield from tests_of(test)
        else:
            yield test


class Runner(unittest.TextTestRunner):
    resultclass = Result

    def __init__(self, verbosity: int = 1, **words: Any) -> None:
        """It prints no dots, and names each test only if -v asks for that."""
        super().__init__(sys.stdout, verbosity=0 if verbosity == 1 else verbosity, **words)


class Program(unittest.TestProgram):
    """The program of unittest, which finds the tests of the part."""

    test: unittest.TestSuite

    def createTests(self, from_discovery: bool = False, Loader: Any = None) -> None:
        self.start = sys.path[0]
        super().createTests(from_discovery, Loader)
        tests = list(tests_of(self.test))
        beside = [test for test in tests if isinstance(test, Beside)]
        if len(tests) > 1 and beside:
            self.test = AtOnce(beside, unittest.TestSuite(test for test in tests if test not in beside))


def take_row(words: List[str]) -> List[str]:
    """The words without `--row WORD`, which the tests here and those beside them find in the environment."""
    if "--row" not in words[:-1]:
        return words
    place = words.index("--row")
    os.environ["ROW"] = words[place + 1]
    return words[:place] + words[place + 2 :]


def main() -> None:
    os.environ["PYTHONDONTWRITEBYTECODE"] = "1"
    sys.path.insert(0, str(Path(sys.argv[1]).resolve().parent))
    end(Program(None, argv=take_row(sys.argv[1:]), testRunner=Runner, exit=False, warnings="ignore").result)


def end(result: Any) -> None:
    """Prints the last line, and ends with the status that it says."""
    if not result.passed and not result.failed and not result.skipped:
        print("no test and no row has such a name")
    print(f"{result.passed} passed, {result.failed} failed")
    sys.exit(1 if result.failed or not result.passed else 0)


if __name__ == "__main__":
    main()
