"""How one enters the tests: the words of ./test, and what tests/README.md shows of one test."""

import os
import re
import shutil
import sys
from typing import Dict, List

import built
from case import Case

README = (built.TOP / "tests" / "README.md").read_text(encoding="utf-8")
HELP, WRONG = 0, 2
# Tests of which one holds at its third run, and the other never.
TIMED = """
from case import Timed

class Late(Timed):
    runs = 0
    def test_late(self) -> None:
        Late.runs += 1
        self.same("first", 1, 1)
        self.same("third", Late.runs, 3)

class Wrong(Timed):
    def test_wrong(self) -> None:
        self.same("right", 1, 1)
        self.same("wrong", 1, 2)
"""


def gate(*words: str, **variables: str) -> built.Ended:
    environment = {name: value for name, value in os.environ.items() if name != "ROW"}
    return built.call([built.TOP / "test", *words], env={**environment, **variables})


class Gate(Case):
    def test_help(self) -> None:
        """It says which words there are, and starts nothing, whether there is a kit or not."""
        for word in ("--help", "-h"):
            ended = gate(word, PATH="/usr/bin:/bin")
            self.same(f"{word} ends", (ended.status, ended.errors), (HELP, b""))
            self.check(f"{word} says how", ended.output.startswith(b"usage: ./test [PART..] [-k WORD]"))
            self.check(f"{word} starts nothing", b"passed" not in ended.output.replace(b"`N passed", b""))

    def test_wrong_words(self) -> None:
        for words, message in (
            (["nothing"], "there is no part nothing; there are: adapters_node "),
            (["--frob"], "there is no option --frob; "),
            (["-k"], "-k takes a word; "),
            (["--program", "/nothing"], "there is no program at /nothing\n"),
        ):
            ended = gate(*words)
            self.same(f"{words} ends", (ended.status, ended.output), (WRONG, b""))
            self.check(f"{words} is named", ended.errors.decode().startswith(f"test: {message}"), [str(ended.errors)])

    def test_parts(self) -> None:
        """Parts that are named run alone, by either of their names. Tests are taken by a word."""
        for name in ("refusals", "tests/refusals", "tests/refusals/run"):
            ended = gate(name, "-k", "word_that_no_test_has")
            lines = ended.output.decode().splitlines()
            self.same(
                f"{name} runs alone", [line for line in lines if line.startswith("== tests")], ["== tests/refusals/run"]
            )
            self.same(f"{name} has no such test", (lines[-1], ended.status), ("0 passed, 0 failed", 1))
            self.check(f"{name} does not say OK", "OK" not in lines and "test: nothing was run" in lines)

    def test_a_program(self) -> None:
        """What needs the kit is left out of a run over a program, and named."""
        ended = gate("--program", "/bin/true", "-k", "word_that_no_test_has", "sessions", "calls", "plain", "refusals")
        said = ended.output.decode()
        for line in ("sessions needs the kit", "calls needs the kit", "plain has no tests with names"):
            self.check(line, f"left out: {line}\n" in said, [said])
        self.check("rt ci does not run", "rt ci" not in said)


class Shown(Case):
    def test_readme(self) -> None:
        """The commands that tests/README.md shows write what stands below them, with other lines between."""
        part = self.room / "tests" / "python"
        part.mkdir(parents=True)
        shutil.copy(built.TOP / "tests" / "python" / "run", part)
        (part.parent / "runner.py").symlink_to(built.TOP / "tests" / "runner.py")
        shown = commands_in(README)
        self.check("there are some", len(shown) >= 4)
        environment = {name: value for name, value in os.environ.items() if name != "ROW"}
        for command, expected in shown.items():
            ended = built.call(["sh", "-c", command], cwd=self.room, env=environment)
            lines = (ended.output + ended.errors).decode().splitlines()
            self.same(command, [line for line in lines if line in expected], expected)

    def test_timed(self) -> None:
        """A test of times runs again until all of it holds, up to three times, and says so. Its last run counts."""
        part = self.room / "tests" / "timed"
        part.mkdir(parents=True)
        (part / "test_mine.py").write_text(TIMED)
        for name, status, count, told in (("Late", 0, "2 passed, 0 failed", 2), ("Wrong", 1, "1 passed, 1 failed", 2)):
            runner = [sys.executable, "-B", str(built.TOP / "tests" / "runner.py")]
            ended = built.call([*runner, str(part / "run"), f"test_mine.{name}"], cwd=self.room)
            lines = ended.output.decode().splitlines()
            self.same(f"{name} counts", (ended.status, lines[-1]), (status, count))
            self.same(f"{name} is printed", sum("once more: test_mine." in line for line in lines), told)


def commands_in(page: str) -> Dict[str, List[str]]:
    """The commands of the indented blocks of a page, and the lines below each."""
    block = "\n".join(line[4:] for line in page.splitlines() if line.startswith("    ") or not line)
    found: Dict[str, List[str]] = {}
    for part in re.split(r"^\$ ", block, flags=re.M)[1:]:
        head, _, rest = part.partition("\n")
        if "<< 'END'" in head:
            text, _, rest = rest.partition("\nEND")
            head = f"{head}\n{text}\nEND\n"
        found[head] = [line for line in rest.split("\n\n")[0].splitlines() if line]
    return found
