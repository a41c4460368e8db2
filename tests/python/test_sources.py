"""The modules and scripts, as pyproject.toml says that they have to be."""

import ast
import os
import re
import sys
import unittest
from collections import Counter
from pathlib import Path
from typing import Any, Callable, Dict, Iterator, List, Sequence, Union

import built
from case import Case
from case import needs as needs_command

SETTINGS = (built.TOP / "pyproject.toml").read_text(encoding="utf-8")
MOST_COLUMNS = int(re.findall(r"^line-length = (\d+)$", SETTINGS, re.M)[0])
CLIENTS, TESTS = built.TOP / "clients", built.TOP / "tests"
OLDEST = (3, int(re.findall(r'^target-version = "py3(\d+)"$', SETTINGS, re.M)[0]))
# A file and a function have at most so many lines.
MOST_LINES, MOST_OF_FUNCTION = 500, 40


def sources() -> Iterator[Path]:
    for path in map(built.TOP.joinpath, built.tracked()):
        with open(path, "rb") as file:
            if path.suffix == ".py" or re.match(rb"#!.*python", file.readline()):
                yield path


def words_of(setting: str) -> List[str]:
    """The texts of a list of the settings."""
    found = re.search(rf"^{setting} = \[([^]]*)\]", SETTINGS, re.M)
    return re.findall(r'"([^"]+)"', found[1]) if found else []


def python_with(tool: str) -> str:
    """A Python that has this tool, or nothing."""
    pythons = (sys.executable, "/usr/bin/python3")
    return next((python for python in pythons if built.call([python, "-c", f"import {tool}"]).status == 0), "")


def needs(tool: str) -> Callable[[Any], Any]:
    return unittest.skipUnless(python_with(tool), f"not installed: {tool}")


def ran(tool: str, words: Sequence[Union[str, Path]], **variables: str) -> built.Ended:
    return built.call([python_with(tool), "-m", tool, *words], cwd=built.TOP, env={**os.environ, **variables})


def faults_of_types(words: Sequence[Union[str, Path]], path: Sequence[Path]) -> List[str]:
    """The lines in which mypy says what is wrong. What it read is kept for the next time."""
    kept = Path(os.environ.get("XDG_CACHE_HOME") or Path.home() / ".cache") / "wqd" / "mypy"
    options: List[Union[str, Path]] = ["--no-error-summary", "--hide-error-context", "--cache-dir", kept]
    ended = ran("mypy", [*options, *words], MYPYPATH=":".join(map(str, path)))
    lines = (ended.output + ended.errors).decode().splitlines()
    return [line for line in lines if ": note: " not in line]


def long_in(text: str) -> Iterator[str]:
    """What is too long in a source."""
    lines = text.splitlines()
    if len(lines) > MOST_LINES:
        yield f"{len(lines)} lines"
    yield from (f"line {number}" for number, line in enumerate(lines, 1) if len(line) > MOST_COLUMNS)
    for node in ast.walk(ast.parse(text, feature_version=OLDEST)):
        if isinstance(node, ast.FunctionDef) and (node.end_lineno or 0) - node.lineno >= MOST_OF_FUNCTION:
            yield f"function {node.name}"


class Sources(Case):
    def test_lengths(self) -> None:
        for path in sources():
            self.same(str(path.relative_to(built.TOP)), list(long_in(path.read_text(encoding="utf-8"))), [])

    @needs("pyflakes")
    def test_names(self) -> None:
        self.assertEqual(ran("pyflakes", list(sources())).output.decode().splitlines(), [])

    @needs("black")
    def test_layout(self) -> None:
        ended = ran("black", ["--check", "--quiet", "-l", str(MOST_COLUMNS), *sources()])
        wrong = ran("black", ["--check", "-l", str(MOST_COLUMNS), *sources()]).errors if ended.status else b""
        self.assertEqual([line for line in wrong.decode().splitlines() if line.startswith("would")], [])

    @needs("mypy")
    def test_types_of_packages(self) -> None:
        """What is shipped has no fault by `mypy --strict`, but for what the settings name as not yet so."""
        for package in words_of("strict"):
            self.same(package, faults_of_types(["--strict", "-p", package], [CLIENTS, CLIENTS / "watchdog"]), [])

    @needs("mypy")
    def test_types_of_tests(self) -> None:
        """Tests, and the modules that they use."""
        files = [path for path in sources() if path.suffix == ".py" and TESTS in path.parents]
        rooms = sorted({path.parent for path in files})
        self.same("tests", faults_of_types(files, [*rooms, CLIENTS, CLIENTS / "watchdog", built.TOP / "contrib"]), [])

    @needs("mypy")
    def test_types_of_scripts(self) -> None:
        """Benches, scripts of pages and of releases: those of each directory together, since some have one name."""
        rooms: Dict[Path, List[Path]] = {}
        for path in sources():
            if not {TESTS, CLIENTS} & {*path.parents}:
                rooms.setdefault(path.parent, []).append(path)
        for room, files in rooms.items():
            self.same(str(room.relative_to(built.TOP)), faults_of_types(["--scripts-are-modules", *files], []), [])

    @needs_command("tsc")
    def test_types_of_javascript(self) -> None:
        """Names and types of the JavaScript, as far as the sources say them."""
        files = [name for name in built.tracked() if name.endswith((".js", ".ts"))]
        kinds = ["--target", "es2021", "--lib", "es2021", "--module", "commonjs", "--moduleResolution", "node"]
        ended = built.call(["tsc", "--allowJs", "--checkJs", "--noEmit", *kinds, *files], cwd=built.TOP)
        self.assertEqual(ended.output.decode().splitlines(), [])

    def test_modules(self) -> None:
        """No two modules on the path of the tests have one name."""
        names = [path.stem for path in sources() if path.suffix == ".py" and TESTS in path.parents]
        self.assertEqual([name for name, count in Counter(names).items() if count > 1], [])

    def test_helpers(self) -> None:
        """No module of tests imports from another one."""
        for path in sources():
            name = str(path.relative_to(built.TOP))
            if TESTS in path.parents:
                self.same(name, re.findall(r"^ *(?:from|import) (test_\w+)", path.read_text("utf-8"), re.M), [])
