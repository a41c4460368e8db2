"""The blocks and tables of a page, each with the mark that says how it is run, as tests/pages.py reads them.

A comment `<!-- script NAME: .. -->` gives a script a name and is not shown. In a cell of a table stand:

    <!-- run: EXAMPLE -->       this is the example of the cell, and what the cell shows is not run
    <!-- not run: REASON -->    the row has no example that can be run

In marks `{{TEXT*N}}` is the text, N times.
"""

import os
import re
import sys
import tempfile
from contextlib import ExitStack
from pathlib import Path
from typing import Dict, Iterator, List, NamedTuple, Optional

import built
from client import Server
from pages import COMMENT, Element, elements_of
from rows import expand
from shell import Shell

SCRIPT = re.compile(r"script ([a-z-]+):\n")
TOOL = built.TOP / "clients" / "wqasm"
CODE = re.compile(r"`([^`]+)`")
ERROR = re.compile(r"`(E[0-9]+): ([^`]+)`")


class Room:
    """A directory for the commands of a page. In it `wqasm` and `wqd` are commands, `examples` is that of the
    repository, and `WQD_SOCK` names the socket of a server. It is made when the page has its first command or file."""

    def __init__(self) -> None:
        self.stack = ExitStack()
        self.made: Optional[Shell] = None
        self.server: Optional[Server] = None

    def __enter__(self) -> "Room":
        return self

    def __exit__(self, *_: object) -> None:
        self.stack.close()

    @property
    def shell(self) -> Shell:
        if self.made is None:
            self.top = Path(self.stack.enter_context(tempfile.TemporaryDirectory()))
            files = self.top / "files"
            files.mkdir()
            (files / "examples").symlink_to(built.TOP / "examples")
            commands = {"wqasm": [sys.executable, "-B", str(TOOL)], "wqd": [str(built.program_path())]}
            self.made = Shell(self.top, files, {**os.environ}, **commands)
        return self.made

    def run(self, line: str) -> str:
        """The output of a command. A server is started for the first one that needs it."""
        shell = self.shell
        if "$WQD_SOCK" not in line:
            return shell.do(line)
        if self.server is None:
            self.server = self.stack.enter_context(Server(self.top))
        return shell.do(line, WQD_SOCK=self.server.sockname)


class Page(NamedTuple):
    """The elements of a page, the scripts with names, for the words of an error its text with the number, and the
    directory in which the commands that it shows are run."""

    elements: List[Element]
    scripts: Dict[str, List[str]]
    errors: Dict[str, str]
    room: Room


def read_page(text: str) -> Page:
    """Reads a page from top to bottom. A comment that names a script is no mark."""
    page = Page([], {}, errors_in(text), Room())
    for element in elements_of(text):
        named = SCRIPT.match(element.mark)
        if element.kind != "comment":
            page.elements.append(element)
        elif named is not None:
            page.scripts[named[1]] = element.mark[named.end() :].split("\n")
    return page


def errors_in(text: str) -> Dict[str, str]:
    """The errors that a page names with their numbers. The words of each stand behind one number."""
    errors: Dict[str, str] = {}
    for number, words in ERROR.findall(text):
        error = f"{number}: {words}"
        if errors.setdefault(words, error) != error:
            raise ValueError(f"the page gives two numbers to the error: {words}")
    return errors


class Cell:
    """A cell of a table: the examples that it shows in code, its other words, and its marks."""

    def __init__(self, text: str) -> None:
        self.marks = [expand(found.strip()) for found in COMMENT.findall(text)]
        self.shown = COMMENT.sub("", text).strip()

    def marks_of(self, word: str) -> List[str]:
        return [mark[len(word) + 1 :].strip() for mark in self.marks if mark.startswith(word + ":")]

    def codes(self) -> List[str]:
        """What is in code."""
        return CODE.findall(self.shown)

    def examples(self) -> List[str]:
        """The examples: those of marks, or else what is in code."""
        return self.marks_of("run") or self.codes()


class Table:
    """The rows of a table, each a dictionary from the column's name to its cell."""

    def __init__(self, lines: List[str]) -> None:
        header, _, *rows = [[cell.strip() for cell in line.strip()[1:-1].split("|")] for line in lines]
        self.rows = [{name.strip("`"): Cell(text) for name, text in zip(header, row)} for row in rows]

    def examples(self) -> Iterator[Dict[str, Cell]]:
        """The rows that are to be run."""
        return (row for row in self.rows if not any(cell.marks_of("not run") for cell in row.values()))
