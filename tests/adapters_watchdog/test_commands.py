"""The command `python3 -m wqd_watchdog`: its words, and the Python that it takes."""

import os
import subprocess
import sys
from pathlib import Path
from typing import List, Tuple

import built
from case import Case
from wqd_watchdog.scripts import is_this_python, python_of, script_of, words_of
from wqd_watchdog.trouble import Unserved

PACKAGE = built.TOP / "clients" / "watchdog" / "wqd_watchdog"


class Commands(Case):
    def test_first_lines(self) -> None:
        for head, expected in (
            ("#!/usr/bin/python3\nimport x", ["/usr/bin/python3"]),
            ("#! /usr/bin/python3 -sE\n", ["/usr/bin/python3", "-sE"]),
            ("#!/usr/bin/env python3\n", ["python3"]),
            ("#!/usr/bin/env -S python3 -I\n", ["python3", "-I"]),
            ("import x\n", None),
            ("", None),
            ("#!/bin/sh\n'''exec' \"/a b/python3\" \"$0\" \"$@\"\n' '''\n", ["/a b/python3"]),
        ):
            self.same(f"the words of {head!r}", words_of(head), expected)
        self.same("this Python", is_this_python(sys.executable), True)
        linked = self.room / "bin" / "python3"
        linked.parent.mkdir()
        linked.symlink_to(sys.executable)
        self.same("a Python of an environment", is_this_python(str(linked)), False)
        for name, text, expected in (
            ("a.py", "pass\n", [sys.executable]),
            ("b", "#!/nowhere/python3.9 -s\n", ["/nowhere/python3.9", "-s"]),
        ):
            (self.room / name).write_text(text)
            self.same(f"the Python of {name}", python_of(str(self.room / name)), expected)
        (self.room / "c").write_text("#!/bin/sh\n")
        self.same("a script of a shell", reason_of(str(self.room / "c")), f"{self.room}/c is not written in Python")
        self.same("a file by its path", script_of(str(self.room / "a.py")), str(self.room / "a.py"))

    def test_words(self) -> None:
        status, output, errors = said("--help")
        self.same(
            "help",
            (status, output[:1], errors),
            (0, ["Runs a tool that watches files by Python's watchdog, and has wqd watch them."], []),
        )
        wrong: List[List[str]] = [[], ["--frob"], ["-m"]]
        for words in wrong:
            status, output, errors = said(*words)
            self.same(f"the words {words}", (status, output, len(errors) > 3), (2, [], True))
        self.same("no such command", said("no-such"), (1, [], ["wqd_watchdog: there is no command no-such"]))
        status, output, errors = said("ls")
        self.check("a binary", status == 1 and errors[0].endswith("/ls is not written in Python"), errors)
        self.check_the_package(self.room)

    def check_the_package(self, room: Path) -> None:
        """It is found by its name in its directory, and needs no watchdog to be read."""
        environment = {**os.environ, "PYTHONPATH": str(PACKAGE.parent), "PYTHONDONTWRITEBYTECODE": "1"}
        command = [sys.executable, "-S", "-m", "wqd_watchdog", "--help"]
        ended = subprocess.run(command, env=environment, stdout=subprocess.PIPE, cwd=str(room))
        self.same("by its name", ended.returncode, 0)
        built_in = subprocess.run(
            [sys.executable, "-S", "-c", "import wqd_watchdog; print(hasattr(wqd_watchdog, 'frob'))"],
            env=environment,
            stdout=subprocess.PIPE,
        )
        self.same("another name in it", built_in.stdout, b"False\n")

    def test_a_python_without_watchdog(self) -> None:
        (self.room / "tool.py").write_text("print('ran')\n")
        found = said("--here", str(self.room / "tool.py"), python=(sys.executable, "-I", "-S", "-B"))
        self.same("no watchdog", found, (1, [], [f"wqd_watchdog: the Python {sys.executable} has no module watchdog"]))


def reason_of(script: str) -> str:
    try:
        return " ".join(python_of(script))
    except Unserved as reason:
        return str(reason)


def said(*words: str, python: Tuple[str, ...] = (sys.executable, "-I", "-B")) -> Tuple[int, List[str], List[str]]:
    ended = subprocess.run(
        [*python, str(PACKAGE), *words], stdin=subprocess.DEVNULL, stdout=subprocess.PIPE, stderr=subprocess.PIPE
    )
    return ended.returncode, ended.stdout.decode().splitlines(), ended.stderr.decode().splitlines()
