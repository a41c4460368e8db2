"""A terminal for the commands of a page: a directory, an environment, and commands that go on beside others. The marks
of its blocks are these:

    <!-- run: session -->          commands after `$ `, each with what it writes
    <!-- run: waits for -->        the same, each again and again until it writes that
    <!-- run: begins NAME -->      a command that goes on, and the first that it writes
    <!-- run: then NAME -->        what it writes next
    <!-- run: interrupts NAME -->  it gets Ctrl-C here; this mark has no block
    <!-- run: file NAME -->        the block is this file
"""

import json
import os
import shutil
import signal
import subprocess
import sys
import tempfile
import time
from pathlib import Path
from typing import Callable, Dict, Iterator, List, NamedTuple

import built
from pages import Element
from shell import Command, Shell, commands_of, is_as_shown
from waiting import PATIENCE, look_until, wait_until

PAUSE = 0.05
# So long a client gets to ask for what it wants to hear of, before others change something.
BEGINNING = 1.0
# What ends a command after Ctrl-C: a status, or the signal itself.
INTERRUPTED = (130, -signal.SIGINT)


class Done(NamedTuple):
    """What was run, whether it wrote what the page shows, and both."""

    name: str
    is_right: bool
    expected: List[str]
    written: str


class Begun:
    """A command that goes on, and what it wrote."""

    def __init__(self, line: str, directory: Path, environment: Dict[str, str], log: Path) -> None:
        self.log = log
        self.seen = 0
        with open(log, "wb") as file:
            self.process = subprocess.Popen(
                ["sh", "-c", f"exec {line}"],
                cwd=directory,
                env=environment,
                stdin=subprocess.DEVNULL,
                stdout=file,
                stderr=subprocess.STDOUT,
                start_new_session=True,
            )

    def next_output(self, expected: List[str]) -> str:
        """What was written since the last look, when it is what is expected, or after a long time."""
        text = look_until(
            lambda: self.log.read_text(encoding="utf-8")[self.seen :], lambda text: is_as_shown(once(text), expected)
        )
        self.seen += len(text)
        return text

    def interrupt(self) -> int:
        os.killpg(self.process.pid, signal.SIGINT)
        return self.process.wait(PATIENCE)


class Terminal(Shell):
    """Runs the blocks of a page, one after the other."""

    def __init__(self) -> None:
        self.room = Path(tempfile.mkdtemp(prefix="wq-")).resolve()
        self.begun: Dict[str, Begun] = {}
        home = self.room / "home"
        for directory in (home, self.room / "run"):
            directory.mkdir(mode=0o700)
        environment = {
            "PATH": os.environ["PATH"],
            "HOME": str(home),
            "LC_ALL": "C.UTF-8",
            "XDG_RUNTIME_DIR": str(self.room / "run"),
            "WQD": str(built.program_path()),
            "GIT_CONFIG_NOSYSTEM": "1",
            # Where tools of one's own find the clients, as docs/EMBEDDING.md says.
            "PYTHONPATH": str(built.TOP / "clients"),
            "PYTHONDONTWRITEBYTECODE": "1",
            "NODE_PATH": str(self.room / "modules"),
        }
        python = [sys.executable, "-B"]
        wq, wqasm = [*python, str(built.TOP / "wq")], [*python, str(built.TOP / "clients" / "wqasm")]
        super().__init__(self.room, home, environment, wq=wq, wqasm=wqasm, wqd=[str(built.TOP / "wqd")])
        node, package = built.TOP / "clients" / "node", self.room / "modules" / "wqd-client"
        package.mkdir(parents=True)
        for path in (node / "client" / "package.json", node / "client.js"):
            (package / path.name).symlink_to(path)

    def __enter__(self) -> "Terminal":
        return self

    def __exit__(self, *_: object) -> None:
        for begun in self.begun.values():
            if begun.process.poll() is None:
                begun.interrupt()
        self.do("wq stop")
        shutil.rmtree(self.room)

    def run(self, element: Element) -> Iterator[Done]:
        kind, _, word = element.mark.partition(": ")[2].partition(" ")
        rules: Dict[str, Callable[[str, List[str]], Iterator[Done]]] = {
            "session": self.session,
            "waits": self.waits_for,
            "begins": self.begins,
            "then": self.then,
            "interrupts": self.interrupts,
            "file": self.file,
        }
        if element.mark.startswith("not run: "):
            return iter(())
        if not element.mark.startswith("run: ") or kind not in rules:
            return iter([Done("a block without a mark", False, [], element.mark)])
        return rules[kind](word, element.lines)

    def session(self, _: str, lines: List[str]) -> Iterator[Done]:
        for command in commands_of(lines):
            yield done(command, self.do(command.line))

    def waited_for(self, command: Command) -> str:
        """What a command writes when it is as shown, or else when the patience ends."""
        return look_until(lambda: self.do(command.line), lambda written: is_as_shown(written, command.output))

    def waits_for(self, _: str, lines: List[str]) -> Iterator[Done]:
        for command in commands_of(lines):
            yield done(command, self.waited_for(command))

    def begins(self, name: str, lines: List[str]) -> Iterator[Done]:
        command = commands_of(lines)[0]
        self.begun[name] = Begun(command.line, self.directory, self.environment, self.room / f"{name}.log")
        yield done(command, self.begun[name].next_output(command.output))
        self.wait_for_clients()

    def wait_for_clients(self) -> None:
        """Waits until each command that goes on is a client of the server."""
        going = sum(begun.process.poll() is None for begun in self.begun.values())
        wait_until(lambda: json.loads(self.do("wq status --json"))["clients"] >= going)
        time.sleep(BEGINNING)

    def then(self, name: str, lines: List[str]) -> Iterator[Done]:
        written = self.begun[name].next_output(lines)
        yield Done(f"{name} goes on", is_as_shown(once(written), lines), lines, written)

    def interrupts(self, name: str, _: List[str]) -> Iterator[Done]:
        status = self.begun[name].interrupt()
        yield Done(f"{name} is interrupted", status in INTERRUPTED, ["130"], str(status))

    def file(self, name: str, lines: List[str]) -> Iterator[Done]:
        self.write(name, lines)
        return iter(())


def once(written: str) -> str:
    """What was written, with one of equal lines that follow one another: a shell empties a file before it writes it,
    and a scan may come between."""
    lines = written.splitlines(keepends=True)
    return "".join(line for line, before in zip(lines, ["", *lines]) if line != before)


def done(command: Command, written: str) -> Done:
    return Done(command.line, is_as_shown(written, command.output), command.output, written)
