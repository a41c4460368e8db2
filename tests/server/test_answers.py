"""`./wq ask`, which starts a server of its own at the socket that it is told, and hands lines to it."""

import contextlib
import json
import os
import subprocess
from pathlib import Path
from typing import Dict, Iterator, List

import built
from case import Case
from client import PATIENCE, VERSION
from trees import fill_directory

# More lines than a server takes before one is answered, with replies that are longer than a socket holds.
FILES = 10_000
LINES = 15
LINE_BYTES = 100_000
WQ = str(built.TOP / "wq")
# The status of a command whose output nobody reads, as a shell has it of SIGPIPE.
BROKEN_PIPE = 141


@contextlib.contextmanager
def environment(room: Path) -> Iterator[Dict[str, str]]:
    """The variables of commands that share a server, which is ended after them."""
    found = {
        **os.environ,
        "WQD": str(built.program_path()),
        "WQD_SOCK": str(room / "asked.socket"),
        "XDG_STATE_HOME": str(room),
    }
    try:
        yield found
    finally:
        subprocess.run([WQ, "stop"], env=found, stderr=subprocess.DEVNULL, timeout=PATIENCE)


def command(directory: Path, *lines: str) -> List[str]:
    return [WQ, "ask", json.dumps(["watch", str(directory)]), *lines]


def query_line(directory: Path, query: dict) -> str:
    return json.dumps(["query", str(directory), query])


class Asking(Case):
    def test_ask(self) -> None:
        root = self.directory("tree")
        (root / "a.c").touch()
        line = query_line(root, {"fields": ["name"]})
        with environment(self.room) as variables:
            ended = subprocess.run(command(root, line), stdout=subprocess.PIPE, env=variables, timeout=PATIENCE)
        replies = [json.loads(reply) for reply in ended.stdout.splitlines()]
        self.same("ask ends well", ended.returncode, 0)
        self.same("ask watches", replies[0], {"watch": str(root), "watcher": "poll", **VERSION})
        self.same("ask tells the files", [reply["files"] for reply in replies[1:]], [["a.c"]])

    def test_ask_much(self) -> None:
        """Long lines with long replies: none of the two sides waits for the other for ever."""
        root = self.room / "tree"
        fill_directory(root, FILES)
        line = query_line(root, {"fields": ["name", "size"]}).ljust(LINE_BYTES)
        with environment(self.room) as variables:
            ended = subprocess.run(
                command(root, *[line] * LINES), stdout=subprocess.PIPE, env=variables, timeout=PATIENCE
            )
        counts = [len(json.loads(reply).get("files", [])) for reply in ended.stdout.splitlines()]
        self.same("many long replies", (ended.returncode, counts), (0, [0] + [FILES] * LINES))

    def test_ask_that_fails(self) -> None:
        """If nobody reads the replies the command fails without a word of its own, and the server that it started
        stays."""
        nobody, output = os.pipe()
        os.close(nobody)
        with environment(self.room) as variables:
            ended = subprocess.run(
                command(self.room, '["version"]'),
                stdout=output,
                stderr=subprocess.PIPE,
                env=variables,
                timeout=PATIENCE,
            )
            os.close(output)
            self.same("ask fails if nobody reads", ended.returncode, BROKEN_PIPE)
            self.check("it tells of its server alone", ended.stderr.count(b"\n") == 1, [built.excerpt(ended.stderr)])
            again = subprocess.run([WQ, "ask", '["version"]'], stdout=subprocess.PIPE, env=variables, timeout=PATIENCE)
            self.same("its server stays", json.loads(again.stdout), VERSION)
