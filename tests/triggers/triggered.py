"""A server, a root that it watches, and a directory beside the root into which the commands of triggers write."""

import shlex
from pathlib import Path
from typing import Dict, List, NamedTuple

from client import Client, Server
from waiting import wait_until

INTERVAL = 20
# In this many seconds there are several rounds.
QUIET = 0.5


class Run(NamedTuple):
    """What a command saw that `Scene.recorder` runs."""

    args: List[str]
    env: Dict[str, str]
    input: bytes
    directory: str
    handles: List[str]

    def watchman(self) -> Dict[str, str]:
        """The variables that the server sets."""
        return {name: value for name, value in self.env.items() if name.startswith("WATCHMAN_")}


class Scene:
    """A root with a client that registers triggers there."""

    def __init__(self, room: Path) -> None:
        self.root = room / "tree"
        self.out = room / "out"
        self.root.mkdir()
        self.out.mkdir()
        self.server = self.serve(room)
        self.client: Client = self.server.client()

    def serve(self, room: Path) -> Server:
        return Server(room, interval=INTERVAL)

    def __enter__(self) -> "Scene":
        self.client.ask("watch", str(self.root))
        return self

    def __exit__(self, *_: object) -> None:
        self.client.close()
        self.server.__exit__()

    def make(self, *names: str) -> None:
        for name in names:
            (self.root / name).touch()

    def see(self) -> None:
        """Has the server see the root as it is now."""
        self.client.ask("clock", str(self.root), {"sync_timeout": 1})

    def trigger(self, name: str, script: str, **more: object) -> dict:
        """Registers a trigger whose command is a script of sh. What is appended are its arguments."""
        return self.register(name, ["sh", "-c", script, "sh"], **more)

    def register(self, name: str, command: List[str], **more: object) -> dict:
        """Registers a trigger at a view that shows all files, so that its first start has all of them."""
        self.see()
        told: Dict[str, object] = {"name": name, "command": command, **more}
        return self.client.ask("trigger", str(self.root), told)

    def recorder(self) -> str:
        """A script that writes what it sees into a directory of its own. That has its last name when it is whole."""
        out = shlex.quote(str(self.out))
        return (
            f"cd {out} && mkdir new && for arg; do printf '%s\\0' \"$arg\"; done > new/args && env -0 > new/env && "
            f"cat > new/input && "
            f'printf %s "$OLDPWD" > new/directory && ls /proc/self/fd > new/handles && mv new run$(ls | wc -l)'
        )

    def run(self, number: int) -> Run:
        """What the command saw in its run of this number, counted from 1."""
        place = self.out / f"run{number}"
        if not wait_until(place.exists):
            raise ValueError(f"there is no run {number}: {self.server.errors()!r}")
        env = dict(text.split("=", 1) for text in texts(place / "env"))
        return Run(
            texts(place / "args"),
            env,
            (place / "input").read_bytes(),
            (place / "directory").read_text(),
            (place / "handles").read_text().split(),
        )

    def log(self, word: str) -> str:
        """A command that adds a line to the log: a word, and the arguments."""
        return f"echo {word} \"$@\" >> {shlex.quote(str(self.out / 'log'))}"

    def lines(self) -> List[str]:
        """The lines of the log."""
        log = self.out / "log"
        return log.read_text().splitlines() if log.exists() else []

    def has_lines(self, count: int) -> bool:
        """Whether the log comes to have so many lines."""
        return wait_until(lambda: len(self.lines()) >= count)

    def waits(self) -> str:
        """A command that waits until it may go on."""
        return f"while [ ! -e {shlex.quote(str(self.out / 'go'))} ]; do sleep 0.02; done"

    def go(self) -> None:
        """Has commands go on."""
        (self.out / "go").touch()

    def children(self) -> List[str]:
        """The states of the server's children, as the system tells them: Z is one that nobody waits for."""
        states = []
        for path in Path("/proc").glob("[0-9]*/stat"):
            try:
                state, parent = path.read_text().rsplit(")", 1)[1].split()[:2]
            except OSError:
                continue
            if int(parent) == self.server.process.pid:
                states.append(state)
        return states


def texts(path: Path) -> List[str]:
    """The texts of a file, each of which ends in byte 0."""
    return path.read_text().split("\0")[:-1]
