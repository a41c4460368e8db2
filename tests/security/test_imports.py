"""Modules that somebody planted in the current directory: no command of ours may take one."""

import os
import re
import socket
import subprocess
import sys
from pathlib import Path
from typing import Iterator, List, Tuple

import built
from case import Beside
from client import PATIENCE

# What runs in a clone alone, for those who work on it: there the first line does not matter.
OF_A_CLONE = ("tests/", "bench/", "docs/", "edits/", "crates/")
# A call of Python with a text or a module, as a script has it: both look into the current directory first without -I.
# That of the adapter is a person's, for a tool that is not ours.
WITH_TEXT = re.compile(r"\bpython3?(?: +-[A-Za-z]+)* +-[cm]\b(?! wqd_watchdog)")
# A call of this Python for a script, from another one.
OF_THIS_PYTHON = re.compile(r"\[sys\.executable, (?!\"-IB?\"|\*BEGIN)")
MODULES = (
    "socket",
    "json",
    "struct",
    "stat",
    "argparse",
    "typing",
    "contextlib",
    "select",
    "subprocess",
    "pathlib",
    "re",
    "shlex",
    "time",
    "signal",
    "tempfile",
    "fcntl",
    "errno",
    "hashlib",
    "threading",
    "wq",
    "wqclient",
    "bridge",
    "files",
)


def lines_of(name: str) -> List[str]:
    return (built.TOP / name).read_bytes().decode("utf-8", "replace").splitlines()


def faults() -> Iterator[str]:
    """The scripts whose first line lets Python look into the current directory, and such calls in all scripts."""
    for name in built.tracked():
        if name.startswith(OF_A_CLONE) or name.endswith(".md"):
            continue
        lines = lines_of(name)
        first = lines[0] if lines else ""
        if first.startswith("#!") and "python" in first and not re.search(r" -I[A-Za-z]*\b", first):
            yield f"{name}: {first}"
        for number, line in enumerate(lines, 1):
            is_bare = any("I" not in found[0] for found in WITH_TEXT.finditer(line))
            if is_bare or (OF_THIS_PYTHON.search(line) and not name.startswith("clients/tried/")):
                yield f"{name}:{number}: {line.strip()}"


def commands(prefix: Path, out: Path) -> Iterator[Tuple[object, ...]]:
    """Each command of the clone, and each that is installed below the prefix."""
    for home, in_clients in ((built.TOP, built.TOP / "clients"), (prefix / "bin", prefix / "bin")):
        yield home / "wq", "status"
        yield home / "wq", "--help"
        yield in_clients / "wqasm", "--help"
        yield in_clients / "watchman", "--no-spawn", "watch-list"
        yield home / "wqd", "check", "nothing"
    yield built.TOP / "contrib/git-fsmonitor-hook", "2", ""
    yield built.TOP / "examples/client.py", "."
    yield built.TOP / "package", "--help"
    yield built.TOP / "package", "--adapters", out
    yield built.TOP / "contrib/completion.py", "bash"


class Imports(Beside):
    def test_first_lines(self) -> None:
        self.same("scripts that take modules of the current directory", list(faults()), [])
        self.same(
            "scripts that are looked at",
            {"wq", "clients/wqasm", "install", "contrib/command.sh"} <= set(built.tracked()),
            True,
        )

    def test_planted_modules(self) -> None:
        """Each command, of the clone and installed, in a directory with modules of the names of Python's own."""
        tree, marker, prefix = self.room / "tree", self.room / "taken", self.room / "prefix"
        plant(tree, marker)
        stale = socket.socket(socket.AF_UNIX)
        stale.bind(str(self.room / "stale"))
        stale.close()
        environment = {
            **os.environ,
            "WQD": str(built.program_path()),
            "WQD_SOCK": str(self.room / "stale"),
            "PYTHONPATH": ".",
            "HOME": str(self.room),
            "XDG_STATE_HOME": str(self.room / "state"),
            "WATCHMAN_SOCK": str(self.room / "watchman"),
        }

        def call(*words: object) -> str:
            ended = subprocess.run(
                [str(word) for word in words],
                cwd=tree,
                env=environment,
                stdout=subprocess.PIPE,
                stderr=subprocess.STDOUT,
                timeout=PATIENCE,
            )
            taken = marker.read_text() if marker.exists() else ""
            return taken or ("77" if ended.returncode == 77 else "")

        self.same("./install", call(built.TOP / "install", "--as-watchman", "--adapters", prefix), "")
        for words in commands(prefix, self.room / "out"):
            self.same(" ".join(map(str, words)), call(*words), "")
        self.check_serve(tree, marker, environment, prefix)

    def check_serve(self, tree: Path, marker: Path, environment: dict, prefix: Path) -> None:
        """`wqd serve` asks Python who listens at a socket that is there."""
        for number, command in enumerate((built.TOP / "wqd", prefix / "bin" / "wqd")):
            with socket.socket(socket.AF_UNIX) as listener:
                path = tree.parent / f"listened{number}"
                listener.bind(str(path))
                listener.listen(1)
                ended = subprocess.run(
                    [str(command), "serve", "--sockname", str(path)],
                    cwd=tree,
                    env=environment,
                    capture_output=True,
                    timeout=PATIENCE,
                )
            said = ended.stderr.decode().splitlines()[-1:]
            self.same(
                f"{command} serve", (said, marker.exists()), ([f"wqd: a server listens on {path} already"], False)
            )
        # The attack itself, so that the planted modules are known to work: a plain Python takes them.
        subprocess.run([sys.executable, "-c", "import socket"], cwd=tree, stderr=subprocess.DEVNULL)
        self.same("the planted module works", marker.exists(), True)


def plant(directory: Path, marker: Path) -> None:
    directory.mkdir()
    text = f"open({str(marker)!r}, 'a').write(__name__ + ' ')\nraise SystemExit(77)\n"
    for name in MODULES:
        (directory / f"{name}.py").write_text(text)
