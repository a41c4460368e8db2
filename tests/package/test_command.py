"""The command around the program: what it says of its words, of its version, and of a path on which nobody can
listen."""

import os
import shutil
import subprocess
import sys
import time
from pathlib import Path
from typing import Dict, List, Tuple

import built
from case import Case
from client import PATIENCE, PLAIN, Client, Server
from clones import bare, tools
from installing import call, present
from rows import tables

GOOD = {
    "sockname": "/nothing/here",
    "start": "0",
    "pid": str(2**62),
    "interval": "10",
    "share": "1",
    "quiet-after": "86400",
    "workers": "16",
}
ROWS = tables(Path(__file__).with_name("command.rows"))
NUMBERS = {
    "start": "0 to 2^62",
    "pid": "0 to 2^62",
    "interval": "10 to 3600000",
    "share": "1 to 100",
    "quiet-after": "0 to 86400",
    "workers": "1 to 16, or auto",
}


def serve(**values: str) -> List[str]:
    return ["serve", *(word for name, value in {**GOOD, **values}.items() for word in (f"--{name}", value))]


class Command(Case):
    def test_help(self) -> None:
        text = call(self.room, "wqd", "--help")
        self.same("help", (text.status, text.errors), (0, b""))
        for word in ("serve", "sockname", "replay", "check", "--version", *(f"--{name}" for name in GOOD)):
            self.same(f"{word} in the help", word.encode() in text.output, True)
        for words in (["-h"], *([word, "--help"] for word in ("serve", "sockname", "replay", "check"))):
            self.same(f"help by {words}", call(self.room, "wqd", *words), text)
        changes = (built.TOP / "CHANGELOG.md").read_text()
        version = next(line.split()[1].rstrip(",") for line in changes.splitlines() if line.startswith("## "))
        self.same("the version", call(self.room, "wqd", "--version"), built.Ended(f"wqd {version}\n".encode(), b"", 0))

    def test_wrong_words(self) -> None:
        """Each line is refused by the program, which says no more than that; then the command says which word it is."""
        cases = [(row.value(), row.expected) for row in ROWS["wrong words"]]
        for name, value in (row.value() for row in ROWS["wrong numbers"]):
            cases.append((serve(**{name: value}), f"--{name} takes a number from {NUMBERS[name]}"))
        cases.append((serve() + ["--pid", "1"], "--pid is given twice"))
        for words, reason in cases:
            refused = f"wqd: wrong command line\nwqd: {reason}\n".encode()
            self.same(f"the words {words}", call(self.room, "wqd", *words), built.Ended(b"", refused, 2))
            if words[:1] == ["serve"]:
                asked = call(self.room, "wqd", "sockname", *words[1:])
                self.same(f"sockname with {words}", asked, built.Ended(b"", refused, 2))

    def test_no_program(self) -> None:
        """The variable WQD names no program: that is what is wrong, whatever the words are."""
        for words in (["serve"], ["replay"], ["frob"]):
            said = b"wqd: there is no program at /none, which the variable WQD names\n"
            self.same(f"the words {words}", call(self.room, "wqd", *words, WQD="/none"), built.Ended(b"", said, 1))

    def test_workers_by_processors(self) -> None:
        """The program gets a number in place of `auto`. Here `echo` is that program."""
        count = min(4, len(os.sched_getaffinity(0)))
        for words, expected in (
            (["--workers", "auto"], ["--workers", str(count)]),
            (["--workers=auto"], [f"--workers={count}"]),
            (["--workers", "2"], ["--workers", "2"]),
        ):
            given = ["serve", "--sockname", str(self.room / "auto"), *words]
            said = call(self.room, "wqd", *given, "--start", "7", "--pid", "9", WQD="/bin/echo").output.decode().split()
            self.same(f"the words {words}", said, [*given[:3], *expected, "--start", "7", "--pid", "9"])

    def test_refused_sockets(self) -> None:
        """Paths on which nobody can listen. That the words are good shows in that the program tells of the path."""
        file = self.room / "file"
        file.write_text("mine")
        (self.room / "link").symlink_to(self.room / "nothing")
        long = "x" * (108 - len(str(self.room)) - 1)
        deep = self.room / ("y" * (100 - len(str(self.room)) - 1))
        deep.mkdir()
        cases = [
            (str(path), f"{path} is there already, and is no socket") for path in (file, self.room / "link", self.room)
        ]
        cases += [
            ("/nothing/here", "there is no directory /nothing"),
            (str(self.room / long), "the path of the socket has over 107 bytes"),
            (str(deep / "s"), "the path of the socket's directory has over 99 bytes"),
            (str(file / "s"), f"there is no directory {file}"),
            ("", "the path of the socket is empty"),
        ]
        for path, reason in cases:
            refused = f"cannot listen\nwqd: {reason}\n".encode()
            self.same(
                f"a socket at {path!r}", call(self.room, "wqd", *serve(sockname=path)), built.Ended(b"", refused, 1)
            )
        self.check_locked(self.room)
        joined = ["serve", *(f"--{name}={value}" for name, value in GOOD.items())]
        refused = b"cannot listen\nwqd: there is no directory /nothing\n"
        self.same("words with their values joined", call(self.room, "wqd", *joined), built.Ended(b"", refused, 1))
        with Server(self.room) as server:
            words = serve(sockname=server.sockname)
            refused = f"cannot listen\nwqd: a server listens on {server.sockname} already\n".encode()
            self.same("a socket that is in use", call(self.room, "wqd", *words), built.Ended(b"", refused, 1))
            server.kill()
            self.check_stale(self.room, words, server.sockname)

    def check_locked(self, room: Path) -> None:
        """A directory that may not be written, by somebody without the powers of root."""
        locked = room / "locked"
        locked.mkdir(mode=0o500)
        command = [sys.executable, str(PLAIN), str(built.TOP / "wqd"), *serve(sockname=str(locked / "s"))]
        environment = {**os.environ, "WQD": str(built.program_path())}
        ended = subprocess.run(command, stderr=subprocess.PIPE, env=environment)
        refused = f"cannot listen\nwqd: you may not write into {locked}\n".encode()
        self.same("a directory that is locked", (ended.returncode, ended.stderr), (1, refused))

    def check_stale(self, room: Path, words: List[str], sockname: str) -> None:
        """A stale socket is no reason: the program takes the place of the shell, and ends with a signal to it."""
        environment = {**os.environ, "WQD": str(built.program_path())}
        process = subprocess.Popen([str(built.TOP / "wqd"), *words], stderr=subprocess.PIPE, env=environment)
        try:
            self.same("a stale socket", present(process.stderr).readline(), f"listening on {sockname}\n".encode())
        finally:
            process.terminate()
            self.same("the end by a signal", process.wait(PATIENCE), -15)
            present(process.stderr).close()

    def test_serve_without_words(self) -> None:
        """The socket, the second and the process are filled in, unless they are said."""
        runtime = self.room / "runtime"
        runtime.mkdir(mode=0o700)
        own = self.room / f"wqd-{os.getuid()}"
        base = {name: value for name, value in os.environ.items() if name not in ("XDG_RUNTIME_DIR", "WQD_SOCK")}
        base.update(WQD=str(built.program_path()), TMPDIR=str(self.room))
        cases: List[Tuple[str, List[str], Dict[str, str], Path, Dict[int, str]]] = [
            ("nothing said", [], {"XDG_RUNTIME_DIR": str(runtime)}, runtime / "wqd.sock", {}),
            ("WQD_SOCK", [], {"WQD_SOCK": str(self.room / "named")}, self.room / "named", {}),
            ("no directory of the session", [], {"XDG_RUNTIME_DIR": str(self.room / "nothing")}, own / "wqd.sock", {}),
            ("no variable", ["--interval", "50"], {}, own / "wqd.sock", {}),
            (
                "words said",
                ["--sockname", str(self.room / "said"), "--start=7", "--pid", "9"],
                {},
                self.room / "said",
                {1: "7", 2: "9"},
            ),
            ("one number said", ["--pid=9"], {"WQD_SOCK": str(self.room / "named")}, self.room / "named", {2: "9"}),
        ]
        for name, words, values, sockname, numbers in cases:
            found = served(words, {**base, **values}, sockname, self.room)
            self.same(f"serve with {name}", {place: found[place] for place in numbers}, numbers)
            self.same(
                f"the numbers of serve with {name}",
                (found[1], found[2]) if not numbers else None,
                (found["start"], found["pid"]) if not numbers else None,
            )
        self.same("the mode of the user's own directory", own.stat().st_mode & 0o777, 0o700)
        own.chmod(0o755)
        command = [str(built.TOP / "wqd"), "serve"]
        ended = subprocess.run(command, stderr=subprocess.PIPE, env=base, timeout=PATIENCE)
        refused = f"wqd: {own} is no directory of yours alone\n".encode()
        self.same("a directory that others enter", (ended.returncode, ended.stderr), (1, refused))

    def test_unbuilt_command(self) -> None:
        """If nothing is built, that is said. Wrong words are refused before that, and help and version need no
        program."""
        bare(self.room)
        environment = {name: value for name, value in os.environ.items() if name != "WQD"}
        environment["PATH"] = str(tools(self.room))

        def ended(*words: str, name: str = "wqd") -> built.Ended:
            return built.call([str(self.room / name), *words], env=environment)

        refused = b"wqd: wrong command line\nwqd: check takes one file\n"
        self.same("wrong words", ended("check"), built.Ended(b"", refused, 2))
        missing = (
            b"wqd: nothing is built, and the Rattle kit is missing: its command rt is not on the PATH\n"
            b"wqd: a release has the program: put that at %b/release/wqd, or name it by the variable WQD\n"
            % str(self.room).encode()
        )
        for words in ((), ("serve",), ("replay",), ("check", "file"), ("--build",)):
            self.same(
                f"nothing is built, and no kit is there, for {words}", ended(*words), built.Ended(b"", missing, 1)
            )
        prefix = self.room / "prefix"
        self.same("no kit to install", ended(str(prefix), name="install"), built.Ended(b"", missing, 1))
        self.same("what that leaves", prefix.exists(), False)
        self.same("help", ended("--help"), call(self.room, "wqd", "--help"))
        self.same("the version", ended("--version"), call(self.room, "wqd", "--version"))
        self.same("nothing is built", ended("--is-built"), built.Ended(b"", b"", 1))
        self.same("no program", ended("--program"), built.Ended(b"", b"", 1))

    def test_program_of_a_release(self) -> None:
        """In the sources of a release its program is taken, and that is said."""
        bare(self.room)
        released = self.room / "release" / "wqd"
        released.parent.mkdir()
        shutil.copy(built.program_path(), released)
        environment = {name: value for name, value in os.environ.items() if name != "WQD"}
        environment.update(PATH=str(tools(self.room)), HOME=str(self.room))

        def ended(*words: str) -> built.Ended:
            return built.call([str(self.room / "wqd"), *words], env=environment, input=b'ask 1 ["version"]\n')

        said = f"wqd: this is the program of the release, {released}\n".encode()
        self.same("it runs", ended("replay"), built.Ended(b'1 {"version":"wq-1"}\n', said, 0))
        self.same("it is there", ended("--is-built"), built.Ended(b"", b"", 0))
        self.same("its path", ended("--program"), built.Ended(f"{released}\n".encode(), b"", 0))


def served(words: List[str], environment: Dict[str, str], sockname: Path, room: Path) -> dict:
    """The parts of a clock of a server that is started with these words, and which numbers would be filled in."""
    began = int(time.time())
    process = subprocess.Popen([str(built.TOP / "wqd"), "serve", *words], stderr=subprocess.PIPE, env=environment)
    try:
        line = present(process.stderr).readline()
        if line != f"listening on {sockname}\n".encode():
            raise ValueError(f"the server says {line!r}")
        root = room / "root"
        root.mkdir(exist_ok=True)
        with Client(str(sockname)) as client:
            client.ask("watch", str(root))
            parts: dict = dict(enumerate(client.ask("clock", str(root))["clock"].split(":")))
            client.ask("shutdown-server")
        process.wait(PATIENCE)
    finally:
        process.kill()
        process.wait()
        present(process.stderr).close()
    start = next(
        (str(second) for second in range(began, began + int(PATIENCE)) if str(second) == parts[1]), "none of now"
    )
    return {**parts, "start": start, "pid": str(process.pid)}
