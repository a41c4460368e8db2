"""The command with names of other directories, files that others made, and replies that nobody reads."""

import json
import os
import subprocess
import sys
from pathlib import Path
from typing import Any, Callable, Dict, List, Tuple

from bridged import Bridge, COMMAND, PROGRAM, VERSION, codec, run
from case import Case
from client import PATIENCE, Client
from waiting import wait_until


# What the command says without Python, and what it leaves to it.
SAID_QUICKLY = (
    ["get-sockname"],
    ["version"],
    ["--no-pretty", "get-sockname"],
    ["version", "--no-pretty"],
    ["--output-encoding=json", "get-sockname"],
)
LEFT_TO_PYTHON = (
    ["watch-list"],
    ["get-sockname", "more"],
    ["-j"],
    ["--output-encoding=bser-v2", "version"],
    ["get-sockname", "--output-encoding"],
    ["--output-encoding", "frob", "get-sockname"],
)


class Starts(Case):
    def test_starts(self) -> None:
        """Names of sockets and of the program count from the directory of the command, though what it starts has
        another."""
        try:
            found = json.loads(run(self.room, "get-sockname").stdout)
            self.same("a socket with a relative name", found.get("sockname"), str(self.room / "sock"))
            reader, writer = os.pipe()
            os.close(reader)
            gone = run(self.room, "list-capabilities", output=writer)
            os.close(writer)
            self.same("a reply that nobody reads", (gone.returncode, gone.stderr), (1, b""))
            with open("/dev/full", "wb") as full:
                gone = run(self.room, "version", output=full.fileno())
            self.same(
                "no room for a reply",
                (gone.returncode, gone.stderr),
                (1, b"watchman: standard output: No space left on device\n"),
            )
        finally:
            self.same("it is ended by its relative name", run(self.room, "--no-spawn", "shutdown-server").returncode, 0)

    def test_words_of_the_server(self) -> None:
        """How a server works that the command starts: as wq starts one, unless variables say otherwise."""
        rows: List[Tuple[Dict[str, str], Dict[str, str]]] = [
            ({}, {"--share": "10", "--interval": "100"}),
            ({"WQD_INTERVAL": "500"}, {"--share": "10", "--interval": "500"}),
            ({"WQD_SHARE": "50", "WQD_INTERVAL": "20"}, {"--share": "50", "--interval": "20"}),
        ]
        for variables, expected in rows:
            run(self.room, "version", sockname="sock", output=subprocess.PIPE, given=b"", **variables)
            with Client(str(self.room / "sock.wqd")) as client:
                words = Path(f"/proc/{client.peer().process}/cmdline").read_text().split("\0")
            workers = {"--workers": str(min(4, len(os.sched_getaffinity(0))))}
            said = dict(zip(words[-7:-1:2], words[-6:-1:2]))
            self.same(f"words of the server with {variables}", said, {**expected, **workers})
            run(self.room, "--no-spawn", "shutdown-server")

    def test_roots_by_relative_names(self) -> None:
        """A root counts from the directory of the command, as with Watchman's own, also if the command comes as
        JSON."""
        tree = self.room / "tree"
        (tree / "below").mkdir(parents=True)
        (tree / "file.c").touch()

        def found(directory: Path, *words: str, given: bytes = b"") -> Dict[str, Any]:
            sockname = os.path.relpath(str(self.room / "sock"), str(directory))
            reply: Dict[str, Any] = json.loads(run(directory, *words, sockname=sockname, given=given).stdout)
            return reply

        try:
            self.same("a directory by its name", found(self.room, "watch", "tree").get("watch"), str(tree))
            self.same("the directory itself", found(tree, "watch-project", ".").get("watch"), str(tree))
            files = found(tree / "below", "find", "..", "*.c").get("files")
            self.same("the directory above", [file["name"] for file in files or []], ["file.c"])
            line = json.dumps(["query", ".", {"suffix": "c", "fields": ["name"]}]).encode()
            self.same("a root in JSON", found(tree, "-j", given=line).get("files"), ["file.c"])
            self.same(
                "no name at all",
                found(tree, "watch", "").get("error"),
                'unable to resolve root : path "" must be absolute',
            )
            self.same("a root that goes", found(tree, "watch-del", ".").get("watch-del"), True)
        finally:
            run(self.room, "--no-spawn", "shutdown-server")

    def test_names_by_default(self) -> None:
        """The directory of sockets is below one of the user. Only the superuser can show one that is of another."""
        own, other, below = self.room / "own", self.room / "other", f"wqd-watchman-{os.getuid()}/sock"
        for directory in (own, other):
            directory.mkdir()
        self.same("a directory of the user", name_by_default(own, self.room), str(own / below))
        self.same("no directory", name_by_default(self.room / "none", self.room), str(self.room / below))
        if os.getuid() == 0:
            os.chown(str(other), 1, 1)
            self.same("a directory of another user", name_by_default(other, self.room), str(self.room / below))

    def test_the_quick_command(self) -> None:
        """While the bridge and its server run, the command says where and of which version without Python: the same
        bytes."""
        home = str(COMMAND.parent)

        def said(words: List[str], path: str) -> bytes:
            environment = {
                **os.environ,
                "WATCHMAN_SOCK": bridge.sockname,
                "WQD_SOCK": bridge.server.sockname,
                "PATH": path,
            }
            return subprocess.run(
                words, env=environment, stdout=subprocess.PIPE, stderr=subprocess.DEVNULL, timeout=PATIENCE
            ).stdout

        def quick(*words: str) -> bytes:
            return said(["/bin/sh", str(COMMAND), *words], "/none")

        with Bridge(self.room) as bridge:
            self.same("the version needs no bridge", quick("--version"), f"{VERSION}\n".encode())
            self.same("a bridge that has not seen its server", quick("get-sockname"), b"")
            with bridge.client() as client:
                client.ask("version")
            for words in SAID_QUICKLY:
                slow = said(
                    [sys.executable, str(COMMAND.parent / "bridge" / "watchman.py"), home, *words], os.environ["PATH"]
                )
                self.same(f"watchman {' '.join(words)}", (quick(*words), slow != b""), (slow, True))
            self.check_the_quick_command_in_bser(bridge.sockname, quick)
            for words in LEFT_TO_PYTHON:
                self.same(f"watchman {' '.join(words)} is left to Python", quick(*words), b"")
            bridge.server.process.kill()
            ended = Path(f"/proc/{bridge.server.process.pid}/stat")
            wait_until(lambda: ") Z " in ended.read_text())
            self.same("a server that was killed, and is not waited for", quick("get-sockname"), b"")
            bridge.server.kill()
            self.same("a server that was killed", quick("get-sockname"), b"")

    def check_the_quick_command_in_bser(self, sockname: str, quick: Callable[..., bytes]) -> None:
        """The bytes are those that the codec writes, if there is one."""
        bser = codec()
        if bser is None:
            return
        reply = {"sockname": sockname, "version": VERSION}
        for version, name in ((1, "bser"), (2, "bser-v2")):
            for words in ([f"--output-encoding={name}"], ["--output-encoding", name]):
                found = bser.loads(quick(*words, "get-sockname"), value_encoding="utf-8")
                self.same(f"{' '.join(words)} get-sockname", found, reply)
                head = quick(*words, "get-sockname")[:2]
                self.same(f"{' '.join(words)}: the version of BSER", head, bytes([0, version]))

    def test_a_bridge_by_hand(self) -> None:
        """The command starts no server beside a bridge that asks another one, though no client came before it."""
        with Bridge(self.room) as bridge:
            stray = Path(f"{bridge.sockname}.wqd")
            for words in (["get-sockname"], ["version"]):
                ended = run(self.room, *words, sockname=bridge.sockname)
                self.same(f"{words[0]} of a bridge by hand", (ended.returncode, stray.exists()), (0, False))
            bridge.server.kill()
            ended = run(self.room, "watch-list", sockname=bridge.sockname)
            reason = (
                f"watchman: nobody listens on {bridge.server.sockname}, "
                f"which the bridge at {bridge.sockname} asks\n"
            )
            self.same(
                "its server has gone", (ended.returncode, ended.stderr.decode(), stray.exists()), (1, reason, False)
            )

    def test_a_command_that_stays(self) -> None:
        """It says that the bridge has ended, and its status is not 0."""
        with Bridge(self.room) as bridge:
            staying = subprocess.Popen(
                [str(COMMAND), "--sockname", bridge.sockname, "--no-spawn", "-p", "version"],
                stdout=subprocess.PIPE,
                stderr=subprocess.PIPE,
            )
            assert staying.stdout is not None
            self.same("a command that stays is answered", staying.stdout.readline(), b"{\n")
            bridge.process.terminate()
            _, errors = staying.communicate(timeout=PATIENCE)
            self.same("its end", (staying.returncode, errors), (1, b"watchman: the bridge has ended\n"))

    def test_files_of_others(self) -> None:
        """A lock or a log that is a link or no file is refused, and that to which it leads stays as it is."""
        precious = self.room / "precious"
        precious.write_text("words")

        def log_of(name: str) -> Path:
            return logs / (str(self.room / f"{name}.wqd.log").strip("/").replace("/", "%"))

        logs = self.room / "state" / "wq" / "logs"
        logs.mkdir(parents=True)
        for ending in ("lock", "start"):
            (self.room / f"link.{ending}").symlink_to(precious)
            os.mkfifo(str(self.room / f"pipe.{ending}"))
        log_of("link").symlink_to(precious)
        os.mkfifo(str(log_of("pipe")))
        for name in ("link", "pipe"):
            bridge = subprocess.run(
                [
                    sys.executable,
                    str(PROGRAM),
                    "--server",
                    str(self.room / "none"),
                    "--sockname",
                    str(self.room / name),
                ],
                stderr=subprocess.PIPE,
                timeout=PATIENCE,
            )
            self.same(f"a {name} as the lock", (bridge.returncode, b"cannot listen" in bridge.stderr), (1, True))
            for path in (self.room / f"{name}.start", log_of(name)):
                ended = run(self.room, "version", sockname=name)
                is_said = ended.stderr.decode().startswith(f"watchman: {path}: ")
                self.same(f"a {name} as {path.name}", (ended.returncode, is_said), (1, True))
                path.unlink()
        self.same("the file of the links", precious.read_text(), "words")


def name_by_default(runtime: Path, temporary: Path) -> str:
    environment = {**os.environ, "XDG_RUNTIME_DIR": str(runtime), "TMPDIR": str(temporary)}
    environment.pop("WATCHMAN_SOCK", None)
    ended = subprocess.run(
        [str(COMMAND), "--no-spawn", "--no-pretty", "get-sockname"],
        env=environment,
        stdout=subprocess.PIPE,
        timeout=PATIENCE,
    )
    return str(json.loads(ended.stdout)["sockname"])
