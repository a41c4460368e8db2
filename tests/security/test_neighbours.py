"""Another user of the machine: sockets in the place of this user's, directories that are renamed, project files in
`/tmp`."""

import json
import os
import subprocess
import sys
from pathlib import Path

import built
from bridged import Bridge
from case import Beside
from neighbours import EXAMPLE, HOOK, PROGRAM, WATCHMAN, WQ, WQASM, called, environment_of
from users import OTHER, for_all, given, other, serve, of_two_users
from trees import make_files
from waiting import wait_until


@of_two_users
class Neighbours(Beside):
    def test_sockets_of_another(self) -> None:
        """A socket of another user where a variable or an option says that the server is: each client refuses what
        answers."""
        place = for_all(self.room)
        rogue = str(place / "rogue")
        with other(serve, rogue):
            wait_until(lambda: os.path.exists(rogue))
            for words in (
                [WQ, "find"],
                [WQ, "status"],
                [WQ, "roots"],
                [WQ, "follow"],
                [WQ, "run", "--", "true"],
                [WQ, "stop"],
                [WQASM, "add", "x", PROGRAM],
                [WQASM, "add", rogue, "x", PROGRAM],
                [HOOK, "2", ""],
                [EXAMPLE, "."],
                [WATCHMAN, "-U", rogue, "--no-spawn", "watch-list"],
            ):
                said = called(words, self.room, WQD_SOCK=rogue)
                refused = f"user {OTHER}" in said
                self.check(f"{Path(words[0]).name} {' '.join(words[1:])}", refused and "planted" not in said, [said])
            make_files(self.room / "root", ["a.c"])
            said = said_by_a_bridge(self.room, rogue)
            self.check("the bridge", f"user {OTHER}" in said and "planted" not in said, [said])

    def test_a_directory_that_all_write(self) -> None:
        """A directory of this user to which others may write is no place for the socket, whoever has one there."""
        place = for_all(self.room)
        own = self.room / "own"
        own.mkdir(mode=0o700)
        rogue = str(place / "wqd.sock")
        with other(serve, rogue):
            wait_until(lambda: os.path.exists(rogue))
            ended = called([WQ, "status"], self.room, XDG_RUNTIME_DIR=str(place), TMPDIR=str(own))
            expected = f"wq: no server listens on {own}/wqd-{os.getuid()}/wqd.sock; `wq start` starts one\n"
            self.same("wq", ended, expected)
            said = called([HOOK, "2", ""], self.room, XDG_RUNTIME_DIR=str(place), TMPDIR=str(own))
            self.same("git's hook", f"{own}/wqd-{os.getuid()}/wqd.sock does not answer" in said, True)
            shell = f'program=/none version=0; . "{built.TOP}/contrib/command.sh"; default_sockname'
            said = called(["sh", "-c", shell], self.room, XDG_RUNTIME_DIR=str(place), TMPDIR=str(own))
            self.same("wqd serve", said, f"{own}/wqd-{os.getuid()}/wqd.sock\n")
            said = called(
                [WATCHMAN, "--no-spawn", "--no-pretty", "get-sockname"],
                self.room,
                XDG_RUNTIME_DIR=str(place),
                TMPDIR=str(own),
            )
            self.same("watchman", json.loads(said)["sockname"], f"{own}/wqd-watchman-{os.getuid()}/sock")
        self.same("nothing was put there", sorted(os.listdir(place)), ["wqd.sock"])

    def test_the_quick_command(self) -> None:
        """Links of another user to the socket and the lock of this user's bridge: `watchman` prints no path of his
        directory."""
        place = for_all(self.room)
        planted = given(place / f"wqd-watchman-{os.getuid()}")
        with Bridge(self.room) as bridge, bridge.client() as client:
            client.ask("version")
            for name in ("sock", "sock.lock"):
                (planted / name).symlink_to(bridge.sockname + name[4:])
                os.chown(str(planted / name), OTHER, OTHER, follow_symlinks=False)
            planted.chmod(0o755)
            words = ["/bin/sh", WATCHMAN, "--no-pretty", "get-sockname"]
            said = called(words, self.room, TMPDIR=str(place), WQD_SOCK=bridge.server.sockname)
            self.check("a directory of another user", "no directory of yours alone" in said, [said])
            linked = self.room / "linked"
            linked.symlink_to(self.room)
            environment = {"WQD_SOCK": bridge.server.sockname, "PATH": "/none"}
            quick = [
                called(words, self.room, WATCHMAN_SOCK=path, **environment)
                for path in (bridge.sockname, f"{linked}/bridge")
            ]
            is_quick = [text.startswith('{"sockname"') for text in quick]
            self.same("the quick answer, by the path itself and by a link", is_quick, [True, False])

    def test_projects_of_another(self) -> None:
        """A project file that another user made in a directory above does not make that directory the root."""
        place = for_all(self.room)
        below = place / "mine" / "deep"
        make_files(below, ["a.c"])
        (self.room / "run").mkdir(mode=0o700)
        for name in (".git", ".hg", ".watchmanconfig"):
            os.mkfifo(str(place / name))
            os.chown(str(place / name), OTHER, OTHER)
        said = called([WQ, "watch", str(below)], self.room, XDG_RUNTIME_DIR=str(self.room / "run")).splitlines()[-1]
        self.same("the root of wq", said, str(below))
        called([WQ, "stop"], self.room, XDG_RUNTIME_DIR=str(self.room / "run"))
        with Bridge(self.room) as bridge, bridge.client() as client:
            self.same("the root of the bridge", client.ask("watch-project", str(below)).get("watch"), str(below))
            (place / "mine" / ".git").mkdir()
            reply = client.ask("watch-project", str(below))
            self.same("a root that is watched stays", reply.get("watch"), str(below))
            client.ask("watch-del", str(below))
            self.same(
                "the user's own project", client.ask("watch-project", str(below)).get("watch"), str(place / "mine")
            )


def said_by_a_bridge(room: Path, server: str) -> str:
    """What a client of a bridge is told whose server is another user's."""
    words = [
        sys.executable,
        "-IB",
        str(built.TOP / "clients" / "bridge"),
        "--server",
        server,
        "--sockname",
        str(room / "own"),
    ]
    with subprocess.Popen(words, stderr=subprocess.DEVNULL, env=environment_of(room)) as bridge:
        wait_until(lambda: (room / "own").exists())
        said = called([WATCHMAN, "-U", str(room / "own"), "--no-spawn", "watch-list"], room)
        bridge.kill()
    return said
