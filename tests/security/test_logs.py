"""Where servers and `wq` write: not into memory without end, and not through links of another user."""

import os
import subprocess
from pathlib import Path
from typing import Dict, List, Tuple

import built
from case import Beside
from client import PATIENCE
from scene import COMMAND, Scene
from users import OTHER, of_two_users


def log_of(scene: Scene) -> Path:
    return scene.room / "state" / "wq" / "logs" / (scene.sockname.strip("/").replace("/", "%") + ".log")


class Logs(Beside):
    def test_logs(self) -> None:
        """A log is on the disk, of this user alone, and begins anew at each start. One that is a link is refused."""
        with Scene(self.room) as scene:
            log = log_of(scene)
            listening = f"listening on {scene.sockname}\n"
            self.same("what a server says", log.read_text(), listening)
            self.same(
                "the rights of the log", (log.stat().st_mode & 0o777, log.parent.stat().st_mode & 0o777), (0o600, 0o700)
            )
            self.same(
                "beside the socket",
                sorted(path.name for path in scene.runtime.iterdir()),
                ["wqd.sock", "wqd.sock.start"],
            )
            scene.wq("stop")
            with open(log, "a", encoding="utf-8") as file:
                file.write("x" * 1_000_000)
            scene.wq("start")
            self.same("after another start", log.read_text(), listening)
            scene.wq("stop")
            precious = self.room / "precious"
            precious.write_text("words")
            log.unlink()
            log.symlink_to(precious)
            ended = scene.wq("start")
            self.same("a log that is a link", (ended.status, precious.read_text()), (3, "words"))

    @of_two_users
    def test_a_home_of_another(self) -> None:
        """The superuser with the home of another user, as sudo may leave it: nothing is written there."""
        self.room.chmod(0o755)
        home = self.directory("home")
        target = self.directory("target")
        (home / ".local" / "state").mkdir(parents=True)
        (home / ".local" / "state" / "wq").symlink_to(target)
        for path in (home, home / ".local", home / ".local" / "state"):
            os.chown(str(path), OTHER, OTHER)
        (self.room / "run").mkdir(mode=0o700)
        (self.room / "tree").mkdir()
        (self.room / "tree" / "a.c").touch()
        environment = {
            **os.environ,
            "HOME": str(home),
            "WQD": str(built.program_path()),
            "XDG_RUNTIME_DIR": str(self.room / "run"),
        }
        for name in ("XDG_STATE_HOME", "WQD_SOCK"):
            environment.pop(name, None)
        # `since` says that it cannot keep its clock there.
        for words, status in ((["find"], 0), (["since", "-n", "a"], 3), (["watch"], 0), (["stop"], 0)):
            ended = subprocess.run(
                [COMMAND, *words],
                cwd=self.room / "tree",
                env=environment,
                stdout=subprocess.PIPE,
                stderr=subprocess.PIPE,
                timeout=PATIENCE,
            )
            self.same(f"wq {words[0]}", ended.returncode, status)
        self.same("what is written through the link", list(target.iterdir()), [])
        self.check_a_cache_of_another(self.room, {**environment, "PATH": f"{self.room}/kit:{environment['PATH']}"})
        self.same("the log is beside the socket", (self.room / "run" / "wqd.sock.log").exists(), True)

    def check_a_cache_of_another(self, room: Path, environment: Dict[str, str]) -> None:
        """No program is kept and run below a directory of which another user could rename a part."""
        kit = room / "kit" / "rt"
        kit.parent.mkdir()
        kit.write_text("#!/bin/sh\nexit 1\n")
        kit.chmod(0o755)
        environment.pop("XDG_CACHE_HOME", None)
        (room / "open").mkdir()
        (room / "open").chmod(0o777)
        rows: List[Tuple[Dict[str, str], Path]] = [
            ({}, room / "home"),
            ({"XDG_CACHE_HOME": str(room / "open")}, room / "open"),
        ]
        for values, culprit in rows:
            ended = subprocess.run(
                [built.TOP / "contrib" / "unproved"],
                env={**environment, **values},
                capture_output=True,
                timeout=PATIENCE,
            )
            words = f"wqd: {culprit}: it is no directory of yours alone, and what is kept below is run\n"
            self.same(
                f"programs below {culprit.name}",
                built.Ended(ended.stdout, ended.stderr, ended.returncode),
                built.Ended(b"", words.encode(), 1),
            )
