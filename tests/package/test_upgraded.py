"""A package over an older one, while a server of that runs: the server answers on, the next one is of the new version,
and removal leaves nothing."""

import os
import subprocess
from pathlib import Path

from case import Case, needs
from client import PATIENCE, Client
from clones import OLDER, older_package
from installing import UNIT, call, client_of, dpkg, in_debian, install_package, version_of, words_of


class Running:
    """A server that the unit of a package below a directory starts, with a client."""

    def __init__(self, room: Path, directory: Path) -> None:
        runtime = room / "runtime"
        runtime.mkdir(mode=0o700, exist_ok=True)
        unit = (directory / "usr" / in_debian(UNIT)).read_text().replace("/usr/bin/wqd", f"{directory}/usr/bin/wqd")
        environment = {"PATH": os.environ["PATH"], "HOME": str(room)}
        self.process = subprocess.Popen(words_of(unit, room, runtime), stderr=subprocess.DEVNULL, env=environment)
        self.client: Client = client_of(self.process, runtime / "wqd.sock")

    def __enter__(self) -> "Running":
        return self

    def __exit__(self, *_: object) -> None:
        self.client.ask("shutdown-server")
        self.client.close()
        try:
            self.process.wait(PATIENCE)
        finally:
            self.process.kill()
            self.process.wait()


class Upgraded(Case):
    @needs("dpkg")
    def test_upgrade(self) -> None:
        directory, root = self.room / "directory", self.room / "root"
        root.mkdir()
        (root / "a.c").touch()
        new = Path(call(self.room, "package", str(self.room / "new")).output.decode().strip())
        remove = install_package(older_package(self.room), directory)
        self.same("the older version", version_in(directory), OLDER)
        with Running(self.room, directory) as server:
            server.client.ask("watch", str(root))
            dpkg(directory, "--install", str(new))
            self.same("the version after the upgrade", version_in(directory), version_of(self.room))
            (root / "b.c").touch()
            reply = server.client.ask("query", str(root), {"fields": ["name"]})
            self.same("the server that was running", reply["files"], ["a.c", "b.c"])
        with Running(self.room, directory) as server:
            refused = server.client.ask("query", str(root), {"fields": ["name"]})
            self.same("a client of the next server", refused.get("error"), "E14: root is not watched")
            server.client.ask("watch", str(root))
            reply = server.client.ask("query", str(root), {"fields": ["name"]})
            self.same("that watches again", (reply["files"], reply["is_fresh_instance"]), (["a.c", "b.c"], True))
        remove()
        self.same("what is left of it", sorted(path.name for path in directory.glob("usr/**/*")), [])


def version_in(directory: Path) -> str:
    done = subprocess.run([str(directory / "usr/bin/wqd"), "--version"], stdout=subprocess.PIPE, check=True)
    return done.stdout.decode().split()[1]
