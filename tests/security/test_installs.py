"""`./install` into a prefix in which others may write."""

import os
import shutil
from pathlib import Path
from typing import List

import built
from case import Beside
from client import PATIENCE
from users import OTHER, of_two_users

ALL = ("--as-watchman", "--adapters")
# An install, and a removal.
WAYS: List[List[str]] = [[], ["--remove"]]
NO_LINK = b"it is no directory, and a link is not followed"


def install(room: Path, *words: str, umask: int = 0o022, **variables: str) -> built.Ended:
    environment = {**os.environ, "WQD": str(built.program_path()), "HOME": str(room), **variables}
    return built.call(
        [str(built.TOP / "install"), *words],
        env=environment,
        timeout=PATIENCE,
        preexec_fn=lambda: os.umask(umask) and None,
    )


class Installs(Beside):
    def test_planted_links(self) -> None:
        """A link in place of a file that is to be written: what it leads to stays as it is."""
        prefix, precious = self.room / "prefix", self.room / "precious"
        (prefix / "bin").mkdir(parents=True)
        precious.write_text("words")
        for name in (".wq.new", "wq", ".wqd.new"):
            (prefix / "bin" / name).symlink_to(precious)
        self.same("./install", install(self.room, str(prefix)).status, 0)
        self.same("what the links led to", precious.read_text(), "words")
        self.same("the command is a file", (prefix / "bin" / "wq").is_symlink(), False)
        left = [path.name for path in (prefix / "bin").iterdir() if path.name.startswith(".") and not path.is_symlink()]
        self.same("what is left beside it", left, [])

    def test_planted_directories_to_write(self) -> None:
        """A link in place of each directory, before a first install: nothing is written where it leads."""
        prefix, precious = self.room / "prefix", self.directory("precious")
        for path in directories_of(self.room):
            (prefix / path).parent.mkdir(parents=True)
            (prefix / path).symlink_to(precious)
            ended = install(self.room, *ALL, str(prefix))
            said = f"install: {prefix / path}: ".encode() + NO_LINK in ended.errors
            self.same(f"./install over a link {path}", (ended.status, said, list(precious.iterdir())), (1, True, []))
            shutil.rmtree(prefix)

    def test_planted_directories_to_delete(self) -> None:
        """A link in place of each directory that was installed: nothing is removed where it leads."""
        first, prefix = self.room / "first", self.room / "prefix"
        for number, path in enumerate(directories_of(self.room)):
            shutil.copytree(first, prefix)
            away = self.room / f"away{number}"
            (prefix / path).rename(away)
            (prefix / path).symlink_to(away)
            expected = sorted(away.rglob("*"))
            ended = install(self.room, "--remove", str(prefix))
            self.check(f"--remove over a link {path}", ended.status == 1 and NO_LINK in ended.errors, [str(ended)])
            self.same(f"what {path} led to", sorted(away.rglob("*")), expected)
            shutil.rmtree(prefix)

    def test_a_line_through_a_link(self) -> None:
        """A line of the list that goes through a link removes nothing there, at an install and at a removal."""
        prefix, precious = self.room / "prefix", self.directory("precious")
        (prefix / "lib" / "wqd").mkdir(parents=True)
        (prefix / "evil").symlink_to(precious)
        (precious / "shadow").write_text("words")
        for words in WAYS:
            (prefix / "lib" / "wqd" / "files").write_text("evil/shadow\n")
            ended = install(self.room, *words, str(prefix))
            said = f"install: {prefix}/evil: ".encode() + NO_LINK in ended.errors
            self.same(f"./install {words}", (ended.status, said), (1, True))
            self.same("what the link led to", (precious / "shadow").read_text(), "words")

    def test_staged(self) -> None:
        """Below DESTDIR a link leads nowhere either, and the files name the prefix alone."""
        stage, precious = self.room / "stage", self.directory("precious")
        ended = install(self.room, "/opt/wqd", DESTDIR=str(stage))
        self.same("how it ends", ended.status, 0)
        unit = (stage / "opt/wqd/share/systemd/user/wqd.service").read_text()
        self.check("the unit", 'ExecStart="/opt/wqd/bin/wqd" serve' in unit, [unit])
        self.check("nothing is said of a PATH", b"PATH" not in ended.output, [str(ended.output)])
        removed = install(self.room, "--remove", "/opt/wqd", DESTDIR=str(stage))
        self.same("how it is removed", (removed.status, (stage / "opt/wqd").exists()), (0, False))
        (stage / "opt/wqd").mkdir()
        (stage / "opt/wqd/share").symlink_to(precious)
        ended = install(self.room, "/opt/wqd", DESTDIR=str(stage))
        self.same("a link in the stage", (ended.status, NO_LINK in ended.errors, os.listdir(precious)), (1, True, []))

    @of_two_users
    def test_a_list_of_another_user(self) -> None:
        """A list that another user wrote, or may write, is not believed."""
        prefix, kept = self.room / "prefix", self.room / "prefix" / "kept"
        planted = prefix / "lib" / "wqd" / "files"
        for owner, mode, reason in ((OTHER, 0o644, f"that of user {OTHER}"), (0, 0o666, "others may write to it")):
            planted.parent.mkdir(parents=True, exist_ok=True)
            planted.write_text("kept\n")
            planted.chmod(mode)
            os.chown(planted, owner, owner)
            kept.write_text("words")
            for words in WAYS:
                ended = install(self.room, *words, str(prefix))
                found = (ended.status, reason in ended.errors.decode(), kept.exists())
                self.same(f"./install {words}: {reason}", found, (1, True, True))

    def test_packages(self) -> None:
        """`./package` writes through no link that has the name of a package."""
        out, precious = self.directory("out"), self.room / "precious"
        words = [str(built.TOP / "package"), "--adapters", str(out)]
        names = [Path(line).name for line in built.call(words).output.decode().splitlines()]
        for name in names:
            precious.write_text("words")
            (out / name).unlink()
            (out / name).symlink_to(precious)
        self.same("./package", built.call(words).status, 0)
        self.same("what the links led to", (len(names), precious.read_text()), (4, "words"))

    def test_rights(self) -> None:
        """Whatever the umask is, nobody else may write to what is installed, and everybody may read it."""
        for umask in (0, 0o077):
            prefix = self.room / f"prefix{umask}"
            self.same(
                "./install", install(self.room, "--as-watchman", "--adapters", str(prefix), umask=umask).status, 0
            )
            paths = [path for path in prefix.rglob("*")]
            wrong = [
                f"{path} {path.stat().st_mode:o}"
                for path in paths
                if path.stat().st_mode & 0o777 != (0o755 if path.is_dir() or os.access(str(path), os.X_OK) else 0o644)
            ]
            self.same(f"rights with the umask {umask:o}", wrong, [])

    def test_lists_of_others(self) -> None:
        """The list of what was installed names nothing outside of the prefix."""
        prefix, precious = self.room / "prefix", self.room / "precious"
        for line in (str(precious), "../precious", "bin/../../precious"):
            precious.write_text("words")
            (prefix / "lib" / "wqd").mkdir(parents=True, exist_ok=True)
            (prefix / "lib" / "wqd" / "files").write_text(f"{line}\n")
            for words in reversed(WAYS):
                ended = install(self.room, *words, str(prefix))
                self.same(f"the line {line}", (ended.status, b"names what is not below" in ended.errors), (1, True))
            self.same("what it names", precious.read_text(), "words")


def directories_of(room: Path) -> List[str]:
    """Each directory that an install into `first` below the room makes."""
    first = room / "first"
    install(room, *ALL, str(first))
    return sorted(str(path.relative_to(first)) for path in first.rglob("*") if path.is_dir())
