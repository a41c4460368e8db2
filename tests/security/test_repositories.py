"""A repository of a stranger, whose settings name programs: `wq` asks git what is ignored there."""

import os
import shutil
import subprocess
from pathlib import Path

import built
from case import Beside, needs
from scene import Scene
from wq.git import SAFELY, environment

# Settings with which git runs a program.
PROGRAMS = (
    "core.fsmonitor",
    "core.pager",
    "core.editor",
    "core.sshCommand",
    "core.gitProxy",
    "diff.external",
    "credential.helper",
    "filter.x.clean",
    "filter.x.smudge",
    "filter.x.process",
    "alias.check-ignore",
    "core.askPass",
)
# The files that rules which are large leave.
LARGE = ["large/a.c", "large/holes/c.c"]


class Repositories(Beside):
    @needs("git")
    def test_repositories(self) -> None:
        with Scene(self.room) as scene:
            taken, tree = self.room / "taken", scene.tree / "cloned"
            tree.mkdir()
            script = self.room / "script"
            script.write_text(f'#!/bin/sh\necho "$0 $*" >> {taken}\n')
            script.chmod(0o755)
            git(tree, "init", "-q")
            for name in ("a.c", "b.c", "c.c"):
                scene.write(f"cloned/{name}")
            (tree / ".gitignore").write_text("b.c\n")
            (tree / ".gitattributes").write_text("* filter=x\n")
            git(tree, "add", "-f", "a.c", ".gitignore")
            for name in PROGRAMS:
                git(tree, "config", name, str(script))
            for hook in ("post-checkout", "post-index-change", "fsmonitor-watchman", "reference-transaction"):
                (tree / ".git" / "hooks").mkdir(exist_ok=True)
                shutil.copy(str(script), str(tree / ".git" / "hooks" / hook))
            self.same("files that are not ignored", scene.names("find", "cloned", "*.c"), ["cloned/a.c", "cloned/c.c"])
            for words in (
                ["since", "-n", "n", "cloned"],
                ["find", "cloned", "--no-ignore"],
                ["run", "cloned", "--once", "--", "true"],
            ):
                self.same(f"wq {words[0]}", scene.wq(*words).status, 0)
            self.same("programs of the repository that were run", taken.read_text() if taken.exists() else "", "")
            subprocess.run(["git", "status"], cwd=tree, stdout=subprocess.DEVNULL, stderr=subprocess.DEVNULL)
            self.same("the attack works without wq", taken.exists(), True)
            self.check_rules(scene, tree)
            self.check_fetching(scene)
            self.check_large_rules(scene)
            self.check_waiting(scene)

    def check_rules(self, scene: Scene, tree: Path) -> None:
        """Files of rules that are pipes, or have no end, are not waited for."""
        (tree / "pipe").mkdir()
        os.mkfifo(str(tree / "pipe" / ".ignore"))
        scene.write("cloned/pipe/x.c")
        (tree / "zero").mkdir()
        (tree / "zero" / ".ignore").symlink_to("/dev/zero")
        scene.write("cloned/zero/y.c")
        os.mkfifo(str(tree / "zero" / ".gitignore"))
        found = scene.names("find", "cloned", "*.c")
        self.same(
            "rules that are no regular file", found, ["cloned/a.c", "cloned/c.c", "cloned/pipe/x.c", "cloned/zero/y.c"]
        )

    def check_fetching(self, scene: Scene) -> None:
        """A repository that lacks a directory of its sparse index, and allows a program that fetches it."""
        tree, taken = scene.tree / "sparse", scene.room / "fetched"
        for name in ("in/a.c", "out/b.c"):
            scene.write(f"sparse/{name}")
        git(tree, "init", "-q")
        git(tree, "add", ".")
        git(tree, "-c", "user.name=x", "-c", "user.email=x@y", "commit", "-q", "-m", "x")
        git(tree, "sparse-checkout", "set", "--cone", "--sparse-index", "in")
        missing = (
            subprocess.run(["git", "rev-parse", "HEAD:out"], cwd=tree, stdout=subprocess.PIPE).stdout.decode().strip()
        )
        (tree / ".git" / "objects" / missing[:2] / missing[2:]).unlink()
        for name, value in (
            ("core.repositoryFormatVersion", "1"),
            ("extensions.partialClone", "origin"),
            ("remote.origin.promisor", "true"),
            ("remote.origin.url", f"ext::touch {taken}"),
            ("protocol.ext.allow", "always"),
        ):
            git(tree, "config", name, value)
        found = scene.wq("find", "sparse", "*.c")
        self.same("files of a repository that lacks a part", (found.status, b"in/a.c" in found.output), (0, True))
        self.same("a program that fetches", taken.exists(), False)
        command = [*SAFELY, "ls-files"]
        subprocess.run(
            command,
            cwd=tree,
            env={**environment(), "GIT_NO_LAZY_FETCH": "0"},
            stdout=subprocess.DEVNULL,
            stderr=subprocess.DEVNULL,
        )
        self.same("a program that fetches, by a git that knows no way to fetch nothing", taken.exists(), False)
        subprocess.run(["git", "ls-files"], cwd=tree, stdout=subprocess.DEVNULL, stderr=subprocess.DEVNULL)
        self.same("the attack works without wq", taken.exists(), True)

    def check_large_rules(self, scene: Scene) -> None:
        """Rules that are longer than a query may be, and a file of them that is longer than the memory."""
        tree = scene.tree / "large"
        for name in ("a.c", "b.o", "holes/c.c", "holes/d.o"):
            scene.write(f"large/{name}")
        git(tree, "init", "-q")
        for lines in (2_000, 100_000):
            (tree / ".gitignore").write_text("".join(f"a{number}*.x\n" for number in range(lines)) + "*.o\n")
            self.same(f"{lines} rules", scene.names("find", "large", "*.[co]"), LARGE)
        (tree / ".gitignore").write_text("*.o\n")
        (tree / "holes" / ".gitignore").touch()
        os.truncate(str(tree / "holes" / ".gitignore"), 1 << 40)
        for name in (".gitignore/.gitignore", ".gitignore/.ignore", "x/.ignore/x"):
            scene.write(f"large/named/{name}", "")
        self.same(
            "a file of rules that is long, and directories of such names", scene.names("find", "large", "*.[co]"), LARGE
        )

    def check_waiting(self, scene: Scene) -> None:
        """A file with rules that is a pipe, of which the server knows nothing: git waits for it, and is ended."""
        tree = scene.tree / "waiting"
        for name in ("a.c", "b.o", ".gitignore"):
            scene.write(f"waiting/{name}", "*.o\n")
        git(tree, "init", "-q")
        os.mkfifo(str(tree / ".git" / "pipe"))
        git(tree, "config", "core.excludesFile", str(tree / ".git" / "pipe"))
        found = scene.wq("find", "waiting", "*.[co]")
        words = f"wq: ignored files of {tree} are listed too, since git does not answer: it took over 10 s\n"
        self.same("a pipe for git", found, built.Ended(b"waiting/a.c\nwaiting/b.o\n", words.encode(), 0))


def git(tree: Path, *words: str) -> None:
    environment = {**os.environ, "GIT_CONFIG_NOSYSTEM": "1", "HOME": str(tree.parent)}
    subprocess.run(
        ["git", *words], cwd=tree, env=environment, check=True, stdout=subprocess.DEVNULL, stderr=subprocess.DEVNULL
    )
