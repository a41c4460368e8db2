"""git's hook of contrib/, by a real git: what `git status` tells, and what the hook says if it cannot ask."""

import os
from pathlib import Path
from typing import Dict, List, Optional
from unittest.mock import patch

import built
from case import Case
from client import PATIENCE, Server
from wqclient.own_roots import set_own_root

HOOK = built.TOP / "contrib" / "git-fsmonitor-hook"
# What git says of the changes of `test_git`.
CHANGED = [
    "R  moved -> deep/moved",
    " M changed",
    " M deep/in/changed",
    " D deep/in/removed",
    " D gone/a",
    " D gone/b",
    " D removed",
    " D renamed",
    "?? added",
    '?? "deep/new/\\303\\244 b"',
    "?? deep/renamed",
]


class Repository:
    """A repository whose git asks the hook, if a socket is named."""

    def __init__(self, room: Path, sockname: Optional[str]) -> None:
        self.path = room / "repository"
        self.environment: Dict[str, str] = {
            "PATH": os.environ["PATH"],
            "HOME": str(room),
            "GIT_CONFIG_NOSYSTEM": "1",
            "LC_ALL": "C",
            "XDG_RUNTIME_DIR": str(room / "runtime"),
            "TMPDIR": str(room),
            "XDG_STATE_HOME": str(room / "state"),
        }
        if sockname is not None:
            self.environment["WQD_SOCK"] = sockname
        self.path.mkdir()
        self.git("init", "-q")
        for name, value in (("user.name", "a"), ("user.email", "a@b"), ("core.fsmonitorHookVersion", "2")):
            self.git("config", name, value)
        self.git("config", "core.fsmonitor", str(HOOK))

    def git(self, *words: str) -> built.Ended:
        command = ["git", "-C", str(self.path), *words]
        return built.call(command, env=self.environment, timeout=PATIENCE)

    def write(self, name: str, text: str) -> None:
        path = self.path / name
        path.parent.mkdir(parents=True, exist_ok=True)
        path.write_text(text)

    def status(self) -> List[str]:
        return self.git("status", "--porcelain", "--untracked-files=all").output.decode().splitlines()

    def hook(self, *words: str) -> built.Ended:
        """The hook as git runs it."""
        return built.call([str(HOOK), *words], cwd=self.path, env=self.environment)


class Hook(Case):
    def test_git(self) -> None:
        """Files that are added, changed, removed and renamed, at the top and in directories."""
        with Server(self.room) as server:
            repository = Repository(self.room, server.sockname)
            for name in "kept changed removed moved renamed deep/in/changed deep/in/removed gone/a gone/b".split():
                repository.write(name, f"{name}\n" * 9)
            repository.git("add", ".")
            repository.git("commit", "-qm", "first")
            self.same("nothing changed", repository.status(), [])
            self.same("git goes by the hook", repository.git("ls-files", "-f", "kept").output, b"h kept\n")
            repository.write("added", "")
            repository.write("deep/new/\u00e4 b", "")
            repository.write("changed", "other")
            repository.write("deep/in/changed", "other")
            for name in ("removed", "deep/in/removed", "gone/a", "gone/b"):
                (repository.path / name).unlink()
            (repository.path / "gone").rmdir()
            repository.git("mv", "moved", "deep/moved")
            (repository.path / "renamed").rename(repository.path / "deep" / "renamed")
            self.same("files that changed", sorted(repository.status()), sorted(CHANGED))
            self.same("the same again", sorted(repository.status()), sorted(CHANGED))
            repository.git("add", "-A")
            renamed = [line for line in repository.status() if line.startswith("R")]
            self.same("renamed files", renamed, ["R  moved -> deep/moved", "R  renamed -> deep/renamed"])
            repository.git("commit", "-qm", "second")
            self.same("nothing changed since", repository.status(), [])
            repository.write("kept", "other")
            self.same("a change since", repository.status(), [" M kept"])
            self.check_modes(repository)
            self.check_hook(repository)
            self.check_own_root(repository, server)

    def check_modes(self, repository: Repository) -> None:
        """The hook itself looks at executable bits, which the server does not keep."""
        repository.git("add", "-A")
        repository.git("commit", "-qm", "third")
        repository.status()
        path = repository.path / "deep" / "in" / "changed"
        for mode in (0o755, 0o644):
            path.chmod(mode)
            self.same(f"the mode {mode:o}", repository.status(), [" M deep/in/changed"])
            repository.git("commit", "-qam", f"{mode:o}")
            self.same(f"the mode {mode:o} is committed", repository.status(), [])

    def check_hook(self, repository: Repository) -> None:
        """What the hook writes: the next token and the names, each with a byte 0 after it."""
        fresh = repository.hook("2", "").output.split(b"\0")
        self.same("all files, without a token", fresh[1:], [b"/", b""])
        self.same(
            "all files, with the token of another", repository.hook("2", "123").output.split(b"\0")[1:], [b"/", b""]
        )
        self.same("no file", repository.hook("2", fresh[0].decode()).output, fresh[0] + b"\0")
        repository.write("changed", "once more")
        repository.write(".git/changed", "")
        repository.write(".gitignore", "")
        names = repository.hook("2", fresh[0].decode()).output.split(b"\0")[1:]
        self.same("the files since a token", names, [b".gitignore", b"changed", b""])

    def check_own_root(self, repository: Repository, server: Server) -> None:
        """git asks about a whole repository, also if `wq watch --root` made a part of it a root."""
        with patch.dict(os.environ, XDG_STATE_HOME=repository.environment["XDG_STATE_HOME"]), server.client() as client:
            set_own_root(str(repository.path / "deep"), True)
            client.ask("watch", str(repository.path / "deep"))
            repository.git("add", "-A")
            repository.git("commit", "-qm", "fourth")
            self.same("nothing changed beside a root", repository.status(), [])
            repository.write("kept", "beside")
            repository.write("deep/in/changed", "below")
            self.same("changes in both", sorted(repository.status()), [" M deep/in/changed", " M kept"])

    def test_hook_that_fails(self) -> None:
        """A hook that cannot ask says so in one line, and git looks at all files."""
        repository = Repository(self.room, None)
        repository.write("a", "a")
        own = self.room / f"wqd-{os.getuid()}"
        answer = "wqd: git looks at all files, since {} does not answer: No such file or directory\n"
        unset = f"wqd: git looks at all files, since {own} is not there\n".encode()
        self.same("without WQD_SOCK", repository.hook("2", ""), built.Ended(b"", unset, 1))
        ended = repository.git("status", "--porcelain")
        self.same("git without WQD_SOCK", (ended.output, ended.errors, ended.status), (b"?? a\n", unset, 0))
        (self.room / "runtime").mkdir(mode=0o700)
        with_session = answer.format(self.room / "runtime" / "wqd.sock").encode()
        self.same("in a session", repository.hook("2", ""), built.Ended(b"", with_session, 1))
        (self.room / "runtime").rmdir()
        own.mkdir(mode=0o755)
        others = f"wqd: git looks at all files, since {own} is no directory of yours alone\n".encode()
        self.same("a directory that others enter", repository.hook("2", ""), built.Ended(b"", others, 1))
        repository.environment["WQD_SOCK"] = str(self.room / "socket")
        reason = "No such file or directory"
        nobody = f"wqd: git looks at all files, since {self.room}/socket does not answer: {reason}\n".encode()
        self.same("without a server", repository.hook("2", ""), built.Ended(b"", nobody, 1))
        ended = repository.git("status", "--porcelain")
        self.same("git without a server", (ended.output, ended.status), (b"?? a\n", 0))
        for words in (("1", "123"), (), ("2",)):
            ended = repository.hook(*words)
            self.same(f"the words {words}", (ended.output, ended.status, ended.errors.count(b"\n")), (b"", 1, 1))
        with Server(self.room) as server, server.client() as client:
            for number in range(16):
                (self.room / str(number)).mkdir()
                client.ask("watch", str(self.room / str(number)))
            ended = repository.hook("2", "")
            refused = b"wqd: git looks at all files, since E13: too many roots\n"
            self.same("a root that is refused", ended, built.Ended(b"", refused, 1))
