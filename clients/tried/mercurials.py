"""Mercurial with its extension fsmonitor, beside itself without it."""

import json
import random
import shutil
from pathlib import Path
from typing import Callable, List, Optional

from tried.room import PATIENCE, Outcome, Room, outcome
from wqclient.lines import Lines

ROUNDS = 100
MANY = 500
# How long nothing comes after a list, in seconds.
SILENCE = 3.0
DIRECTORIES = ["", "src", "src/deep", "lib", "doc"]
STEMS = ["a", "b", "main", "util", "ü", "s p"]
SUFFIXES = [".c", ".h", ".txt", ".o", ""]
IGNORED = ["*.o", "*.txt", "doc/**", "b*"]


class Repository:
    """A repository in which things change. Its own Mercurial has the extension."""

    def __init__(self, room: Room, draw: random.Random) -> None:
        self.room = room
        self.draw = draw
        self.number = 0
        self.hg("init", ".")
        (room.project / ".hg" / "hgrc").write_text("[extensions]\nfsmonitor=\n[ui]\nusername=a\n")

    def hg(self, *words: str) -> List[str]:
        said = self.room.run(["hg", "--noninteractive", *words])
        if said.returncode not in (0, 1):
            raise ValueError(f"hg {' '.join(words)}: {said.stderr}")
        return said.stdout.splitlines()

    def status(self, *words: str) -> List[str]:
        return sorted(self.hg("status", *words))

    def path(self) -> str:
        draw = self.draw
        return str(Path(draw.choice(DIRECTORIES)) / (draw.choice(STEMS) + draw.choice(SUFFIXES)))

    def put(self) -> None:
        """A file with another text. Nobody sees one in place of another of the same size and time."""
        self.number += 1
        path = self.path()
        if not (self.room.project / path).is_dir():
            self.room.put(path, f"{self.number}\n" * self.draw.randrange(1, 9))

    def files(self) -> List[Path]:
        return sorted(path for path in self.room.project.rglob("*") if path.is_file() and ".hg" not in path.parts)

    def drawn_file(self) -> Optional[Path]:
        files = self.files()
        return self.draw.choice(files) if files else None

    def delete(self) -> None:
        path = self.drawn_file()
        if path is not None:
            path.unlink()

    def rename(self) -> None:
        path, target = self.drawn_file(), self.room.project / self.path()
        if path is not None and not target.is_dir():
            target.parent.mkdir(parents=True, exist_ok=True)
            path.rename(target)

    def move_directory(self) -> None:
        found = [self.room.project / name for name in ("src/deep", "lib", "doc") if (self.room.project / name).is_dir()]
        if found:
            path = self.draw.choice(found)
            if self.draw.random() < 0.5:
                shutil.rmtree(path)
            else:
                self.number += 1
                path.rename(path.with_name(f"moved{self.number}"))

    def ignore(self) -> None:
        lines = self.draw.sample(IGNORED, self.draw.randrange(len(IGNORED)))
        self.room.put(".hgignore", "\n".join(["syntax: glob", *lines, ""]))

    def commit(self) -> None:
        self.hg("addremove", "-q")
        self.number += 1
        self.hg("commit", "-m", f"{self.number}")

    def update(self) -> None:
        tip = int((self.hg("log", "-r", "tip", "-T", "{rev}") or ["0"])[0])
        self.hg("update", "--clean", "-q", str(self.draw.randrange(tip + 1)))

    def revert(self) -> None:
        self.hg("revert", "--all", "--no-backup", "-q")

    def change(self) -> None:
        edits: List[Callable[[], None]] = [
            self.put,
            self.put,
            self.put,
            self.delete,
            self.rename,
            self.rename,
            self.move_directory,
            self.ignore,
        ]
        for _ in range(self.draw.randrange(1, 5)):
            self.draw.choice(edits)()
        if self.draw.random() < 0.4:
            self.draw.choice([self.commit, self.commit, self.update, self.revert])()


def lists_of_an_update(room: Room, repository: Repository) -> List[object]:
    """The notices and lists that come to a subscription during an update of many files, if it holds its lists back
    meanwhile."""
    for text in ("one", "two\n"):
        for number in range(MANY):
            room.put(f"many/f{number}", text)
        repository.commit()
    query = {"fields": ["name"], "expression": ["allof", ["type", "f"], ["dirname", "many"]], "defer": ["hg.update"]}
    found: List[object] = []
    with Lines(room.sockname(), PATIENCE) as lines:
        lines.send_bytes(json.dumps(["subscribe", str(room.project), "s", query]).encode() + b"\n")
        lines.line(), lines.line()
        repository.hg("update", "--clean", "-q", ".^")
        while lines.has_line(SILENCE):
            value = json.loads(lines.line())
            found.append(
                len(value["files"]) if "files" in value else next(key for key in value if key.startswith("state-"))
            )
    return found


def try_mercurial(room: Room) -> Outcome:
    """The same status with the extension and without it, after drawn changes; and its own look at what is installed."""
    repository = Repository(room, random.Random(5))
    for _ in range(10):
        repository.put()
    repository.commit()
    installed = repository.hg("--config", "extensions.fsmonitor=", "debuginstall")
    found = [any("watchman binary version 4.9.0" in line for line in installed), installed[-1]]
    differing = 0
    for _ in range(ROUNDS):
        repository.change()
        own, plain = repository.status(), repository.status("--config", "extensions.fsmonitor=!")
        differing += own != plain
    update = lists_of_an_update(room, repository)
    done = (
        f"`debuginstall`; the status is the same as without it over {ROUNDS} rounds of drawn edits, renames, "
        f"deletions, "
        f"directories, `.hgignore`, commit, update and revert; an update of {MANY} files comes in one list"
    )
    return outcome(
        done, [*found, differing, update], [True, "no problems detected", 0, ["state-enter", "state-leave", MANY]]
    )
