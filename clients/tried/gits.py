"""git's own sample hook, which asks the command `watchman` which files changed."""

import shutil
import statistics
import time
from pathlib import Path
from typing import List

from tried.room import Outcome, Room, outcome

SAMPLE = Path("/usr/share/git-core/templates/hooks/fsmonitor-watchman.sample")
DIRECTORIES, FILES = 1_000, 40
TURNS = 5


def git(room: Room, *words: str) -> str:
    said = room.run(["git", "-c", "user.name=a", "-c", "user.email=a@b", *words])
    if said.returncode != 0:
        raise ValueError(f"git {' '.join(words)}: {said.stderr}")
    return said.stdout


def status(room: Room, *words: str) -> List[str]:
    return git(room, *words, "status", "--porcelain", "--no-renames").splitlines()


def begin(room: Room) -> None:
    """A repository with the hook in it."""
    git(room, "init", "-q", ".")
    hook = room.project / ".git" / "hooks" / "query-watchman"
    shutil.copy(SAMPLE, hook)
    hook.chmod(0o755)


def turn_on(room: Room) -> None:
    git(room, "config", "core.fsmonitor", ".git/hooks/query-watchman")
    git(room, "config", "core.fsmonitorHookVersion", "2")
    git(room, "config", "core.untrackedCache", "true")
    status(room)
    status(room)


def commit(room: Room, message: str) -> None:
    git(room, "add", "-A", ".")
    git(room, "commit", "-qm", message)


def try_hook(room: Room) -> Outcome:
    """Added, changed, removed and renamed files, and a checkout, with the hook and without it."""
    begin(room)
    for name in ("a", "b", "c", "d/e", "d/f"):
        room.put(name, f"{name}\n")
    commit(room, "one")
    turn_on(room)
    found, expected = [], []

    def look(lines: List[str]) -> None:
        found.extend([status(room), status(room, "-c", "core.fsmonitor=false")])
        expected.extend([lines, lines])

    look([])
    room.put("a", "changed\n")
    (room.project / "b").unlink()
    (room.project / "c").rename(room.project / "d" / "g")
    room.put("new")
    look([" M a", " D b", " D c", "?? d/g", "?? new"])
    commit(room, "two")
    look([])
    git(room, "checkout", "-q", "HEAD^")
    look([])
    room.put("d/e", "changed\n")
    look([" M d/e"])
    return outcome("added, changed, removed and renamed files; a checkout", found, expected)


def try_large_checkout(room: Room) -> Outcome:
    """The time of `git status` in a large repository, with the hook and without it."""
    begin(room)
    for number in range(DIRECTORIES):
        directory = room.project / f"d{number % 40}" / f"e{number}"
        directory.mkdir(parents=True)
        for name in range(FILES):
            (directory / f"f{name}.c").write_text(f"{number} {name}\n")
    commit(room, "one")
    for number in range(0, DIRECTORIES, 2):
        (room.project / f"d{number % 40}" / f"e{number}" / "f0.c").write_text("changed\n")
    commit(room, "two")
    without = seconds(room, "-c", "core.fsmonitor=false")
    turn_on(room)
    with_hook = seconds(room)
    git(room, "checkout", "-q", "HEAD^")
    room.put("d1/e1/f1.c", "changed\n")
    found = [status(room), status(room, "-c", "core.fsmonitor=false")]
    done = (
        f"a checkout that changes {DIRECTORIES // 2} of {DIRECTORIES * FILES:,} files; `git status` takes "
        f"{with_hook:.2f} s "
        f"with the hook and {without:.2f} s without it"
    )
    return outcome(done, found, [[" M d1/e1/f1.c"]] * 2)


def seconds(room: Room, *words: str) -> float:
    """The median of some turns."""
    taken = []
    for _ in range(TURNS):
        began = time.monotonic()
        status(room, *words)
        taken.append(time.monotonic() - began)
    return statistics.median(taken)
