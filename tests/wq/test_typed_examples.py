"""The examples of help and pages, in a project that has directories, files and links of the examples' own words."""

import contextlib
import os
import re
import shlex
import signal
import subprocess
from pathlib import Path
from typing import Iterator, List, Set

import built
from case import Beside
from scene import Scene
from wq.examples import EXAMPLES
from wq.usage import USAGE

PAGES = ("README.md", "docs/WQ.md", "docs/TUTORIAL.md", "docs/TROUBLESHOOTING.md", "docs/STABILITY.md")
# A call at the front of a line, after a prompt, or in code within a line.
LINE = re.compile(r"^ {2,}(?:\$ )?(wq [a-z].*)$|`(wq [a-z][^`]*)`", re.M)
# What stands for words of a reader, and what is said of a line behind it.
FORM = re.compile(r"[A-Z]{3,}|\.\.|\[")
BESIDE = re.compile(r" {3,}.*$| [|;>&].*$|; .*$|&&.*$")
# These end or start the server, or change what a person has elsewhere.
LEFT_OUT = ("start", "stop", "restart", "log", "ask")
# This one shows an error.
WRONG = ["find", "scr", "*.c"]
# A command without words is an example of these alone.
ALONE = ("find", "since", "follow", "wait", "status", "roots", "triggers", "unwatch", "watch", "doctor", "sockname")
GOING = ("follow", "run", "wait")
# So long a command that goes on is watched, in seconds.
MOMENT = 0.5
# Files and directories that examples are about.
FILES = ("src/main.c", "src/add.c", "tests/add.c", "docs/read.md", "dist/x.js")


def examples() -> Iterator[List[str]]:
    """The words of each example, once."""
    texts = [*(f"  {one.line}" for several in EXAMPLES.values() for one in several), USAGE]
    texts += [(built.TOP / page).read_text(encoding="utf-8") for page in PAGES]
    seen: Set[str] = set()
    for found in LINE.finditer("\n".join(texts)):
        line = BESIDE.sub("", found[1] or found[2]).strip()
        if line not in seen and not FORM.search(line.partition(" -- ")[0]):
            seen.add(line)
            with contextlib.suppress(ValueError):
                words = shlex.split(line)[1:]
                if words != WRONG and (words[1:] or words[0] in ALONE):
                    yield words


def plain_words(words: List[str]) -> List[str]:
    """The words of an example that a file could be named after."""
    return [word for word in words if re.fullmatch(r"[A-Za-z][\w.]*", word)]


def make(path: Path, kind: str) -> None:
    if not os.path.lexists(path):
        if kind == "directory":
            path.mkdir()
        elif kind == "file":
            path.touch()
        else:
            path.symlink_to("src")


class Examples(Beside):
    def test_examples(self) -> None:
        """Each example is taken, whatever is on disk."""
        found = list(examples())
        self.check("there are examples", len(found) > 25, map(str, found))
        with Scene(self.room) as scene:
            for name in FILES:
                scene.write(name)
            scene.write("Makefile", "all:\n")
            (scene.room / "src" / "project").mkdir(parents=True)
            for kind in ("", "directory", "file", "link"):
                for words in found:
                    for word in plain_words(words[1:]) if kind else ():
                        make(scene.tree / word, kind)
                for words in found:
                    if words[0] not in LEFT_OUT:
                        self.check_example(scene, words, kind)
                for word in (word for words in found for word in plain_words(words[1:])):
                    path = scene.tree / word
                    if path.is_symlink() or path.is_file() and path.stat().st_size == 0:
                        path.unlink()
                    elif path.is_dir() and not any(path.iterdir()):
                        path.rmdir()

    def check_example(self, scene: Scene, words: List[str], kind: str) -> None:
        words = [word.replace("~", str(scene.room), 1) if word.startswith("~") else word for word in words]
        if words[0] in GOING and "--once" not in words:
            with scene.begin(*words) as going:
                # Wrong words end it at once.
                with contextlib.suppress(subprocess.TimeoutExpired):
                    going.process.wait(MOMENT)
                status, errors = going.ends(signal.SIGINT), going.errors
        else:
            ended = scene.wq(*words)
            status, errors = ended.status, ended.errors
        self.check(f"wq {' '.join(words)} beside a {kind or 'clean checkout'}", status != 2, [errors.decode()])
