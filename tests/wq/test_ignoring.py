"""`find`, `since`, `follow` and `run` leave out what git ignores: drawn trees beside `git ls-files`, and scenes."""

import json
import os
import random
import shutil
import signal
import subprocess
import sys
from pathlib import Path
from typing import List, Tuple

import built
from case import Beside
from rows import tables
from scene import Scene, said, touch_until

TREES, AT_ONCE = 300, 15
DIRECTORIES = ["a", "b", "build", "a b", ".x"]
FILES = ["a", "b", "c.o", "keep.o", "#c", "!d", "a b", "Build", ".x", "é", "[a]"]
LINES = [row.text() for row in tables(Path(__file__).with_name("ignoring.rows"))["lines"]]


def git(directory: Path, *words: str) -> bytes:
    home = {"HOME": str(directory), "XDG_CONFIG_HOME": str(directory), "GIT_CONFIG_NOSYSTEM": "1"}
    settings = {**os.environ, **home}
    return subprocess.run(["git", *words], cwd=directory, env=settings, check=True, stdout=subprocess.PIPE).stdout


# The files below src that git does not leave out, and one that .ignore takes in.
SOURCES = (".gitignore", "a.c", "a.o", "b b.c", "keep.o", "out")


class Ignoring(Beside):
    def test_drawn_trees(self) -> None:
        """Of each tree wq lists the files that `git ls-files` lists. Half of them have a file .ignore, which says
        nothing, and six are large."""
        draw = random.Random(7)
        with Scene(self.room) as scene:
            model = self.directory("model")
            git(model, "init", "--quiet", "--template=")
            names = [f"t{number}" for number in range(TREES)]
            for name in names:
                draw_tree(draw, self.room / "drawn" / name, model / ".git", is_large=name.endswith(("00", "50")))
            for place in range(0, TREES, AT_ONCE):
                some = names[place : place + AT_ONCE]
                ended = scene.call(["find", "-0", "-t", "f,l", *(str(self.room / "drawn" / name) for name in some)])
                front = f"{self.room}/drawn/"
                found = [line[len(front) :] for line in os.fsdecode(ended.output).split("\0")[:-1]]
                for name in some:
                    listed = git(
                        self.room / "drawn" / name, "ls-files", "-z", "--cached", "--others", "--exclude-standard"
                    )
                    expected = sorted(set(listed.split(b"\0")[:-1]))
                    own = [os.fsencode(line[len(name) + 1 :]) for line in found if line.startswith(f"{name}/")]
                    rules = [] if own == expected else (self.room / "drawn" / name).rglob(".gitignore")
                    self.same(f"{name}: {[path.read_text() for path in rules]}", (own, ended.errors), (expected, b""))

    def test_ignored(self) -> None:
        with Scene(self.room) as scene:
            shutil.rmtree(scene.tree / ".git")
            git(scene.tree, "init", "--quiet")
            scene.write(".gitignore", "*.o\ndist/\n/out\n")
            for name in ("src/a.o", "src/keep.o", "dist/x.js", "dist/in/y.js", "src/dist/z.js", "out", "src/out"):
                scene.write(name)
            scene.write("src/.gitignore", "!keep.o\n")
            self.check_ignored_in_lists(scene)
            self.check_ignored_by(scene)
            self.check_tracked(scene)
            self.check_ignored_since(scene)
            self.check_ignored_in_windows(scene)
            self.check_repositories(scene)
            self.check_without_git(scene)

    def check_ignored_in_lists(self, scene: Scene) -> None:
        left = [
            ".gitignore",
            "Makefile",
            "src/.gitignore",
            "src/a.c",
            "src/b b.c",
            "src/deep/c.h",
            "src/keep.o",
            "src/out",
        ]
        # Git does not ignore these, so they are listed here.
        left = sorted([*left, "node_modules/x/y.c", "target/z.c"])
        ignored = ["dist/in/y.js", "dist/x.js", "out", "src/a.o", "src/dist/z.js"]
        rows: List[Tuple[List[str], List[str]]] = [
            ([], left),
            (["--no-ignore"], sorted([*left, *ignored])),
            (["--gitignore"], left),
            (["*.o"], ["src/keep.o"]),
            (["src", "*.o"], ["src/keep.o"]),
            (["*.js", "--no-ignore"], ["dist/in/y.js", "dist/x.js", "src/dist/z.js"]),
            (["*.js", "-u"], ["dist/in/y.js", "dist/x.js", "src/dist/z.js"]),
            (["dist"], ["dist/in/y.js", "dist/x.js"]),
            (["dist/in", "*.c", "*.js"], ["dist/in/y.js"]),
            (["description", "-H"], [".git/description"]),
            (["-H", "--gitignore", "keep.*", "*.js"], ["src/keep.o"]),
            (["--count"], [str(len(left))]),
        ]
        for words, expected in rows:
            self.same(f"find {words} in a repository", scene.names("find", "-t", "f", *words), expected)
        for name in ("src/a.o", ".git/HEAD"):
            said_of = said(f"{name} is left out by a rule of git or by its name; -u lists it")
            self.same(f"find {name}", scene.wq("find", name), built.Ended(b"", said_of, 1))
            self.same(f"find -q {name}", scene.wq("find", "-q", name), built.Ended(b"", b"", 1))
            self.same(f"find -t d {name}", scene.wq("find", "-t", "d", name), built.Ended(b"", b"", 1))
        directories = ["node_modules", "node_modules/x", "src", "src/deep", "target"]
        self.same("an ignored directory", scene.names("find", "-t", "d"), directories)
        reply = json.loads(scene.wq("find", "--json", "*.o").output)
        self.same("find --json in a repository", reply["files"], ["src/keep.o"])

    def check_ignored_by(self, scene: Scene) -> None:
        """Other files that say what is ignored, and a .gitignore in no repository."""
        scene.write(".git/info/exclude", "Make*\n")
        self.same(".git/info/exclude", scene.names("find", "M*", "*.h"), ["src/deep/c.h"])
        (scene.tree / ".git" / "info" / "exclude").unlink()
        for path, settings in (
            (".config/git/ignore", {"XDG_CONFIG_HOME": ""}),
            ("xdg/git/ignore", {"XDG_CONFIG_HOME": str(scene.room / "xdg")}),
            (
                "mine",
                {"GIT_CONFIG_COUNT": "1", "GIT_CONFIG_KEY_0": "core.excludesFile", "GIT_CONFIG_VALUE_0": "~/mine"},
            ),
        ):
            (scene.room / path).parent.mkdir(parents=True, exist_ok=True)
            (scene.room / path).write_text("c.h\n")
            self.same(f"ignored by {path}", scene.wq("find", "*.h", "M*", **settings).output, b"Makefile\n")
            (scene.room / path).unlink()
        scene.write(".ignore", "Makefile\n!src/a.o\ndeep/\n")
        self.same(
            ".ignore beside .gitignore",
            scene.names("find", "-t", "f"),
            sorted([".gitignore", ".ignore", *(f"src/{name}" for name in SOURCES), "node_modules/x/y.c", "target/z.c"]),
        )
        (scene.tree / ".ignore").unlink()
        plain = scene.room / "plain"
        for name, text in (("a.o", "x"), ("b", "x"), ("in/c", "x"), (".gitignore", "*.o\nin/\n")):
            (plain / name).parent.mkdir(parents=True, exist_ok=True)
            (plain / name).write_text(text)
        names = [f"{plain}/{name}" for name in (".gitignore", "a.o", "b", "in", "in/c")]
        self.same("a .gitignore in no repository", scene.names("find", plain), names)
        self.same("--gitignore in no repository", scene.names("find", plain, "--gitignore"), [names[0], names[2]])
        (plain / ".ignore").write_text("!a.o\n")
        self.same(
            "--gitignore with .ignore",
            scene.names("find", plain, "--gitignore"),
            [names[0], f"{plain}/.ignore", *names[1:3]],
        )

    def check_tracked(self, scene: Scene) -> None:
        """An ignored file that git tracks is listed, and of its directory nothing else."""
        git(scene.tree, "add", "--force", "dist/in/y.js", "src/a.o")
        self.same(
            "ignored files that are tracked",
            scene.names("find", "*.o", "dist/**", "/dis?"),
            ["dist", "dist/in", "dist/in/y.js", "src/a.o", "src/keep.o"],
        )
        git(scene.tree, "rm", "--quiet", "--cached", "dist/in/y.js", "src/a.o")
        self.same("once they are not", scene.names("find", "*.o", "dist/**"), ["src/keep.o"])

    def check_ignored_since(self, scene: Scene) -> None:
        scene.wq("since", "-n", "a", ".")
        scene.wq("since", "-n", "a", ".", "--no-ignore")
        for name in ("src/new.o", "dist/new.js", "src/new.c", "later/dist/new.js", "gone/dist/new"):
            scene.write(name)
        self.same("since in a repository", scene.names("since", "-n", "a", "."), ["+ src/new.c"])
        shutil.rmtree(scene.tree / "gone")
        (scene.tree / "src" / "new.o").unlink()
        (scene.tree / "src" / "new.c").unlink()
        self.same("files that went", scene.names("since", "-n", "a", "."), ["- src/new.c"])
        shutil.rmtree(scene.tree / "later" / "dist")
        (scene.tree / "later").rmdir()
        (scene.tree / "later").symlink_to("src")
        self.same("a link in place of a directory", scene.names("since", "-n", "a", ".")[0], "~ later")
        (scene.tree / "later").unlink()
        for number in range(600):
            scene.write(f"many/{number}.o")
            scene.write(f"many/{number}.c")
        self.same("many files", len(scene.names("since", "-n", "a", ".")), 601)
        shutil.rmtree(scene.tree / "many")
        self.same("many that went", len(scene.names("since", "-n", "a", ".")), 600)

    def test_rules_that_change(self) -> None:
        """What a changed rule shuts out goes, and what it no longer shuts out comes."""
        with Scene(self.room) as scene:
            shutil.rmtree(scene.tree / ".git")
            git(scene.tree, "init", "--quiet")
            scene.write(".gitignore", "*.o\n")
            for name in ("src/a.o", "dist/x.js", "dist/in/y.js"):
                scene.write(name)
            scene.wq("since", ".")
            scene.write(".gitignore", "dist/\n")
            for name in ("src/b.o", "dist/new.js"):
                scene.write(name)
            told = ["+ src/a.o", "+ src/b.o", "- dist/in/y.js", "- dist/x.js", "~ .gitignore"]
            self.same("since by another rule", sorted(scene.names("since", ".")), sorted(told))
            self.same("told once", scene.wq("since", "."), built.Ended(b"", b"", 1))
            (scene.tree / ".gitignore").unlink()
            told = ["+ dist/in/y.js", "+ dist/new.js", "+ dist/x.js", "- .gitignore"]
            self.same("since without rules", sorted(scene.names("since", ".")), sorted(told))
            scene.write(".git/info/exclude", "*.o\n")
            self.same("a rule of the repository", scene.names("since", "."), ["- src/a.o", "- src/b.o"])
            with scene.begin("follow", ".") as going:
                touch_until(scene, going, "src/a.c")
                scene.write(".gitignore", "dist/\n!a.o\n")
                for line in ("- dist/in/y.js\n", "- dist/x.js\n", "+ src/a.o\n"):
                    self.check(f"follow tells {line!r}", going.prints(line))
                (scene.tree / ".gitignore").unlink()
                for line in ("+ dist/in/y.js\n", "- src/a.o\n"):
                    self.check(f"follow tells {line!r}", going.prints(line))

    def check_ignored_in_windows(self, scene: Scene) -> None:
        """follow and run leave out what is ignored, also by rules that come while they go on."""
        with scene.begin("follow", ".") as going:
            touch_until(scene, going, "src/a.c")
            scene.write("src/more.o")
            scene.write("dist/more.js")
            scene.write("one.c")
            self.check("follow in a repository", going.prints("+ one.c\n"))
            ignored = [line for line in going.output.split(b"\n") if b".o" in line or b"more.js" in line]
            self.same("no ignored file", ignored, [])
            scene.write(".gitignore", "*.c\n")
            self.check("a rule that changes", going.prints("~ .gitignore\n"))
            scene.write("two.c")
            scene.write("dist/two.js")
            self.check("follow by the new rule", going.prints("+ dist/two.js\n"))
            git(scene.tree, "add", "--force", "two.c")
            scene.write("two.c", "more")
            self.check("a file that is tracked now", going.prints("two.c\n"))
            self.same("Ctrl-C", (going.ends(signal.SIGINT), going.errors.count(b"\n")), (130, 1))
            self.check(
                "what follow counts", going.errors.startswith(b"wq: following 10 files below ."), [str(going.errors)]
            )
        git(scene.tree, "rm", "--quiet", "--cached", "--force", "two.c")
        scene.write(".gitignore", "*.o\ndist/\n/out\n")
        with scene.begin("run", "src", "*.o", "*.js", "--once", "--", "echo", "{}") as going:
            self.same("run in a repository", (going.ends(), going.output), (0, b"./src/keep.o\n"))
        with scene.begin("run", "*.js", "--once", "--no-ignore", "--", "echo", "{}") as going:
            self.same("run --no-ignore", (going.ends(), going.output.count(b".js")), (0, 6))

    def check_repositories(self, scene: Scene) -> None:
        """A repository in another one has its own rules; a root may lie below its repository."""
        inner = scene.tree / "inner"
        inner.mkdir()
        git(inner, "init", "--quiet")
        for name, text in (("a.o", "x"), ("b.c", "x"), (".gitignore", "b.c\n")):
            (inner / name).write_text(text)
        self.same(
            "a repository in another one",
            scene.names("find", "inner/*", "*.o"),
            ["inner/.gitignore", "inner/a.o", "src/keep.o"],
        )
        scene.write("dist/inner/x")
        shutil.copytree(inner / ".git", scene.tree / "dist" / "inner" / ".git")
        self.same("one that the other ignores", scene.wq("find", "?", "-t", "f"), built.Ended(b"", b"", 1))
        scene.write("src/.watchmanconfig", "{}")
        self.same("a root below its repository", scene.names("find", "src", "*.o", "*.js"), ["src/keep.o"])
        (scene.room / "monitor").write_text('#!/bin/sh\necho > "$0.ran"\n')
        (scene.room / "monitor").chmod(0o755)
        git(scene.tree, "config", "core.fsmonitor", str(scene.room / "monitor"))
        self.same("a repository that names a program", scene.names("find", "src", "*.o"), ["src/keep.o"])
        self.same("which does not run", (scene.room / "monitor.ran").exists(), False)
        git(scene.tree, "config", "core.worktree", "/not/there")
        ended = scene.wq("find", "*.o")
        words = f"ignored files of {scene.tree} are listed too, since git does not answer: "
        found = (ended.status, ended.errors.startswith(said(words)[:-1]), ended.errors.count(b"\n"))
        self.same("a repository that git refuses", found, (0, True, 1))
        git(scene.room, "config", "--file", str(scene.tree / ".git" / "config"), "--unset", "core.worktree")

    def check_without_git(self, scene: Scene) -> None:
        programs = scene.room / "programs"
        programs.mkdir()
        (programs / "python3").symlink_to(sys.executable)
        (programs / "wq").symlink_to(built.TOP / "wq")
        ended = scene.wq("find", "*.o", PATH=str(programs))
        words = f"ignored files of {scene.tree} are listed too, since git does not answer: it is not installed"
        self.same("without git", (ended.output.count(b".o"), ended.errors), (4, said(words)))


def draw_tree(draw: random.Random, top: Path, repository: Path, is_large: bool) -> None:
    places = [top]
    top.mkdir(parents=True)
    if is_large:
        for number in range(90):
            places.append(top / draw.choice(DIRECTORIES) / f"{number % 12}" / draw.choice([*DIRECTORIES, f"{number}"]))
            places[-1].mkdir(parents=True, exist_ok=True)
    for _ in range(draw.randrange(1, 7)):
        place = draw.choice(places) / draw.choice(DIRECTORIES)
        place.mkdir(exist_ok=True)
        places.append(place)
    for place in places:
        for name in draw.sample(FILES, 8 if is_large else draw.randrange(6)):
            if not (place / name).exists():
                (place / name).touch()
        if draw.random() < (0.05 if is_large else 0.5):
            (place / ".gitignore").write_text(drawn_lines(draw))
    if draw.random() < 0.3 and not os.path.lexists(top / "link"):
        (top / "link").symlink_to(draw.choice(DIRECTORIES))
    if draw.random() < 0.5:
        (draw.choice(places) / ".ignore").write_text("# nothing\n")
    shutil.copytree(repository, top / ".git")
    if draw.random() < 0.3:
        (top / ".git" / "info").mkdir(exist_ok=True)
        (top / ".git" / "info" / "exclude").write_text(drawn_lines(draw))
    files = [str(path.relative_to(top)) for path in top.rglob("*") if path.is_file() and ".git" not in path.parts]
    tracked = draw.sample(sorted(files), min(len(files), draw.randrange(4)))
    if tracked:
        git(top, "--literal-pathspecs", "add", "--force", "--", *tracked)


def drawn_lines(draw: random.Random) -> str:
    ending = draw.choice(["\n", "\n", "\r\n"])
    return ending.join(draw.sample(LINES, draw.randrange(1, 6))) + draw.choice(["", ending])
