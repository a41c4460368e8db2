"""`wq find`: what is listed, how it is printed, which root is watched, and the words that are wrong."""

import json
import os
import shutil
import subprocess
import time
from typing import Callable, List

import built
from case import Beside
from client import Client
from scene import Scene, Word, check_names, check_wrong, said, wrong

C_FILES = ["src/a.c", "src/b b.c"]


class Finding(Beside):
    def test_find(self) -> None:
        with Scene(self.room) as scene:
            self.check_globs(scene)
            self.check_options(scene)
            self.check_brackets(scene)
            self.check_printing(scene)
            self.check_names(scene)
            self.check_json(scene)
            self.check_unknown(scene)
            self.check_wrong_words(scene)
            self.check_programs(scene)

    def check_globs(self, scene: Scene) -> None:
        """Globs of the last part of names and of whole names, directories, and what is left out."""
        check_names(self, scene, "globs")
        self.same("find in another directory", scene.names("find", scene.tree / "src", "a*"), [f"{scene.tree}/src/a.c"])

    def check_options(self, scene: Scene) -> None:
        scene.write("large", "x" * 5_000)
        os.utime(scene.tree / "large", (1_000_000_000, 1_000_000_000))
        scene.write("empty", "")
        (scene.tree / "link").symlink_to("large")
        check_names(self, scene, "options")
        dotted = scene.wq("find", "-e", ".h")
        note = 'a suffix has no dot at its front: ".h" is taken as "h"'
        self.same("a suffix with a dot", dotted, built.Ended(b"src/deep/c.h\n", said(note), 0))
        here = scene.wq("find", "./M*")
        self.same("a glob with ./", here, built.Ended(b"Makefile\n", b"", 0))
        self.same("nothing found", scene.wq("find", "*.nothing"), built.Ended(b"", b"", 1))
        self.same("a count of nothing", scene.wq("find", "--count", "*.nothing"), built.Ended(b"0\n", b"", 1))

    def check_brackets(self, scene: Scene) -> None:
        scene.write("pages/[id].tsx")
        scene.write("pages/[deep]/d.tsx")
        check_names(self, scene, "brackets")
        shutil.rmtree(scene.tree / "pages")

    def check_printing(self, scene: Scene) -> None:
        self.same("find -0", scene.wq("find", "-0", "*.c").output, b"src/a.c\0src/b b.c\0")
        reply = json.loads(scene.wq("find", "--json", "*.h").output)
        self.same(
            "find --json",
            (reply["files"], reply["is_fresh_instance"], reply["version"]),
            (["src/deep/c.h"], True, "wq-1"),
        )
        long = json.loads(scene.wq("find", "--json", "-l", "*.h").output)["files"][0]
        self.same("find --json -l", sorted(long), ["mtime_ms", "name", "size", "type"])
        rows = scene.names("find", "-l", "large", "empty")
        moment = time.strftime("%Y-%m-%d %H:%M:%S", time.localtime(1_000_000_000))
        self.same("find -l", (rows[0][:6], rows[0][-5:], rows[1]), ("f    0", "empty", f"f 5000 {moment} large"))
        self.same("a pipe has no colours", scene.wq("find", "-t", "d").output, b"src\nsrc/deep\n")
        scene.names("find", "--keep")
        scene.write("later")
        self.same(
            "find --no-sync of a tree that was just watched", scene.names("find", "--no-sync", "Makefile"), ["Makefile"]
        )

    def check_json(self, scene: Scene) -> None:
        """The names are those that find prints, also in JSON; each directory is one line, or each file with --jsonl."""
        reply = json.loads(scene.wq("find", "src", "*.h", "--json").output)
        self.same(
            "find DIR --json",
            (reply["root"], reply["below"], reply["files"]),
            (str(scene.tree), "src", ["src/deep/c.h"]),
        )
        both = [json.loads(line) for line in scene.names("find", "src", "target", "*.c", "--json")]
        self.same(
            "two directories",
            [(reply["below"], reply["files"]) for reply in both],
            [("src", C_FILES), ("target", ["target/z.c"])],
        )
        self.same(
            "find --json --jsonl",
            scene.names("find", "src", "target", "*.c", "--json", "--jsonl"),
            [f'{{"name":"{name}","type":"f"}}' for name in [*C_FILES, "target/z.c"]],
        )
        self.same(
            "find --jsonl alone", scene.names("find", "src", "*.h", "--jsonl"), ['{"name":"src/deep/c.h","type":"f"}']
        )
        counts = [json.loads(line) for line in scene.names("find", "src", "target", "*.c", "--json", "--count")]
        self.same(
            "find --json --count",
            [(reply["below"], reply["count"], "files" in reply) for reply in counts],
            [("src", 2, False), ("target", 1, False)],
        )
        self.same("find --count of two directories", scene.names("find", "src", "target", "*.c", "--count"), ["3"])

    def check_unknown(self, scene: Scene) -> None:
        """A word that names nothing is a mistake; one that names a file that is gone is none."""
        unknown = (
            "scr is no directory here; did you mean src?; write '*scr*' for names that contain it, or './scr' for a "
            "file of that name"
        )
        for command in (["find"], ["since", "-n", "name"], ["follow"], ["wait"], ["run"]):
            ends = ["--", "true"] if command == ["run"] else []
            for words in (["scr", "*.c"], ["*.c", "scr"], ["src", "scr"]):
                wrong(self, scene, [*command, *words, *ends], unknown)
        wrong(
            self, scene, ["find", "src/b.c"], "src/b.c is no directory here; write './src/b.c' for a file of that name"
        )
        wrong(self, scene, ["find", "scr/"], "scr/ is no directory here")
        empty = "a word is empty, as of a variable that is not set; write . for the current directory"
        for words in (["find", ""], ["since", "", "*.c"], ["run", "", "--", "true"]):
            wrong(self, scene, words, empty)
        wrong(
            self, scene, ["find", "../scr"], "../scr is no directory here, and no name below a directory has '..' in it"
        )
        outside = "is outside of the directories that are asked about; write"
        for word, instead in (
            ("/dev/null", "/dev ./null"),
            ("/etc/host*", "/etc './host*'"),
            ("/etc/*/{a,b}", "/etc '*/{a,b}'"),
            ("../x*", ".. './x*'"),
            ("src/../M*", "src/.. './M*'"),
        ):
            for command in (["find"], ["find", "src"], ["since"], ["trigger", "t"]):
                ends = ["--", "true"] if command[0] == "trigger" else []
                wrong(self, scene, [*command, word, *ends], f"{word} {outside}: {instead}")
        self.same("a whole path below", scene.names("find", scene.tree / "src" / "a*"), ["src/a.c"])
        self.same("a file that may come", scene.wq("find", "./scr"), built.Ended(b"", b"", 1))
        scene.write("src/gone.c")
        scene.wq("watch")
        scene.names("find", "gone.c")
        (scene.tree / "src" / "gone.c").unlink()
        self.same("a file that was there", scene.wq("find", "gone.c"), built.Ended(b"", b"", 1))
        scene.wq("unwatch")

    def check_names(self, scene: Scene) -> None:
        """Names with blanks, quotes, newlines, and of bytes that are no UTF-8."""
        odd = ["with 'one' quote", 'with "two"', "with\nnewline", "-dash", "ü", "back\\slash", "[class]"]
        for name in odd:
            scene.write(f"odd/{name}")
        found = scene.wq("find", "odd", "-0").output.decode().split("\0")[:-1]
        self.same("odd names", sorted(found), sorted(f"odd/{name}" for name in odd))
        self.same("a name with a newline in a pipe", scene.wq("find", "odd", "*newline").output, b"odd/with\nnewline\n")
        self.same("a glob after two dashes", scene.names("find", "odd", "--", "-dash"), ["odd/-dash"])
        self.same("a glob with an escape", scene.names("find", "odd", "\\[class\\]"), ["odd/[class]"])
        self.same("a directory with a class in its name", scene.names("find", "odd", "ü"), ["odd/ü"])
        (scene.tree / "[x]" / "y").mkdir(parents=True)
        scene.write("[x]/y/target/in")
        self.same(
            "a directory like a pattern",
            scene.names("find", "[x]", "-H"),
            ["[x]/y", "[x]/y/target", "[x]/y/target/in"],
        )
        self.same("a glob below it", scene.names("find", "[x]", "y/*", "-H"), ["[x]/y/target"])
        not_utf8: List[List[Word]] = [
            ["find", b"\xff"],
            ["since", b"\xff"],
            ["find", ".", b"a\xff"],
            ["watch", b"\xff"],
            ["find", "--program", b"\xff"],
        ]
        for words in not_utf8:
            ended = scene.call(words)
            self.same(
                f"{words}",
                (ended.status, b"is not UTF-8, and the server sees no such names" in ended.errors),
                (2, True),
            )
            self.same(f"{words}: one line", ended.errors.count(b"\n"), 1)
        ended = scene.wq("watch", "--", "sh")
        hint = b"wq: sh is no directory; `wq run -- sh` runs it after each change\n"
        self.same("a command to watch", (ended.status, ended.errors), (2, hint))
        other = {"LC_ALL": "C", "PYTHONUTF8": "0", "PYTHONCOERCECLOCALE": "0"}
        self.same("a locale without UTF-8", scene.wq("find", "odd", "ü", **other).output, "odd/ü\n".encode())

    def check_wrong_words(self, scene: Scene) -> None:
        check_wrong(self, scene, "wrong")
        json_reason = (
            "--expression, column 2: Expecting value; a text has double quotes, and the shell takes them "
            "away: put single quotes around the whole"
        )
        wrong(self, scene, ["find", "--expression", "[suffix,c]"], "E2: not JSON", json_reason, status=3)

    def check_programs(self, scene: Scene) -> None:
        tool = [str(built.TOP / "clients" / "wqasm"), "add", "large", str(built.TOP / "examples" / "large.program")]
        with scene.client() as client:
            wrong(
                self,
                scene,
                ["find", "--program", "large"],
                "E34: no such program",
                'no program is stored as "large"; none is stored, and `wqasm add NAME FILE` stores one',
                status=3,
            )
            added = subprocess.run(tool, env=scene.environment, stdout=subprocess.PIPE)
            self.same("wqasm add at the default socket", added.returncode, 0)
            scene.write("huge/h", "x" * 1_048_577)
            scene.write("target/t", "x" * 1_048_577)
            self.check_lists_of_program(scene, client)

    def check_lists_of_program(self, scene: Scene, client: Client) -> None:
        """A stored program is asked about the files of globs, suffixes and directories."""
        self.same("find --program", scene.names("find", "--program", "large"), ["huge/h"])
        self.same("find DIR --program", scene.names("find", "huge", "--program", "large"), ["huge/h"])
        for globs, expected in (
            (["h*"], "huge/h\n"),
            (["*.c"], ""),
            (["huge/*"], "huge/h\n"),
            (["./h"], ""),
            (["*.c", "h*"], "huge/h\n"),
            (["huge", "h"], "huge/h\n"),
            (["huge", "./h"], "huge/h\n"),
            (["src", "h*"], ""),
            (["-e", "c"], ""),
        ):
            found = scene.wq("find", "--program", "large", *globs)
            self.same(f"find --program {globs}", found, built.Ended(expected.encode(), b"", 0 if expected else 1))
        wrong(
            self,
            scene,
            ["find", "huge", "--program", "large", "-e", "c"],
            "-e beside --program is for a whole root; take a glob for a directory below it",
        )
        self.same("find --program -H", scene.names("find", "--program", "large", "-H"), ["huge/h", "target/t"])
        wrong(
            self,
            scene,
            ["find", "--program", "lage"],
            "E34: no such program",
            'no program is stored as "lage"; did you mean "large"?',
            status=3,
        )
        self.same("the programs", client.ask("program-list")["programs"], ["large"])

    def test_roots(self) -> None:
        """The root of a project is watched, and find gives it back."""
        with Scene(self.room) as scene, scene.client() as client:

            def watched() -> List[str]:
                return client.ask("watch-list")["roots"]

            scene.names("find", "src")
            self.same("find leaves no root", watched(), [])
            wrong(
                self,
                scene,
                ["find", "--expression", '["sufix","c"]'],
                "E24: unknown term",
                'at expression: "sufix" is no term; did you mean "suffix"?',
                status=3,
            )
            self.same("nor does one that is refused", watched(), [])
            scene.names("find", "src", "--keep")
            self.same("find --keep", watched(), [str(scene.tree)])
            scene.names("find", "src/deep")
            self.same("a root that was watched stays", watched(), [str(scene.tree)])
            for name in (".hg", ".watchmanconfig"):
                project = self.room / name[1:]
                (project / "in" / "side").mkdir(parents=True)
                (project / name).touch()
                self.same(f"the root by {name}", scene.names("watch", project / "in" / "side"), [str(project)])
            (self.room / "plain" / "below").mkdir(parents=True)
            self.same(
                "a directory of no project", scene.names("watch", self.room / "plain"), [str(self.room / "plain")]
            )
            self.same(
                "one below a watched root",
                scene.names("watch", self.room / "plain" / "below"),
                [str(self.room / "plain")],
            )
            self.check_shared_roots(scene, client, watched)

    def check_shared_roots(self, scene: Scene, client: Client, watched: Callable[[], List[str]]) -> None:
        """Directories of one project share a root, which others may need."""
        (self.room / "link").symlink_to(scene.tree / "src")
        self.same(
            "a link to a directory", scene.names("find", self.room / "link", "*.h"), [f"{self.room}/link/deep/c.h"]
        )
        self.same(
            "ten directories of a project are one root",
            watched(),
            [str(scene.tree), str(self.room / "hg"), str(self.room / "watchmanconfig"), str(self.room / "plain")],
        )
        # As if another command had begun to need the root while find had it watched.
        client.ask("watch-del", str(scene.tree))
        scene.names("find", "src")
        self.same("find leaves a root that others need", str(scene.tree) in watched(), True)
        scene.names("unwatch")
        scene.names("find", "src")
        self.same("but not after unwatch", str(scene.tree) in watched(), False)
