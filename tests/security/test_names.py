"""Names of files that a command would take for options, and what `wq run`, `wq trigger` and the bridge hand over."""

import shutil
import subprocess
from typing import List

from bridged import Bridge, text_of
from case import Beside
from scene import Scene
from trees import make_files

HOSTILE = [
    "-specs=evil.c",
    "--init-hook=x.c",
    "@notes.c",
    "+:!touch taken.c",
    "-o.c",
    "a b.c",
    "new\nline.c",
    "$(id).c",
]


def plant(scene: Scene) -> None:
    for name in HOSTILE:
        scene.write(name)


def names_in(output: bytes) -> List[str]:
    return sorted(output.decode().split("\0")[:-1])


class Names(Beside):
    def test_names_of_runs(self) -> None:
        """Each name of `wq run` begins with `./`, as an argument and on standard input."""
        with Scene(self.room) as scene:
            plant(scene)
            expected = sorted(f"./{name}" for name in HOSTILE)
            found = scene.wq("run", "--once", "/*.c", "--", "printf", "%s\\0", "{}")
            self.same("names as arguments", names_in(found.output), expected)
            found = scene.wq("run", "--once", "--stdin", "-0", "/*.c", "--", "cat")
            self.same("names on standard input", names_in(found.output), expected)
            self.check_names_of_a_shell(scene, expected)
            for place in ("{}", "{/}", "{.}", "{/.}", "{//}"):
                found = scene.wq("find", "/*.c", "-x", "printf", "%s\\0", place)
                options = [name for name in names_in(found.output) if name.startswith(("-", "+", "@"))]
                self.same(f"wq find -x with {place}", (found.status, options, found.output != b""), (0, [], True))
            self.check_compiler(scene)

    def check_names_of_a_shell(self, scene: Scene, expected: List[str]) -> None:
        """A text for a shell may have quotes around `{}`, which do not take those away that the names have."""
        for place in ("{}", '"{}"', "'{}'", '$(printf "%s\\0" "{}" >&3)', '"$(printf "%s\\0" {} >&3)"'):
            text = f"exec 3>&1; : {place}" if "$" in place else f'printf "%s\\0" {place}'
            found = scene.wq("run", "--once", "--shell", "/*.c", "--", text)
            self.same(f"names in a shell by {place}", names_in(found.output), expected)
        for text in ('printf "%s" "a {}"', "sh -c 'echo {}'", "sh -c 'echo \"{}\"'", "echo \\{}"):
            found = scene.wq("run", "--once", "--shell", "/*.c", "--", text)
            is_said = b"out of the quotes" in found.errors
            self.same(f"names in the quotes of {text}", (found.status, found.output, is_said), (2, b"", True))

    def check_compiler(self, scene: Scene) -> None:
        """gcc reads options from a file, for a word that begins with `@`."""
        if shutil.which("gcc") is None:
            self.skipTest("a file of options for gcc, which is not installed")
        taken = scene.tree / "taken"
        scene.write("evil/@notes.c", "int x;")
        scene.write("evil/notes.c", f"-wrapper sh,-c,id>{taken}")
        scene.write("evil/ok.c", "int y;")
        attack = subprocess.run(["gcc", "-c", "@notes.c", "ok.c"], cwd=scene.tree / "evil", stderr=subprocess.DEVNULL)
        self.same("the attack works without wq", (attack.returncode != -1, taken.exists()), (True, True))
        taken.unlink()
        below = Scene.call(scene, ["run", "evil", "--once", "[@o]*.c", "--", "gcc", "-c", "{}"])
        self.same("gcc by wq run", (below.status, taken.exists()), (0, False))

    def test_names_of_a_trigger(self) -> None:
        """Each name of `wq trigger` begins with `./`, and what `wq` shows of the trigger is what a person wrote."""
        with Scene(self.room) as scene:
            plant(scene)
            out = self.room / "out"
            script = f"printf '%s\\0' \"$@\" > {out}.new; mv {out}.new {out}"
            scene.wq("trigger", "t", ".", "/*.c", "--", "sh", "-c", script, "sh", "-fixed", "{}")
            text_of(out, lambda text: text)
            expected = ["-fixed", *sorted(f"./{name}" for name in HOSTILE)]
            self.same("names of a trigger", sorted(names_in(out.read_bytes())), sorted(expected))
            shown, files = scene.wq("triggers").output.decode().splitlines()
            self.same("the trigger as it was written", (shown[:3], shown.endswith(" sh -fixed {}")), ("t: ", True))
            self.same("its files", files, "  for . '/*.c'")
            self.same("its status", " sh -fixed {}" in scene.wq("status").output.decode(), True)

    def test_names_of_watchman(self) -> None:
        """A trigger of Watchman gets ordinary names as Watchman writes them, and others with `./`. Names are lines by
        newlines."""
        root, out = self.room / "root", self.room / "out"
        make_files(root, ["-x.c", "@y.c", "+z.c", "a.c", "_b.c", "c\x0bd.c", "e\u2028f.c"])
        script = f"{{ printf '%s|' \"$@\"; cat; }} > {out}.new; mv {out}.new {out}"
        with Bridge(self.room) as bridge, bridge.client() as client:
            client.ask(
                "trigger",
                str(root),
                {
                    "name": "t",
                    "command": ["sh", "-c", script, "sh"],
                    "append_files": True,
                    "stdin": "NAME_PER_LINE",
                    "expression": ["suffix", "c"],
                },
            )
            text = text_of(out, lambda text: text)
            words, lines = text.rpartition("|")[0].split("|"), text.rpartition("|")[2].split("\n")[:-1]
            self.same(
                "names as arguments", words, ["./+z.c", "./-x.c", "./@y.c", "_b.c", "a.c", "c\x0bd.c", "e\u2028f.c"]
            )
            self.same("names on lines", lines, ["+z.c", "-x.c", "@y.c", "_b.c", "a.c", "c\x0bd.c", "e\u2028f.c"])
