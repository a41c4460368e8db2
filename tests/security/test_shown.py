"""Names of directories, files and triggers that would move the cursor of a terminal, or turn letters round."""

import json
import re
import subprocess
import threading
from pathlib import Path
from typing import List

import built
from case import Beside
from scene import Scene, at_terminal, called_at_terminal
from stand_ins import answering, stand_in

ESCAPES = "ev\x1b]0;title\x07\u009b31m\u202egnp\u2066"
HARMFUL = re.compile("[\x01-\x09\x0b-\x1f\x7f-\x9f\u202a-\u202e\u2066-\u2069]")


def harm_in(text: str) -> List[str]:
    """What a terminal would obey of a text, beside the ends of lines. It ignores bytes 0."""
    return HARMFUL.findall(text.replace("\r", ""))


class Shown(Beside):
    def test_roots_shown(self) -> None:
        with Scene(self.room) as scene:
            root = scene.tree / ESCAPES
            for name in (f"{ESCAPES}/.git/HEAD", f"{ESCAPES}/{ESCAPES}.c"):
                scene.write(name)
            calls = (
                ("watch", str(root)),
                ("roots",),
                ("roots", "--json"),
                ("roots", "-0"),
                ("find", str(root)),
                ("status",),
                ("find", str(root), "-0"),
                ("find", str(root), "-l"),
                ("find", str(root), "--json"),
                ("status", "--json"),
                ("since", "-n", "a", str(root)),
                ("since", "-n", "b", str(root), "--json"),
                ("ask", '["watch-list"]'),
                ("trigger", str(root), ESCAPES, "--", "true", ESCAPES),
                ("triggers", str(root)),
                ("triggers", str(root), "--json"),
                ("untrigger", str(root), f"{ESCAPES}x"),
                ("watch", f"{root}x"),
                ("find", ESCAPES),
                ("find", f"--{ESCAPES}"),
                ("ask", json.dumps(["query", f"{root}x", {}])),
                ("explain", json.dumps(["name", ESCAPES])),
                (ESCAPES,),
                ("run", "--once", "--", f"./{ESCAPES}"),
                ("unwatch", f"{root}x"),
                ("unwatch", str(root)),
            )
            for words in calls:
                found = at_terminal(scene, *words, NO_COLOR="1")
                self.same(f"wq {' '.join(words)!a}", (harm_in(found), "Traceback" in found), ([], False))
            self.check_changes_shown(scene, root)
            status = scene.wq("find", str(root)).output.decode()
            self.same("names in a pipe are as they are", ESCAPES in status, True)

    def check_changes_shown(self, scene: Scene, root: Path) -> None:
        """Names of files that come while `wq follow` and `wq run` wait."""
        has_ended = threading.Event()

        def change() -> None:
            turn = 0
            while not has_ended.wait(0.1):
                turn += 1
                scene.write(f"{ESCAPES}/{ESCAPES}{turn}.c")

        changes = threading.Thread(target=change)
        changes.start()
        try:
            for words in (
                ["follow", str(root)],
                ["follow", str(root), "--json"],
                ["run", str(root), "--", "echo", "again.c"],
            ):
                ended = called_at_terminal(scene, words, {"NO_COLOR": "1"}, keys=b"\x03", after=".c")
                found = (harm_in(ended.text.replace("^C", "")), ".c" in ended.text)
                self.same(f"wq {words[0]} {words[2:]}", found, ([], True))
        finally:
            has_ended.set()
            changes.join()

    def test_errors_shown(self) -> None:
        """What a server says of an error, what a file is called, and the last line of a log."""
        with Scene(self.room, starts=False) as scene:
            error = json.dumps({"error": f"E99: {ESCAPES}"}, ensure_ascii=False).encode()
            stand_in(scene.sockname, answering(lambda line: error))
            for words in (
                ["find"],
                ["status"],
                ["stop"],
                ["roots"],
                ["ask", '["version"]'],
                ["trigger", "t", ".", "--", "true"],
            ):
                found = at_terminal(scene, *words, NO_COLOR="1")
                self.same(f"an error of wq {words[0]}", (harm_in(found), "E99" in found), ([], True))
            environment = {
                **scene.environment,
                "WQD_SOCK": scene.sockname,
                "WATCHMAN_SOCK": str(scene.runtime / ESCAPES / "s"),
            }
            program = built.TOP / "examples" / "large.program"
            for command, *rest in (
                ["clients/wqasm", "explain", ESCAPES],
                ["clients/wqasm", ESCAPES],
                ["clients/wqasm", "add", "x", str(program)],
                ["clients/watchman", f"--{ESCAPES}"],
                ["clients/watchman", "--no-spawn", "--no-local", "watch-list"],
                ["contrib/git-fsmonitor-hook", "2", ""],
            ):
                ended = subprocess.run(
                    [str(built.TOP / command), *rest],
                    cwd=scene.tree,
                    env=environment,
                    stdout=subprocess.DEVNULL,
                    stderr=subprocess.PIPE,
                )
                text = ended.stderr.decode()
                self.same(f"an error of {command} {rest[0]!a}", (harm_in(text), "Traceback" in text), ([], False))
