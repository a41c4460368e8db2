"""What people type first, since fd, find, watchexec and entr have it: options and forms that wq has too, and for others
the one that there is."""

import os
import time

import built
from case import Beside
from scene import Scene, calls, check_names, check_wrong, said, wrong

DASHES = "run takes `--` and a command after it, such as: wq run"


class Typed(Beside):
    def test_typed(self) -> None:
        with Scene(self.room) as scene:
            self.check_lists(scene)
            self.check_times(scene)
            self.check_sizes(scene)
            self.check_commands(scene)
            self.check_dashes(scene)
            self.check_foreign(scene)

    def check_lists(self, scene: Scene) -> None:
        check_names(self, scene, "typed")
        scene.write("odd{a,b}")
        self.same("braces in a name that is there", scene.names("find", "odd{a,b}"), ["odd{a,b}"])
        scene.wq("since", "-a", "{src,x}/*")
        scene.write("src/new")
        self.same("since -a", scene.names("since", "-a", "{src,x}/*"), [f"+ {scene.tree}/src/new"])
        for name in ("src/new", "odd{a,b}"):
            (scene.tree / name).unlink()

    def check_times(self, scene: Scene) -> None:
        for name, second in (
            ("Makefile", 1_500_000_000),
            ("src/a.c", 1_600_000_000),
            ("src/b b.c", time.time() - 5_400),
        ):
            os.utime(scene.tree / name, (second, second))
        check_names(self, scene, "times")
        takes = (
            "--newer takes an age, such as 30s, 10min, 2h, 3d or 1w, or a date, such as 2026-11-28 or "
            "'2026-11-28 10:00'"
        )
        for word in ("soon", "10 fortnights", "2026-13-01"):
            wrong(self, scene, ["find", "--newer", word], f'{takes}, and not "{word}"')
        wrong(self, scene, ["find", "--older", "90y"], '--older takes a time since 1970, and not "90y"')

    def check_sizes(self, scene: Scene) -> None:
        """As GNU's tools have it, k is 1,024 bytes, and kB 1,000."""
        scene.write("size", "x" * 1_024)
        for size, expected in (
            ("+1k", 1),
            ("-1k", 1),
            ("-1ki", 1),
            ("+1Ki", 1),
            ("-1KiB", 1),
            ("+1kB", 1),
            ("-1kB", 0),
            ("+1024", 1),
            ("-1024b", 1),
        ):
            found = scene.wq("find", "size", "--size", size)
            self.same(f"find --size {size}", (found.output.count(b"\n"), found.errors), (expected, b""))
        (scene.tree / "size").unlink()

    def check_commands(self, scene: Scene) -> None:
        """-x runs a command for each name, and -X one for all."""
        for row in calls(scene, "commands"):
            self.same(
                row.given, scene.wq(*row.words()), built.Ended(row.expected.replace("\\n", "\n").encode(), b"", 0)
            )
        for row in calls(scene, "statuses"):
            self.same(f"the status of {row.given}", scene.wq(*row.words()), built.Ended(b"", b"", int(row.expected)))
        wrong(self, scene, ["find", "*.c", "-x", "not-there"], "not-there: there is no such command", status=127)
        quoted = "echo hi: there is no such command; write its words without quotes around them all"
        for words in (["find", "*.h", "-x", "echo hi"], ["run", "--once", "--", "echo hi"]):
            wrong(self, scene, words, quoted, status=127)
        wrong(self, scene, ["find", "-x"], "-x/--exec takes a value, and has none; see `wq find --help`")

    def check_dashes(self, scene: Scene) -> None:
        """Two dashes end the options of each command."""
        scene.write("-x/in")
        for words, output in (
            (["find", "--", "-x"], b"-x/in\n"),
            (["find", "-t", "f", "--", "-x", "in"], b"-x/in\n"),
            (["watch", "--", "-x"], f"{scene.tree}\n".encode()),
            (["triggers", "--json", "--", "-x"], b'{"triggers":[],"version":"wq-1"}\n'),
            (["explain", "--", "true", "x"], b""),
            (["ask", "--", '["version"]'], b'{"version":"wq-1"}\n'),
            (["unwatch", "--", "-x"], f"{scene.tree}\n".encode()),
        ):
            ended = scene.wq(*words)
            self.same(f"wq {words}", (ended.status == 2, ended.output), (not output, output))
        self.same("since -- -x", scene.wq("since", "-n", "name", "--", "-x").output, b"+ -x/in\n")
        (scene.tree / "-x" / "in").unlink()
        (scene.tree / "-x").rmdir()

    def check_foreign(self, scene: Scene) -> None:
        """An option or a command that others have is taken, if it is understood."""
        (scene.tree / "src" / "tool").touch(0o755)
        (scene.tree / "src" / "empty").touch(0o644)
        check_names(self, scene, "foreign")
        self.same("find --print0", scene.wq("find", "*.h", "--print0").output, b"src/deep/c.h\0")
        self.same("find -q", scene.wq("find", "*.h", "-q"), built.Ended(b"", b"", 0))
        self.same("find -q of nothing", scene.wq("find", "*.none", "-q"), built.Ended(b"", b"", 1))
        once = ["--once", "-q", "--on-busy", "queue", "--debounce", "50ms", "-w", "src", "--", "echo", "ran"]
        self.same("run as watchexec has it", scene.names("run", *once), ["ran"])
        words = "--once --quiet --ext c -i *.h -a --signal HUP --delay 0.1s -- echo".split()
        self.same("run as nodemon has it", scene.wq("run", *words), built.Ended(b"\n", b"", 0))
        for words in (["-r", "-t", "1", "src"], ["--timeout", "100ms"], ["--timeout", "0.002min"]):
            self.same(f"wait {words}", scene.wq("wait", *words), built.Ended(b"", b"", 1))
        for name in ("tool", "empty"):
            (scene.tree / "src" / name).unlink()
        self.check_hints(scene)

    def check_hints(self, scene: Scene) -> None:
        """What to write in place of words of other tools, and of words that are missing or mistyped."""
        check_wrong(self, scene, "hints")
        piped = scene.call(["run", "cat"], b"src/a.c\n").errors
        self.same(
            "names in a pipe", piped, said(f"{DASHES} -- cat; names are words of it, and standard input is not read")
        )
