"""`wq since` tells each change once, and not before it was read; and `wq wait` ends at the first change."""

import re
import signal
import subprocess
import sys

import built
from case import Beside
from client import PATIENCE
from scene import COMMAND, Going, Scene, hear, said, write_until, wrong

# Their names fit into a pipe, and not into what a reader takes at once.
MANY = 500


class ToldOnce(Beside):
    def test_read(self) -> None:
        """What nobody read is told again."""
        with Scene(self.room) as scene:
            scene.wq("since", "-n", "p")
            names = [f"many/{'x' * 20}{number:04}" for number in range(MANY)]
            for name in names:
                scene.write(name)
            cut = by_shell(scene, '"$0" since -n p | head -n 1')
            self.same("the first line", cut.output, f"+ {names[0]}\n".encode())
            with open("/dev/full", "wb") as device, scene.begin("since", "-n", "p", output=device.fileno()) as going:
                self.same("a device that is full", going.ends(), 3)
            told = [f"+ {name}" for name in names]
            self.same("the others are told again", scene.names("since", "-n", "p"), told)
            self.same("and once", scene.wq("since", "-n", "p"), built.Ended(b"", b"", 1))
            scene.write("late")
            slow = by_shell(scene, '"$0" since -n p | { sleep 2; cat; }')
            self.same("a reader that is in no hurry", slow.output, b"+ late\n")
            self.same("has heard it", scene.wq("since", "-n", "p"), built.Ended(b"", b"", 1))
            self.check_commands(scene)

    def check_commands(self, scene: Scene) -> None:
        """A change is told to a command that ends well."""
        question = ["since", "-n", "x", "*.c"]
        scene.wq(*question)
        self.same("no command without a change", scene.wq(*question, "-x", "echo", "ran"), built.Ended(b"", b"", 1))
        scene.write("src/a.c", "changed")
        scene.write("src/new.c", "new")
        again_told = "; so the next call tells this again"
        failed = scene.wq(*question, "-x", "sh", "-c", "echo failed; exit 7")
        self.same(
            "a command that fails", failed, built.Ended(b"failed\n", said(f"sh ended with status 7{again_told}"), 123)
        )
        quiet = scene.wq(*question, "-q", "-x", "false")
        self.same("has a status of its own", quiet, built.Ended(b"", b"", 123))
        again = scene.wq(*question, "-x", "echo", "{}")
        self.same("hears of it again", again, built.Ended(b"./src/a.c ./src/new.c\n", b"", 0))
        self.same("and once", scene.wq(*question, "-x", "echo", "{}"), built.Ended(b"", b"", 1))
        (scene.tree / "src" / "new.c").unlink()
        script = 'echo "$WQ_CHANGED_COUNT $WQ_CHANGED"'
        counted = scene.wq(*question, "-x", "sh", "-c", script)
        self.same("its variables", counted.output, b"1 ./src/new.c\n")
        scene.write("src/a.c", "once more")
        missing = scene.wq(*question, "-x", "not-there")
        not_there = built.Ended(b"", said("not-there: there is no such command"), 127)
        self.same("a command that is not there", missing, not_there)
        self.same("leaves it to the next", scene.names(*question), ["~ src/a.c"])

    def test_at_once(self) -> None:
        """Of two that ask the same at once, one is told each change."""
        with Scene(self.room) as scene:
            scene.wq("since", "-n", "p")
            for turn in range(3):
                names = [f"turn{turn}/{number}" for number in range(200)]
                for name in names:
                    scene.write(name)
                calls = [began(scene) for _ in range(4)]
                lines = [line for call in calls for line in call.communicate()[0].decode().splitlines()]
                self.same(f"each is told once in turn {turn}", sorted(lines), sorted(f"+ {name}" for name in names))

    def test_full_state(self) -> None:
        """A clock that cannot be kept: the next call tells the same."""
        with Scene(self.room) as scene:
            scene.wq("since")
            clocks = scene.room / "state" / "wq" / "clocks"
            clocks.rename(scene.room / "kept")
            clocks.write_text("no directory")
            scene.write("new")
            for _ in range(2):
                ended = scene.wq("since", "new")
                self.same("it is told", (ended.status, ended.output), (3, b"+ new\n"))
                self.same("and why again", ended.errors.endswith(b"; so the next call tells this again\n"), True)
            # No file may grow, as if there were no space left.
            clocks.unlink()
            full = by_shell(scene, 'ulimit -f 0; "$0" since new')
            self.same("no space is left", (full.status, full.output), (3, b"+ new\n"))
            place = re.search(rb"^wq: (/\S+): [^:]+; so the next call tells this again$", full.errors, re.M)
            self.check("it says where", place is not None and place[1].startswith(bytes(clocks)), [str(full.errors)])
            left = sorted(file.name for file in clocks.iterdir() if file.suffix[1:].isdigit())
            self.same("no half of a note is left", left, [])

    def test_became_links(self) -> None:
        """A file that became a link is gone for who asks for files, and comes back as a file. Links are not told."""
        with Scene(self.room) as scene:
            (scene.tree / "always").symlink_to("src")
            question = ["since", "-n", "p", "-t", "f", "-H"]
            names = ["Makefile", "src/a.c"]
            self.same("files alone", [name in str(scene.names("find", "-t", "f")) for name in names], [True, True])
            first = scene.wq(*question).output.decode().splitlines()
            self.same("and first of all", [f"+ {name}" in first for name in (*names, "always")], [True, True, False])
            with scene.begin("follow", "-t", "f") as going:
                self.check("a window", going.says("following"))
                for name in names:
                    replaced(scene, name, "always")
                replaced(scene, "always", "Makefile")
                (scene.tree / "late").symlink_to("src")
                self.same("since", scene.names(*question), [f"- {name}" for name in names])
                self.check("a window tells it too", going.waits_for(lambda one: one.output.count(b"\n") == 2))
                (scene.tree / "Makefile").unlink()
                scene.write("Makefile", "again")
                self.same("a file again", scene.names(*question), ["+ Makefile"])
                self.check("in a window", going.prints("+ Makefile\n"))
                replaced(scene, "late", "Makefile")
                self.same("no link is told", scene.wq(*question), built.Ended(b"", b"", 1))
                going.ends(signal.SIGINT)
                lines = sorted(going.output.decode().splitlines())
                self.same("all of the window", lines, ["+ Makefile", "- Makefile", "- src/a.c"])

    def test_wait(self) -> None:
        with Scene(self.room) as scene:
            self.same("nothing changes", scene.wq("wait", "--timeout", "0.2"), built.Ended(b"", b"", 1))
            no_number = "argument --timeout: x is no number of seconds from 0 on; see `wq wait --help`"
            wrong(self, scene, ["wait", "--timeout", "x"], no_number)
            for words, output in (
                (["src", "*.c"], b"~ src/a.c\n"),
                (["-q", "src"], b""),
                (["--jsonl", "a.c"], b'{"exists":true,"name":"src/a.c","new":false,"type":"f"}\n'),
            ):
                with scene.begin("wait", *words) as going:
                    write_until_end(scene, going, "src/a.c")
                    self.same(f"wait {words}", (going.ends(), going.output), (0, output))
            with scene.begin("wait", "./later") as going:
                self.check("a file that may come", going.waits_for(lambda _: bool(scene.roots())))
                write_until_end(scene, going, "later")
                self.same("has come", (going.ends(), going.output[1:]), (0, b" later\n"))
            self.same("the root is given back", scene.roots(), [])
            with scene.begin("wait") as going:
                going.waits_for(lambda _: bool(scene.roots()))
                self.same("Ctrl-C", going.ends(signal.SIGINT), 130)

    def test_interrupted_at_its_end(self) -> None:
        """Ctrl-C while Python ends, after the command has, shows no traceback."""
        text = (
            "import os, signal, sys; sys.path.insert(0, sys.argv[1]); from wq.command import main; "
            "main(['--help'], ''); os.kill(os.getpid(), signal.SIGINT)"
        )
        words = [sys.executable, "-IBc", text, str(built.TOP / "clients")]
        ended = subprocess.run(words, stdout=subprocess.DEVNULL, stderr=subprocess.PIPE, preexec_fn=lambda: hear(None))
        self.same("a late Ctrl-C", (ended.returncode, ended.stderr), (-signal.SIGINT, b""))


def replaced(scene: Scene, name: str, target: str) -> None:
    """A link takes the place of a file, or of another link, in one step."""
    aside = scene.tree / ".git" / "aside"
    aside.symlink_to(target)
    aside.rename(scene.tree / name)


def write_until_end(scene: Scene, going: Going, name: str) -> None:
    """Writes a file until a command ends: what changed before it listens is not told."""
    write_until(scene, going, name, lambda one: one.process.poll() is not None)


def began(scene: Scene) -> "subprocess.Popen[bytes]":
    words = [COMMAND, "since", "-n", "p"]
    return subprocess.Popen(
        words, cwd=scene.tree, env=scene.environment, stdout=subprocess.PIPE, stderr=subprocess.DEVNULL
    )


def by_shell(scene: Scene, text: str) -> built.Ended:
    """A text for a shell, in which `$0` is wq."""
    return built.call(["sh", "-c", text, COMMAND], cwd=scene.tree, env=scene.environment, timeout=PATIENCE)
