"""Calls at a terminal; help, and words that are no command; a first crawl that takes long."""

import json
import os
import re
import shlex
import time

import built
from case import Beside, Timed
from client import PATIENCE
from scene import COMMAND, INTERVAL, Scene, at_terminal, called_at_terminal, said, wrong
from stand_ins import answering, stand_in
from wq.examples import EXAMPLES
from wq.statuses import HANDED, statuses_of
from wq.terminal import fitted
from wq.trouble import WrongWords
from wq.usage import USAGE
from wq.words import FORMS, options_of, read

SLOW = 2.3
# How long it takes now.
slow = [SLOW]
EMPTY_NAME = "-n takes a name, and not an empty one, as of a variable that is not set"


def slowly(line: bytes) -> bytes:
    """The reply of a server that answers each `watch` after some seconds, and everything else at once."""
    name, *rest = json.loads(line)
    if name == "watch":
        time.sleep(slow[0])
    replies = {
        "watch": {"watch": rest[:1]},
        "watch-list": {"roots": []},
        "query": {"files": [], "is_fresh_instance": True, "clock": "c:1:2:3:4"},
    }
    return json.dumps({**replies.get(name, {}), "version": "wq-1"}).encode()


# What help says in the words of usual tools.
SENTENCES = (
    ("find", "--max-depth N list what is at most N levels deep"),
    ("find", "{} is the name, {/} the base name, {//} the directory"),
    ("find", "-x CMD, --exec CMD run CMD for each name; all words that follow are its own"),
    ("find", "--no-sync answer from the last scan"),
    ("since", "--peek show what since would print, without marking it as seen"),
    ("run", "run a command here, now and after each change"),
    ("run", "--debounce MS wait until nothing has changed for MS ms [default: 100]"),
    ("wait", "--timeout S give up after S seconds, and not before the first scan has ended, with status 1"),
    ("trigger", "have the server run a command in the root, now and after changes"),
    ("untrigger", "remove a trigger"),
    ("unwatch", "stop watching"),
)


def is_cut(row: str) -> bool:
    """Whether a line of a crawl takes less than a row of 60 columns, with its time."""
    return len(row) < 60 and re.search(r"^wq: the server looks at all .+\.\.\., [0-9]+ s so far $", row) is not None


class Terminals(Timed, Beside):
    def test_terminal(self) -> None:
        """Colours, layout and escapes are for terminals, and NO_COLOR takes the colours away."""
        with Scene(self.room) as scene:
            # So that no find looks at all files first, of which it tells when that takes over a second.
            scene.wq("watch")
            (scene.tree / "link").symlink_to("Makefile")
            self.same("no link below a directory", at_terminal(scene, "find", "src", "./link", "-t", "d,l"), "")
            self.same(
                "a directory in its colour", at_terminal(scene, "find", "-t", "d", "deep"), "\x1b[34msrc/deep\x1b[0m\n"
            )
            self.same("a link in its colour", at_terminal(scene, "find", "link"), "\x1b[36mlink\x1b[0m\n")
            self.same("a file has none", at_terminal(scene, "find", "Makefile"), "Makefile\n")
            self.same("NO_COLOR", at_terminal(scene, "find", "link", NO_COLOR="1"), "link\n")
            self.same(
                "an empty NO_COLOR is none", at_terminal(scene, "find", "link", NO_COLOR=""), "\x1b[36mlink\x1b[0m\n"
            )
            self.same("--color", at_terminal(scene, "find", "link", "--color", "never"), "link\n")
            self.same("--color in a pipe", scene.wq("find", "link", "--color=always").output, b"\x1b[36mlink\x1b[0m\n")
            forced = scene.wq("find", "link", CLICOLOR_FORCE="1").output
            self.same("CLICOLOR_FORCE", forced, b"\x1b[36mlink\x1b[0m\n")
            self.same("a dumb terminal", at_terminal(scene, "find", "link", TERM="dumb"), "link\n")
            scene.write("new\nline\x1b[31m")
            self.same("control characters", at_terminal(scene, "find", "new*"), "new\\x0aline\\x1b[31m\n")
            self.same("byte 0 and no colours", at_terminal(scene, "find", "-0", "link"), "link\0")
            self.check_marks_and_runs(scene)

    def check_marks_and_runs(self, scene: Scene) -> None:
        """Marks, errors and ends of runs have colours, and values are laid out."""
        scene.wq("since", "-n", "a")
        scene.write("Makefile", "changed")
        (scene.tree / "link").unlink()
        scene.write("added", "x")
        marks = "\x1b[33m~ Makefile\x1b[0m\n\x1b[32m+ added\x1b[0m\n\x1b[31m- link\x1b[0m\n"
        self.same("marks in their colours", at_terminal(scene, "since", "-n", "a"), marks)
        error = at_terminal(scene, "find", "-t", "y")
        self.same("an error in red", (error[:9], error[-5:]), ("\x1b[31mwq: ", "\x1b[0m\n"))
        self.same("a reply laid out", at_terminal(scene, "ask", '["version"]'), '{\n  "version": "wq-1"\n}\n')
        ran = at_terminal(scene, "run", "--once", "--clear", "--", "echo", "done")
        self.same("a run at a terminal", ran, "\x1b[H\x1b[2J\x1b[3Jdone\n\x1b[32mwq: echo ended with status 0\x1b[0m\n")
        self.same(
            "a run that fails",
            at_terminal(scene, "run", "--once", "--", "false"),
            "\x1b[31mwq: false ended with status 1\x1b[0m\n",
        )
        self.check_keys(scene)
        self.same("status at a terminal", "\x1b[36msocket    \x1b[0m" in at_terminal(scene, "status"), True)
        self.same("status --json at a terminal", json.loads(at_terminal(scene, "status", "--json"))["protocol"], "wq-1")

    def check_keys(self, scene: Scene) -> None:
        """Ctrl-C at a terminal ends a command and what it runs; a command that runs may read the terminal."""
        script = "echo ready; sleep 1000"
        for option in ("--once", "--restart"):
            ended = called_at_terminal(scene, ["run", option, "--", "sh", "-c", script], keys=b"\x03", after="ready")
            self.same(f"Ctrl-C at run {option}", (ended.status, "Traceback" in ended.text), (130, False))
        ended = called_at_terminal(
            scene, ["run", "--once", "--", "sh", "-c", "echo ready; read a; echo got $a"], keys=b"key\n", after="ready"
        )
        self.same("a command that reads the terminal", (ended.status, "got key\n" in ended.text), (0, True))

    def test_words(self) -> None:
        with Scene(self.room, starts=False) as scene:
            for words in (["--help"], ["-h"], ["help"]):
                self.same(f"wq {words}", scene.wq(*words), built.Ended(USAGE.encode(), b"", 0))
            version = (built.TOP / "CHANGELOG.md").read_text().split("\n## ")[1].split(",")[0]
            self.same("wq --version", scene.wq("--version"), built.Ended(f"wq {version}\n".encode(), b"", 0))
            page = scene.wq("find", "--help")
            self.same("wq help find", scene.wq("help", "find"), page)
            wrong(self, scene, [], "there is no command; `wq --help` says which there are")
            wrong(self, scene, ["frobnicate"], "there is no command frobnicate; `wq --help` says which there are")
            wrong(
                self,
                scene,
                ["finde"],
                "there is no command finde; did you mean find?; `wq --help` says which there are",
            )
            wrong(self, scene, ["stop", "now"], "stop takes no further words: now; see `wq stop --help`")
            with open("/dev/full", "wb") as device, scene.begin("--help", output=device.fileno()) as going:
                self.same(
                    "a device that is full", (going.ends(), going.errors), (3, said("output: No space left on device"))
                )
            with scene.begin("find") as going:
                self.same(
                    "a server that is started for a command",
                    (going.ends(), going.errors),
                    (0, said(f"started a server at {scene.sockname}")),
                )

    def test_full_devices(self) -> None:
        """An output that is full is an error, also of help. Standard error that is full changes no status."""
        with Scene(self.room, starts=False) as scene:
            for words in ("--help", "find --help", "help since", "explain --terms"):
                with open("/dev/full", "wb") as device, scene.begin(*words.split(), output=device.fileno()) as going:
                    found = going.ends(), going.errors
                    self.same(f"wq {words} > /dev/full", found, (3, said("output: No space left on device")))
            for words, status in (
                ("frobnicate", 2),
                ("find -t y", 2),
                ("status", 1),
                ("find", 0),
                ("run --once -- false", 1),
            ):
                command = ["sh", "-c", f'"$0" {words} 2> /dev/full', COMMAND]
                ended = built.call(command, cwd=scene.tree, env=scene.environment, timeout=PATIENCE)
                self.same(f"wq {words} 2> /dev/full", (ended.status, ended.errors), (status, b""))

    def test_wrong_without_server(self) -> None:
        """What is wrong in the words is said before a server is started, which can take minutes in a clone."""
        with Scene(self.room, starts=False) as scene:
            kinds = (
                '-t takes f (file), d (directory), l (link), x (executable), e (empty), b, c, p, s or D, and not "y"'
            )
            for command in ("find", "since", "wait", "follow"):
                wrong(self, scene, [command, "-t", "y"], kinds)
                wrong(self, scene, [command, "/nosuch"], "/nosuch: No such file or directory")
                wrong(self, scene, [command, "nosuch/"], "nosuch/ is no directory here")
            wrong(self, scene, ["run", "-t", "y", "--", "true"], kinds)
            wrong(self, scene, ["find", "--size", "x"], '--size takes +1M (at least) or -10k (at most), and not "x"')
            wrong(self, scene, ["since", "-n", ""], EMPTY_NAME)
            wrong(
                self, scene, ["trigger", "t", "no", "--", "a"], "no is no file here; write './no' for one that may come"
            )
            wrong(self, scene, ["watch", ".", "nosuch"], "nosuch: No such file or directory")
            self.same("no server", os.path.lexists(scene.sockname), False)

    def test_pages(self) -> None:
        """The pages of help: options, examples, statuses and variables."""
        with Scene(self.room, starts=False) as scene:
            for command in FORMS:
                text = scene.wq(command, "--help")
                missing = [option for option in options_of(command) if option not in text.output.decode()]
                self.same(f"wq {command} --help", (text.status, text.errors, missing), (0, b"", []))
                self.check_examples(command, text.output.decode())
                rows = re.findall(r"^  (N|\d+) +\w", text.output.decode().partition("\nexit status:\n")[2], re.M)
                self.same(f"the statuses of {command}", rows, list(statuses_of(command)))
                self.same(f"{command} in the help", f" {command}" in USAGE, True)
            for command, sentence in SENTENCES:
                shown = " ".join(scene.wq(command, "--help").output.decode().split())
                self.check(f"wq {command} --help says {sentence!r}", sentence in shown, [shown])
            self.check_variables()
            full = scene.wq("--help").output.decode().splitlines()
            self.same("the help fits a terminal of 80 columns", max(map(len, full)) <= 80, True)

    def check_variables(self) -> None:
        """Help has each variable that WQ.md has, but TERM, which is a terminal's own."""
        page = (built.TOP / "docs" / "WQ.md").read_text(encoding="utf-8")
        rows = re.findall(r"^\| (`.+?) \|", page.partition("\n## Environment\n")[2].partition("\n## ")[0], re.M)
        names = {name for row in rows for name in re.findall(r"`(\w+)`", row)}
        self.same("variables in the help", {name for name in names if name in USAGE}, names - {"TERM"})
        handed = {name for name in re.findall(r"`(WQ_\w+)`", page)}
        self.same("variables of a command", set(HANDED), handed)

    def test_statuses(self) -> None:
        """What pages of help say of status 1 is so."""
        with Scene(self.room, starts=False) as scene:
            for words in ("status", "roots", "triggers", "untrigger t", "unwatch", "stop", "sockname"):
                self.same(f"wq {words} without a server", scene.wq(*words.split()).status, 1)
            scene.wq("start", "--interval", INTERVAL, "--share", "100")
            for words in ("roots", "unwatch", "find no*", "wait --timeout 0"):
                self.same(f"wq {words} of no root", scene.wq(*words.split()).status, 1)
            scene.wq("since")
            for words in ("triggers", "untrigger t", "since"):
                self.same(f"wq {words} with nothing to tell", scene.wq(*words.split()).status, 1)

    def check_examples(self, command: str, text: str) -> None:
        """The page of help ends with examples, whose words the command takes."""
        examples = EXAMPLES[command]
        lines = "".join(f"  {example.line}\n      {example.does}\n" for example in examples)
        self.same(f"the examples of {command}", text.endswith(f"\nexamples:\n{lines}"), True)
        for example in examples:
            words = shlex.split(example.line.split(" | ")[0])
            try:
                read(command, words[2:])
                fault = ""
            except WrongWords as error:
                fault = str(error)
            self.same(f"the words of {example.line}", (words[:2], fault), (["wq", command], ""))

    def check_narrow(self, scene: Scene) -> None:
        """A terminal takes back one row alone, so a line that is longer than a row is cut before its time."""
        shown = at_terminal(scene, "find", NO_COLOR="1", columns=60)
        rows = [row for row in shown.split("\r") if "so far" in row]
        self.check("a crawl at a narrow terminal", rows and all(map(is_cut, rows)), [shown])
        for columns, text in ((0, "木木木"), (16, "木木木"), (15, "木..."), (14, "...")):
            found = fitted("wq: 木木木", ", 1 s", columns)
            self.same(f"wide letters in {columns} columns", found, f"wq: {text}, 1 s")

    def test_no_directory_of_socket(self) -> None:
        """The directory of the socket is missing: that is what is told, and not a file of wq in it."""
        with Scene(self.room, starts=False) as scene:
            gone = scene.room / "gone"
            ended = scene.wq("find", WQD_SOCK=str(gone / "wqd.sock"))
            reason = f"the server did not start: {gone}: No such file or directory"
            self.same("no directory for the socket", ended, built.Ended(b"", said(reason), 3))

    def test_first_crawl(self) -> None:
        """A first crawl of over a second shows how long it goes on; it can be interrupted at once."""
        with Scene(self.room, starts=False) as scene:
            scene.shows_delays = True
            stand_in(scene.sockname, answering(slowly))
            looks = f"the server looks at all files below {scene.tree} for the first time"
            ended = scene.wq("find")
            lines = ended.errors.decode().splitlines()
            self.same("a slow crawl, beside a pipe", (ended.status, lines[:1], len(lines)), (1, [f"wq: {looks}"], 2))
            took = lines[-1]
            found = re.fullmatch(r"wq: that took ([0-9.]+) s", took)
            self.check("how long it took", found and SLOW <= float(found[1]) < PATIENCE, lines)
            again = f"again, which took {took.split()[3]} s before; `wq watch` would keep it watched"
            looks = f"the server looks at all files below {scene.tree} {again}"
            shown = at_terminal(scene, "find", NO_COLOR="1")
            self.check(
                "a slow crawl at a terminal",
                f"\rwq: {looks}, 1 s so far" in shown and f"{looks}, 2 s so far" in shown,
                [shown],
            )
            self.check("how long it took, at a terminal", f"\x1b[Kwq: {looks}: that took " in shown, [shown])
            self.check_narrow(scene)
            kept = scene.wq("watch").errors.decode()
            self.check(
                "watch is no hint at itself", re.search(r" again, which took [0-9.]+ s before$", kept, re.M), [kept]
            )
            slow[:] = [PATIENCE]
            with scene.begin("find") as going:
                self.check("a crawl that goes on", going.says(looks.partition(",")[0]))
                began = time.monotonic()
                self.same("Ctrl-C in a first crawl", going.ends(2), 130)
                self.same("ends long before the reply", time.monotonic() - began < PATIENCE / 4, True)
                self.same("no time of what has not ended", b"that took" in going.errors, False)
            os.unlink(scene.sockname)
