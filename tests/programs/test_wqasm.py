"""The command `clients/wqasm`: its words, its files, what it writes where, and how it ends."""

import contextlib
import io
import os
import signal
import subprocess
import sys
from pathlib import Path
from typing import List, Tuple

import built
from case import Case
from client import PATIENCE, Server
from notation import file_of
from rows import tables
from scripted import FIRST_ROOT, clock_id
from wqprogram.command import main

TOOL = built.TOP / "clients" / "wqasm"
TEXT = b"nums\n    mib: 1048576\ncode\n    exists\n    jf end\n    drop\n    size\n    num mib\n    cmp gt\nend: ret\n"
FIRST, FILE = (
    file_of("exists; jf 6; drop; size; num 0; cmp gt; ret", numbers="1048576", version=version) for version in (1, 2)
)
NO_RUN = file_of("wholename; not; ret", version=2)
SENTENCE = 'Y3: "not" takes a flag, and the top of the stack is a text; put a flag there'
ROWS = tables(Path(__file__).with_name("programs.rows"))


def tool(room: Path, *words: str, entered: bytes = b"") -> built.Ended:
    """Runs the tool in a directory."""
    command = [sys.executable, str(TOOL), *words]
    return built.call(command, input=entered, cwd=room)


def called(*words: str) -> built.Ended:
    """The outcome of a call of the tool in this process."""
    written, errors = io.BytesIO(), io.StringIO()
    output = io.TextIOWrapper(written)
    with contextlib.redirect_stdout(output), contextlib.redirect_stderr(errors):
        try:
            status = main(list(words))
        except SystemExit as ended:
            assert isinstance(ended.code, int)
            status = ended.code
    output.flush()
    return built.Ended(written.getvalue(), errors.getvalue().encode(), status)


class CommandLine(Case):
    def test_command_line(self) -> None:
        for row in ROWS["wrong words"]:
            refused = built.Ended(b"", f"wqasm: {row.expected}\n".encode(), 2)
            self.same(f"words {row.given}", called(*row.value()), refused)
        unknown = tool(self.room, "frob")
        found = (unknown.output, b"invalid choice: 'frob'" in unknown.errors, unknown.status)
        self.same("an unknown command", found, (b"", True, 2))
        for words in (["--help"], ["explain", "--help"]):
            ended = called(*words)
            self.same(f"words {words}", (ended.output[:6], ended.errors, ended.status), (b"usage:", b"", 0))

    def test_files(self) -> None:
        """Files and standard streams: what is written, and what is said of what cannot be read, written or run."""
        (self.room / "text").write_bytes(TEXT)
        self.same("assemble", tool(self.room, "assemble", "text", "-o", "file"), built.Ended(b"ok 7 7\n", b"", 0))
        self.same("the assembled file", (self.room / "file").read_bytes(), FILE)
        self.same(
            "assemble --version 1",
            tool(self.room, "assemble", "-", "--version", "1", entered=TEXT),
            built.Ended(FIRST, b"", 0),
        )
        self.same(
            "assemble --version 2",
            tool(self.room, "assemble", "-", "--version", "2", entered=TEXT),
            built.Ended(FILE, b"", 0),
        )
        text = tool(self.room, "disassemble", "file").output
        self.same("there and back", tool(self.room, "assemble", "-", entered=text), built.Ended(FILE, b"", 0))
        bad = tool(self.room, "assemble", "-", "-o", "bad", entered=b"code\nfrob\n")
        found = (bad.output, bad.errors.split(b": found")[0], bad.status, (self.room / "bad").exists())
        self.same("a bad text", found, (b"", b"-:2:1: unknown word", 3, False))
        self.check_refused(self.room)
        self.check_files_that_cannot_be(self.room)
        self.check_output(self.room)
        compiled = tool(self.room, "compile", '["since","c:1:2:3:4"]', "--clock", "c:1:2:3:0", "-o", "file")
        self.same("compile", compiled, built.Ended(b"ok 4 4\n", b"", 0))
        self.same(
            "the compiled file",
            (self.room / "file").read_bytes(),
            file_of("oclock; num 0; cmp gt; ret", numbers="4", version=2),
        )
        other = tool(self.room, "compile", '["since","c:1:2:3:4"]', "--clock", "c:1:2:4:0")
        self.same("a clock id of another root", other, built.Ended(file_of("exists; ret", version=2), b"", 0))
        deep = "[" * 126 + "]" * 126
        for expression, error in (("frob", "E2: not JSON"), ('"frob"', "E24: unknown term"), (deep, "E2: not JSON")):
            ended = tool(self.room, "compile", expression, "-o", "none")
            self.same(f"compile {expression[:20]}", ended, built.Ended(b"", f"wqasm: {error}\n".encode(), 3))
        self.check_long_expressions(self.room)

    def test_explain_of_a_clock_id(self) -> None:
        """An explanation is of no root, so each clock id is one of another root, also one of the replayed scripts."""
        for clock in (clock_id(FIRST_ROOT, 4), "c:1:2:3:4"):
            ended = built.call([built.TOP / "wq", "explain", f'["since","{clock}"]'])
            self.same(f"the program of {clock}", ended.output.decode().splitlines()[-4].split()[1], "exists")

    def check_long_expressions(self, room: Path) -> None:
        """Expressions that are too long for a word of a command, from standard input, and those with a fault of
        length."""
        for count, ended in (
            (21_845, built.Ended(b"ok 65534 65534\n", b"", 0)),
            (21_846, built.Ended(b"", b"wqasm: E30: program too large\n", 3)),
        ):
            expression = b'["allof"%s]\n' % (b',"true"' * count)
            found = tool(room, "compile", "-", "-o", "file", entered=expression)
            self.same(f"an expression of {count} terms", found, ended)
        for length, ended in (
            (1_048_547, built.Ended(b"ok 2 2\n", b"", 0)),
            (1_048_548, built.Ended(b"", b"wqasm: E1: line too long\n", 3)),
        ):
            expression = b'["true"' + b" " * (length - 8) + b"]"
            found = tool(room, "compile", "-", "-o", "file", entered=expression)
            self.same(f"an expression of {length} bytes", found, ended)

    def check_refused(self, room: Path) -> None:
        """Files that may not run, and those that are no program files."""
        (room / "no-run").write_bytes(NO_RUN)
        (room / "none").write_bytes(FILE[:-1])
        assembled = tool(room, "assemble", "-", "-o", "bad", entered=b"code\n\nwholename\nnot\nret\n")
        self.same(
            "a text that may not run", assembled, built.Ended(b"refused Y3 at 1\n", f"-:4:1: {SENTENCE}\n".encode(), 0)
        )
        self.same("its file", (room / "bad").read_bytes(), NO_RUN)
        empty = tool(room, "assemble", "-", "-o", "bad", entered=b"code\n")
        self.same("a text without instructions", (empty.output, empty.errors[:7]), (b"refused Y1 at 0\n", b"-: Y1: "))
        ended = tool(room, "explain", "no-run")
        self.same("explain", (ended.output.endswith(b"refused Y3 at 1\n"), ended.errors, ended.status), (True, b"", 3))
        ended = tool(room, "run", "no-run", "--record", "f 1 1 a")
        self.same("run", ended, built.Ended(b"", f"wqasm: no-run: refused Y3 at 1: {SENTENCE}\n".encode(), 3))
        self.same("disassemble", tool(room, "disassemble", "no-run").status, 0)
        fault = "F3 at byte 75: the file ends before or inside this part: take the whole file"
        explained = built.Ended(f"{fault}\nrefused F3\n".encode(), b"", 3)
        self.same("explain of no program file", tool(room, "explain", "none"), explained)
        refused = built.Ended(b"", f"wqasm: none: refused {fault}\n".encode(), 3)
        for words in (["disassemble", "none"], ["run", "none", "--record", "f 1 1 a"]):
            self.same(f"{words[0]} of no program file", tool(room, *words), refused)

    def check_files_that_cannot_be(self, room: Path) -> None:
        """Files that cannot be read or written."""
        for words, message in (
            (["explain", "absent"], "absent: No such file or directory"),
            (["assemble", "."], ".: Is a directory"),
            (["explain", "/dev/zero"], "/dev/zero: it has over 16,777,216 bytes"),
            (["assemble", "text", "-o", "absent/file"], "absent/file: No such file or directory"),
            (["assemble", "text", "-o", "/dev/full"], "output: No space left on device"),
            (["add", "absent", "name", "no-run"], "absent: No such file or directory"),
        ):
            self.same(f"words {words}", tool(room, *words), built.Ended(b"", f"wqasm: {message}\n".encode(), 1))

    def check_output(self, room: Path) -> None:
        """A standard output that is full, and one that is closed."""
        command = [sys.executable, str(TOOL), "explain", "no-run"]
        with open("/dev/full", "wb") as full:
            ended = subprocess.run(command, cwd=room, stdout=full, stderr=subprocess.PIPE)
        closed = subprocess.run(["sh", "-c", 'exec "$@" >&-', "sh", *command], cwd=room, stderr=subprocess.PIPE)
        self.same(
            "an output that is closed",
            (closed.returncode, closed.stderr),
            (1, b"wqasm: output: there is no standard output\n"),
        )
        self.same(
            "an output that is full", (ended.returncode, ended.stderr), (1, b"wqasm: output: No space left on device\n")
        )

    def test_interrupt(self) -> None:
        """A command that the user stops while it reads ends without words."""
        os.mkfifo(str(self.room / "pipe"))
        command = [sys.executable, str(TOOL), "assemble", "pipe", "-o", "none"]
        # A shell has its background commands ignore interrupts.
        process = subprocess.Popen(command, cwd=self.room, stderr=subprocess.PIPE, preexec_fn=heed_interrupts)
        with open(str(self.room / "pipe"), "wb"):  # this waits until the command reads
            process.send_signal(signal.SIGINT)
            _, errors = process.communicate(timeout=PATIENCE)
        self.same("an interrupt", (process.returncode, errors), (130, b""))

    def test_record(self) -> None:
        file = self.room / "file"
        file.write_bytes(file_of("cclock; oclock; cmp eq; csec; osec; cmp lt; or; ret"))
        for row in ROWS["wrong records"]:
            ended = called("run", str(file), "--record", *row.value())
            self.same(f"record {row.given}", ended, built.Ended(b"", f"wqasm: {row.expected}\n".encode(), 2))
        rows: List[Tuple[List[str], str]] = [
            ([], "yes"),
            (["--deleted"], "no"),
            (["--cclock", "3"], "yes"),
            (["--oclock", "2"], "no"),
            (["--deleted", "--osec", "5"], "yes"),
        ]
        for words, answer in rows:
            ended = called("run", str(file), "--record", "f 12 1000 src/a.c", *words)
            last = ended.output.decode().splitlines()[-1]
            self.same(f"run {words}", (last, ended.status), (f"{answer} at a cost of 8, of at most 8", 0))

    def test_add(self) -> None:
        """A server keeps the file under the name, and says what is wrong with one."""
        (self.room / "file").write_bytes(FILE)
        (self.room / "no-run").write_bytes(NO_RUN)
        with Server(self.room) as server:
            added = tool(self.room, "add", server.sockname, "ü", "file")
            reply = '{"instructions":7,"program-add":"ü","replaced":false,"version":"wq-1"}\n'.encode()
            self.same("add", added, built.Ended(reply, b"", 0))
            refused = tool(self.room, "add", server.sockname, "p", "no-run")
            self.same(
                "add of what may not run", refused, built.Ended(b'{"error":"E33: Y3 at 1","version":"wq-1"}\n', b"", 3)
            )
            nameless = tool(self.room, "add", server.sockname, "", "file")
            self.same(
                "add without a name", nameless, built.Ended(b'{"error":"E36: bad name","version":"wq-1"}\n', b"", 3)
            )
            (self.room / "long").write_bytes(file_of("flag 1; ret", texts='"{{a*4096}}", ' * 200))
            long = tool(self.room, "add", server.sockname, "p", "long")
            self.same(
                "add of a long file", long, built.Ended(b'{"error":"E1: line too long","version":"wq-1"}\n', b"", 3)
            )
            with server.client() as client:
                self.same("the names that are kept", client.ask("program-list")["programs"], ["ü"])


def heed_interrupts() -> None:
    signal.signal(signal.SIGINT, signal.SIG_DFL)
