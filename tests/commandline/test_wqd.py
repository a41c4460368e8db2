"""Runs the built program with words, inputs and outputs of each kind: what it writes, and its exit status."""

import os
import resource
import subprocess
import tempfile
from typing import IO, Iterable, List, Optional, Union


import built
from case import Case

ASK = b'ask 1 ["clock","/r"]\n'
REPLY = b'1 {"clock":"c:7:9:1:0","version":"wq-1"}\n'
NOT_JSON = b'1 {"error":"E2: not JSON","version":"wq-1"}\n'

GOOD_WORDS: List[List[Union[str, bytes]]] = [["replay"]]
WRONG_WORDS: List[List[Union[str, bytes]]] = [
    [],
    ["frob"],
    ["replay", "now"],
    ["--help"],
    ["replay", "--help"],
    ["-h"],
    ["help"],
    ["--version"],
    [""],
    ["Replay"],
    ["replay", ""],
    ["replay", "replay"],
    ["replay", "-x"],
    [b"\xff"],
    ["replay", b"\xff"],
    [b"replay\xff"],
    ["frob", b"\xff"],
    ["check"],
    ["check", "a", "b"],
    ["check", b"\xff"],
    ["check", "--help"],
]

LONGEST_LINE = 1_048_576
LONGEST_SCRIPT = 1_073_741_824
MEMORY = 256 * 1_048_576

LONGEST_FILE = 16_777_216
PROGRAM = bytes.fromhex("57515046 01 0000 0000 0000 0000 0002 01010000 23000000")


class CommandLine(Case):
    def test_words(self) -> None:
        for words in GOOD_WORDS:
            self.same(f"words {words}", built.run(words, ASK), built.Ended(REPLY, b"", 0))
        for words in WRONG_WORDS:
            self.same(f"words {words}", built.run(words, ASK), built.Ended(b"", b"wqd: wrong command line\n", 2))

    def test_devices(self) -> None:
        """Devices that cannot be written and read."""
        failed = built.Ended(b"", b"replay failed\n", 1)
        with open("/dev/full", "wb") as full:
            self.same("an output that is full", replay_from([ASK], output=full), failed)
            ended = replay_from([], output=full)
            self.same("an output that is full, and nothing to write", ended, built.Ended(b"", b"", 0))
        directory = os.open("/", os.O_RDONLY)
        command = [str(built.program_path()), "replay"]
        ended = built.call(command, stdin=directory)
        os.close(directory)
        self.same("an input that is a directory", ended, failed)

    def test_long_scripts(self) -> None:
        """A gigabyte is 1,023 lines with the longest line of a client, and one that is shorter."""
        longest = blanks(LONGEST_LINE)
        rest = LONGEST_SCRIPT - 1023 * len(longest) - len(blanks(0))
        self.same("the longest line of a client", replay_from([longest]), built.Ended(NOT_JSON, b"", 0))
        ended = replay_from([longest] * 1023 + [blanks(rest)])
        self.same("the longest script", ended, built.Ended(NOT_JSON * 1024, b"", 0))
        ended = replay_from([longest] * 1023 + [blanks(rest + 1)])
        self.same("a script of a byte more", ended, built.Ended(NOT_JSON * 1023, b"replay failed\n", 1))

    def test_endless_lines(self) -> None:
        """A line that never ends is refused in little memory."""
        expected = built.Ended(b"", b"script line 1\n", 1)
        for name, text in (("an endless line", b"y"), ("an endless line of a client", b"ask 1 ")):
            ended = replay_from(endless_pieces(text * 10_000), memory=MEMORY)
            self.same(name, ended, expected)

    def test_files(self) -> None:
        """Program files: what can be read, and what is too long to be looked at."""
        unread = built.Ended(b"", b"cannot read\n", 1)
        self.same("a program file", built.check(PROGRAM), built.Ended(b"ok 2 2\n", b"", 0))
        self.same("an empty file", built.check(b""), built.Ended(b"refused F3\n", b"", 3))
        self.same("the longest file", built.check(b"x" * LONGEST_FILE), built.Ended(b"refused F1\n", b"", 3))
        self.same("a file of a byte more", built.check(b"x" * (LONGEST_FILE + 1)), unread)
        for path in ("/nothing/here", "/", ""):
            self.same(f"a file at {path!r}", built.run(["check", path]), unread)
        self.same("an endless file", built.run(["check", "/dev/zero"]), unread)
        with tempfile.NamedTemporaryFile() as file, open("/dev/full", "wb") as full:
            file.write(PROGRAM)
            file.flush()
            command = [str(built.program_path()), "check", file.name]
            process = subprocess.run(command, stdout=full, stderr=subprocess.PIPE)
        ended = built.Ended(b"", process.stderr, process.returncode)
        self.same("a program file, and an output that is full", ended, built.Ended(b"", b"", 1))


def blanks(length: int) -> bytes:
    """A script line that sends a client's line of so many blanks."""
    return b"ask 1 " + b" " * length + b"\n"


def endless_pieces(text: bytes) -> Iterable[bytes]:
    while True:
        yield text


def replay_from(
    pieces: Iterable[bytes], output: Optional[IO[bytes]] = None, memory: Optional[int] = None
) -> built.Ended:
    """Replays a script that comes in pieces, until the program takes no more."""

    def limit_memory() -> None:
        if memory is not None:
            resource.setrlimit(resource.RLIMIT_AS, (memory, memory))

    with tempfile.TemporaryFile() as written, tempfile.TemporaryFile() as errors:
        process = subprocess.Popen(
            [built.program_path(), "replay"],
            stdin=subprocess.PIPE,
            stdout=output or written,
            stderr=errors,
            preexec_fn=limit_memory,
        )
        try:
            assert process.stdin is not None
            for piece in pieces:
                process.stdin.write(piece)
            process.stdin.close()
        except BrokenPipeError:
            pass
        status = process.wait()
        written.seek(0)
        errors.seek(0)
        return built.Ended(written.read(), errors.read(), status)
