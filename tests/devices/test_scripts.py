"""Scripts whose input or output fails."""

from pathlib import Path
from typing import List

import built
import example
from case import Case
from injected import Fault, each_failing, run

SCRIPTS = Path(__file__).resolve().parent.parent / "scripts"
# A query with a cursor and a `watch`; subscriptions and idle moments; triggers with failed starts and ends.
NAMES = [
    "cursors",
    "a-root-is-watched-anew",
    "subscription-is-told-at-idle-moments",
    "trigger-whose-start-fails-again-and-again",
]
# So many files are read and told in several pieces.
FILES = 4_000


def scripts() -> List[bytes]:
    found = [example.find(SCRIPTS, name) for name in NAMES]
    assert None not in found, "a script is not there"
    return [*[one.script for one in found if one is not None], long_script()]


def long_script() -> bytes:
    rows = "".join(f"f {number} {number} directory/file-{number:06}\n" for number in range(FILES))
    ask = 'ask 1 ["query","/r",{"since":"n:k"}]\n'
    return f"pass 100\n{rows}end\n{ask}pass 101\nf 1 1 other\nend\n{ask}".encode()


class Scripts(Case):
    def test_scripts_that_fail(self) -> None:
        """A script whose input or output fails ends as a replay that failed. It wrote a front of what it writes without
        that."""
        self.check_installed("strace")
        for name, script in zip([*NAMES, "many files"], scripts()):
            whole = built.replay(script)
            for call, first in (("read", "0,"), ("write", "1,")):
                self.check_a_script_that_fails(f"{name}, {call}", script, whole, call, first)

    def check_a_script_that_fails(
        self,
        name: str,
        script: bytes,
        whole: built.Ended,
        call: str,
        first: str,
    ) -> None:
        for number, ended in each_failing(call, "EIO", ["replay"], script, first):
            if number == 0:
                self.check(f"no call fails, {name}", ended == whole, [built.excerpt(ended.errors)])
                continue
            is_front = whole.output.startswith(ended.output)
            is_told = (ended.status, ended.errors) == (1, b"replay failed\n")
            self.check(
                f"call {number} fails, {name}", is_front and is_told, [f"{ended.status}", built.excerpt(ended.errors)]
            )

    def test_scripts_that_are_interrupted(self) -> None:
        """Every second call is interrupted, and nothing changes."""
        self.check_installed("strace")
        for name, script in zip([*NAMES, "many files"], scripts()):
            whole = built.replay(script)
            ended, failed = run(["replay"], script, Fault("write", "EINTR", "1+2"))
            self.check(f"interrupted, {name}", failed and ended == whole, [built.excerpt(ended.errors)])

    def test_program_files_that_fail(self) -> None:
        """A program file that cannot be opened or read, or whose answer cannot be written."""
        self.check_installed("strace")
        file = self.room / "yes.program"
        file.write_bytes(bytes.fromhex("5751504601000000000000000000020101000023000000"))
        words = ["check", str(file)]
        whole = built.run(words)
        for number, ended in each_failing("openat", "EMFILE", words, b"", f'AT_FDCWD, "{file}'):
            expected = whole if number == 0 else built.Ended(b"", b"cannot read\n", 1)
            self.check(f"open {number} of a program file fails", ended == expected, [f"{ended}"])
        for number, ended in each_failing("write", "ENOSPC", words, b"", "1,"):
            is_right = ended == whole if number == 0 else (ended.output, ended.status) == (b"", 1)
            self.check(f"write {number} of an answer fails", is_right, [f"{ended}"])
