"""Runs `wqd check` on program files: those of the file of cases, files at the limits of what is read, files that cannot
be read, and drawn ones, which are compared with a plain reader and verifier."""

import os
import shutil
import subprocess
import tempfile
from collections import Counter
from pathlib import Path
from typing import Iterator, List, Optional, Tuple

import built
from case import Case
from case_file import FileCase, read_cases
from drawn import drawn_file
from notation import WIDTHS, file_of
from wqprogram.verifier import said

HERE = Path(__file__).resolve().parent
DRAWN_FILES = 3_000
LONGEST_FILE = 16_777_216
CANNOT_READ = built.Ended(b"", b"cannot read\n", 1)
WRONG_COMMAND_LINE = built.Ended(b"", b"wqd: wrong command line\n", 2)
NOBODY = 65_534


class Files(Case):
    def test_cases(self) -> None:
        """The program and the plain verifier have to say what the case says."""
        cases = list(read_cases((HERE / "cases").read_text(encoding="utf-8")))
        for case in cases:
            self.check(
                f"{case.name}, by the plain verifier", said(case.data) == case.line, [said(case.data), case.line]
            )
            self.check_case(case)
        print(f"{len(cases)} cases")

    def check_case(self, case: FileCase) -> None:
        self.same(case.name, checked(self.room, case.data), ended_with(case.line))

    def test_words(self) -> None:
        """The words behind `check`, and an output that takes nothing."""
        path = self.room / "smallest"
        path.write_bytes(file_of("flag 1; ret"))
        wrong: List[List[str]] = [[], [str(path), str(path)], ["--help"], [str(path), "--help"], ["-x"]]
        for words in wrong:
            self.same(f"words {words}", built.run(["check", *words]), WRONG_COMMAND_LINE)
        self.same("a name behind two dashes", built.run(["check", "--", str(path)]), ended_with("ok 2 2"))
        self.same("what standard input has does not count", built.run(["check", str(path)], b"x"), ended_with("ok 2 2"))
        for data in (file_of("flag 1; ret"), file_of("ret"), b""):
            path.write_bytes(data)
            with open("/dev/full", "wb") as full:
                command = [str(built.program_path()), "check", str(path)]
                process = subprocess.run(command, stdout=full, stderr=subprocess.PIPE)
            self.check(f"an output that is full, {len(data)} bytes", process.returncode == 1, [str(process)])

    def test_long_files(self) -> None:
        """The longest file that is read, and a byte more."""
        for version in (1, 2):
            longest = long_program(LONGEST_FILE, version)
            self.check_case(FileCase(f"the longest file, version {version}", longest, "ok 2 2"))
            self.check_case(FileCase(f"the longest file, cut short, version {version}", longest[:-1], "refused F3"))
            over = long_program(LONGEST_FILE - 1, version) + b"\0"
            self.check_case(FileCase(f"a byte after the end of a long file, version {version}", over, "refused F4"))
        self.check_case(FileCase("the longest file of zeros", bytes(LONGEST_FILE), "refused F1"))
        self.same("a file of a byte more", checked(self.room, long_program(LONGEST_FILE + 1, 1)), CANNOT_READ)
        self.same("a byte behind the longest file", checked(self.room, longest + b"\0"), CANNOT_READ)
        self.same(
            "a file of a byte more that begins with no magic", checked(self.room, bytes(LONGEST_FILE + 1)), CANNOT_READ
        )
        self.same("a file without an end", built.run(["check", "/dev/zero"]), CANNOT_READ)

    def test_unreadable(self) -> None:
        self.same("a file that is absent", built.run(["check", str(self.room / "absent")]), CANNOT_READ)
        self.same("a directory that is absent", built.run(["check", str(self.room / "absent" / "file")]), CANNOT_READ)
        self.same("a directory", built.run(["check", str(self.room)]), CANNOT_READ)
        self.same("a link to itself", built.run(["check", str(link_to_itself(self.room))]), CANNOT_READ)
        self.same("no name", built.run(["check", ""]), CANNOT_READ)
        ended = checked_without_permission()
        if ended is None:
            self.skipTest("a file without permission, since root may read it and there is no setpriv")
        self.same("a file without permission", ended[0], CANNOT_READ)
        self.same("the same file with permission", ended[1], ended_with("ok 2 2"))

    def test_drawn(self) -> None:
        """The program has to say of drawn files what the plain verifier says."""
        lines: Counter = Counter()
        for counter in range(1, DRAWN_FILES + 1):
            data = drawn_file(counter)
            line = said(data)
            self.same(f"drawn file {counter}: {data.hex()}", checked(self.room, data), ended_with(line))
            lines[" ".join(line.split()[:2]) if line.startswith("refused") else "ok"] += 1
        print(f"{DRAWN_FILES} drawn files: " + ", ".join(f"{lines[line]} {line}" for line in sorted(lines)))


def ended_with(line: str) -> built.Ended:
    return built.Ended(f"{line}\n".encode(), b"", 0 if line.startswith("ok ") else 3)


def checked(room: Path, data: bytes) -> built.Ended:
    path = room / "file"
    path.write_bytes(data)
    return built.run(["check", str(path)])


def long_program(length: int, version: int) -> bytes:
    """A program that may run, in a file of this length and version: one list has long entries."""
    entry = b"\x10\x00" + b"a" * 4_096
    wide = WIDTHS[version]
    program = file_of("flag 1; ret", lists="[]", version=version)
    start = 5 + (wide.tables + 1) * wide.width
    head, code = program[:start], program[start + wide.width :]
    full, rest = divmod(length - len(program), len(entry))
    entries = entry * full + (rest - 2).to_bytes(2, "big") + b"a" * (rest - 2)
    return head + wide.bytes_of(full + 1) + entries + code


def link_to_itself(room: Path) -> Path:
    link = room / "link"
    link.symlink_to(link)
    return link


def checked_without_permission() -> Optional[Tuple[built.Ended, built.Ended]]:
    """What is said of a file without permission, and then with it, to a user who is not root."""
    as_user: List[str] = []
    if os.geteuid() == 0:
        if shutil.which("setpriv") is None:
            return None
        as_user = ["setpriv", f"--reuid={NOBODY}", f"--regid={NOBODY}", "--clear-groups"]
    with tempfile.TemporaryDirectory() as name:
        os.chmod(name, 0o755)
        program, path = Path(name) / "wqd", Path(name) / "file"
        shutil.copy(built.program_path(), program)
        program.chmod(0o755)
        path.write_bytes(file_of("flag 1; ret"))
        ended = list(ended_at_modes([*as_user, str(program), "check", str(path)], path))
    return ended[0], ended[1]


def ended_at_modes(command: List[str], path: Path) -> Iterator[built.Ended]:
    for mode in (0o000, 0o644):
        path.chmod(mode)
        yield built.call(command)
