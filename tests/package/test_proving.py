"""`./wqd --build`: it proves a copy of the program's crates alone, several at once, tells how far that is, and leaves
the program and a note. `./verify` says whether a program is the one that comes out. A stand-in for the kit's `rt` says
what the real one says, and leaves the built program as that does."""

import hashlib
import os
import re
import shutil
import subprocess
from pathlib import Path
from typing import Dict

import built
from case import Case
from clones import bare, path_of, tools

CRATES = "# One line a crate.\nwq_base: itoa\nwq_cases: wq_base\nwqd: wq_base clap\n"
KIT = """#!/bin/sh
if [ "$*" = version ]; then echo 'a kit'; exit; fi
[ "$*" = ci ] || exit 9
{ ls -R crates; cat crates.txt HANDLES; } > "$SEEN"
echo "$RT_JOBS" > "$SEEN.jobs"
echo 'rt: wq_base is kept: an earlier run on this machine proved the same files over the same libraries'
echo 'rt: wqd proved'
if [ -n "$FAULT" ]; then echo "$FAULT"; exit 1; fi
mkdir crates/wqd/out && cp "$PROGRAM" crates/wqd/out/wqd
echo '4 passed, 0 failed'
"""
SEEN = """crates:
wq_base
wqd

crates/wq_base:
proofs
specs
src

crates/wq_base/proofs:

crates/wq_base/specs:

crates/wq_base/src:
lib.rt

crates/wqd:
proofs
specs
src

crates/wqd/proofs:

crates/wqd/specs:

crates/wqd/src:
main.rt
wq_base: itoa
wqd: wq_base clap
Handles allowed: none.
"""
BEGINS = "wqd: the program is proved and built; that takes about an hour on four processors\n"
STEPS = r"wqd: wq_base is proved, 1 of 2 \(\d+ s so far.*\)\nwqd: wqd is proved, 2 of 2 \(\d+ s so far\)\n"


# How many checks run at once: with so many processors, and so many kibibytes of free memory.
LANES = [
    (1, 99_000_000, 1),
    (2, 99_000_000, 2),
    (64, 99_000_000, 4),
    (4, 11_718_750, 4),
    (4, 11_718_749, 3),
    (4, 8_789_063, 3),
    (4, 6_000_000, 2),
    (2, 3_000_000, 1),
    (4, 100_000, 1),
    (4, -100_000, 1),
]


class Lanes(Case):
    def test_rule(self) -> None:
        for processors, memory, lanes in LANES:
            name = f"{processors} processors and {memory} KiB"
            self.same(name, said_by(f"lanes_for {processors} {memory}"), f"{lanes}\n")

    def test_machine(self) -> None:
        self.check("the rule for this machine", re.fullmatch("[1-4]\n", said_by("lanes")), [said_by("lanes")])


class Proving(Case):
    def test_proving(self) -> None:
        bare(self.room)
        (self.room / "crates.txt").write_text(CRATES)
        (self.room / "HANDLES").write_text("Handles allowed: none.\n")
        for part in ("src", "specs", "proofs", "out"):
            (self.room / "crates" / "wq_base" / part).mkdir(parents=True)
        (self.room / "crates" / "wq_base" / "src" / "lib.rt").write_text("")
        (self.room / "crates" / "wq_base" / "out" / "kept").write_text("")
        (self.room / "temporary").mkdir()
        kit = tools(self.room)
        (kit / "ls").symlink_to(path_of("ls"))
        (kit / "rt").write_text(KIT)
        (kit / "rt").chmod(0o755)

        def run(fault: str, *words: str) -> built.Ended:
            return built.call(
                [str(self.room / "wqd"), *words], stdin=subprocess.DEVNULL, env=values_for(self.room, kit, fault)
            )

        refused = run("fn wqd::main: no proof", "--build")
        self.same("a crate that is not proved", (refused.status, refused.output), (1, b""))
        ends = r"rt: wq_base is kept: .*\nrt: wqd proved\nfn wqd::main: no proof\nwqd: the program could not be built\n"
        self.said("what is said of it", refused.errors, STEPS + ends)
        self.same("what that leaves", (self.room / "crates" / "wqd" / "out" / "wqd").exists(), False)
        proved = run("", "--build")
        self.same("a program that is proved first", (proved.status, proved.output), (0, b""))
        self.said("what is said on the way", proved.errors, STEPS + r"wqd: built in \d+ s\n")
        self.same("the copy that is proved", (self.room / "seen").read_text(), SEEN)
        self.check_jobs((self.room / "seen.jobs").read_text())
        self.same("the copies are gone", list((self.room / "temporary").iterdir()), [])
        self.same("a run of it", run("not asked", "replay"), built.Ended(b"", b"", 0))
        again = built.Ended(b"", b"wqd: it is built already\n", 0)
        self.same("the next build", run("not asked", "--build"), again)
        self.check_note((self.room / "crates" / "wqd" / "out" / "wqd.proof").read_text())
        self.check_verifying(self.room, values_for(self.room, kit))

    def check_jobs(self, said: str) -> None:
        """The kit is told how many crates it may prove at once."""
        given = os.environ.get("RT_JOBS", "[1-4]")
        self.check("how many crates are proved at once", re.fullmatch(f"{given}\n", said), [said])

    def check_note(self, note: str) -> None:
        """It names the program, its sources, and what the kit said."""
        digest = hashlib.sha256(built.program_path().read_bytes()).hexdigest()
        lines = note.splitlines()
        self.same("the program of the note", lines[0], f"program {digest}")
        self.check("the sources of the note", re.fullmatch("sources [0-9a-f]{64}", lines[1]) is not None, lines)
        self.same("the kit of the note", lines[3], "kit a kit")
        self.same("the end of the note", lines[-2:], ["rt: wqd proved", "4 passed, 0 failed"])

    def check_verifying(self, room: Path, values: Dict[str, str]) -> None:
        same_program, another = room / "same", room / "another"
        shutil.copy(built.program_path(), same_program)
        another.write_bytes(built.program_path().read_bytes() + b" ")
        for path, status, said in (
            (same_program, 0, "is the program that comes out"),
            (another, 1, "is another program"),
            (room / "none", 1, "there is no file"),
        ):
            ended = subprocess.run([str(room / "verify"), str(path)], capture_output=True, env=values)
            self.same(f"./verify of {path.name}", ended.returncode, status)
            self.check(
                f"what it says of {path.name}", said in (ended.stdout + ended.stderr).decode(), [f"{ended.stderr!r}"]
            )
        self.same("the copies of ./verify are gone", list((room / "temporary").iterdir()), [])

    def said(self, name: str, errors: bytes, pattern: str) -> None:
        text = errors.decode()
        self.same(name, text if re.fullmatch(re.escape(BEGINS) + pattern, text) else "another text: " + text, text)


def said_by(call: str) -> str:
    """What a function of contrib/lanes.sh prints in the plainest shell."""
    ended = built.call(["sh", "-euc", f". ./lanes.sh; {call}"], cwd=built.TOP / "contrib")
    return (ended.output + ended.errors).decode()


def values_for(room: Path, kit: Path, fault: str = "") -> Dict[str, str]:
    """The environment of a build with the stand-in."""
    kept = {name: value for name, value in os.environ.items() if name != "WQD"}
    return {
        **kept,
        "PATH": str(kit),
        "TMPDIR": str(room / "temporary"),
        "SEEN": str(room / "seen"),
        "FAULT": fault,
        "PROGRAM": str(built.program_path()),
    }
