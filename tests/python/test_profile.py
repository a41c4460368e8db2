"""contrib/profile follows a check that runs. A stand-in for the prover takes processor time, and writes the modules
that the prover would write."""

import os
import re
import subprocess
from typing import List

import built
from case import Case

# A module takes the processor time since the one before.
PROVER = """
import os, time
room = f"{os.environ['TMPDIR']}/rattle-logic-built-locked-{os.getpid()}-0"
os.mkdir(room)
for name, seconds, size in [
    ("Rattle-wq_x-proofs.Counted.oantt", 1.0, 10),
    ("Rattle-wq_x-proofs.piece.split.Lts.oantt", 1.0, 1_500_000),
    ("Rattle-wq_x-proofs.piece.split.Lts.Kinds-10-0.oantt", 0.2, 500_000),
    ("Rattle-wq_x-proofs.piece.fn.split.sort_by+FnMut.call_mut.Code.Mir.oantt", 0.6, 10),
    ("Rattle-wq_x-specs.Piece.oantt", 0.1, 10),
    ("Rattle-wq_x-proofs.inbox.Inbox.next.Answers-1.oantt", 0.4, 10),
    ("Rattle-wq_x-proofs.inbox.Inbox.next.oantt", 0.1, 10),
]:
    ends = time.process_time() + seconds
    while time.process_time() < ends:
        pass
    with open(f"{room}/{name}", "wb") as module:
        module.write(bytes(size))
time.sleep(2)
"""


class Profile(Case):
    def test_running(self) -> None:
        (self.room / "check").write_text(PROVER)
        command = ["bash", "-c", "exec -a rattle python3 check --crate-name wq_x"]
        prover = subprocess.Popen(command, cwd=self.room, env={**os.environ, "TMPDIR": str(self.room)})
        while not list(self.room.glob("rattle-logic-built-locked-*")):
            self.assertIsNone(prover.poll())
        ended = built.call([built.TOP / "contrib" / "profile", "--running", "wq_x", "--rows", "2"])
        prover.wait()
        self.same("status", (ended.status, ended.errors), (0, b""))
        lines = ended.output.decode().splitlines()
        self.check("sums", re.match("wq_x: [23] s, 1 functions with states; states 1, proof 0,", lines[0]), lines)
        self.same("rows", len(lines), 8)
        self.check_row(lines[4], ["`piece.split`", "1.8", "1.2", "0.0", "0.0", "0.0", "2.0"])
        self.same("the row after it", lines[5].split()[1], "`(lemmas)`")

    def check_row(self, line: str, expected: List[str]) -> None:
        """The figures of a row are about these: the looks of the profile cut them."""
        cells = line.strip("| ").split(" | ")
        self.same("function", (cells[0], cells[-1]), (expected[0], expected[-1]))
        for found, wanted in zip(cells[1:-1], expected[1:-1]):
            self.check(f"seconds of {line}", abs(float(found) - float(wanted)) < 0.5, [wanted])

    def test_nothing_runs(self) -> None:
        ended = built.call([built.TOP / "contrib" / "profile", "--running", "wq_none"])
        self.same("what it says", ended, built.Ended(b"", b"profile: no check of wq_none runs now\n", 1))
