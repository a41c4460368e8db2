"""docs/counts beside a commit: of a repository of two crates, of which one changed, one came and one went."""

import shutil
import subprocess

import built
from case import Case

HEADING = "# Changes\n\n## 1.0.0, 2026-11-30\n"
LOW = """//! Words.
pub fn first() -> u64
    ensures { result ≡ 1 }
{
    1
}
"""
SECOND = """
/// Another word.
pub(crate) fn second() -> u64 {
    2
}
"""
ROWS = """
| crate | functions | code and contracts | proof |
|---|---|---|---|
| `low` | 1 → 2 (+1) | 5 → 8 (+3) | 1 |
| `new` | 0 → 1 (+1) | 0 → 5 (+5) | 0 |
| `old` | 1 → 0 (-1) | 5 → 0 (-5) | 0 |
| all | 2 → 3 (+1) | 10 → 13 (+3) | 1 |
"""


class Beside(Case):
    def test_commits(self) -> None:
        (self.room / "docs").mkdir()
        (self.room / "edits").mkdir()
        (self.room / "edits" / "low.edits").write_text("# gate\n")
        shutil.copy(built.TOP / "docs" / "counts", self.room / "docs")
        for crate in ("low", "old"):
            self.write(crate, LOW)
        (self.room / "crates" / "low" / "proofs").mkdir()
        (self.room / "crates" / "low" / "proofs" / "Lib.antt").write_text("-- Lemmas.\nmod Words\n")
        (self.room / "crates.txt").write_text("low:\nold: low\n")
        (self.room / "CHANGELOG.md").write_text(HEADING)
        self.git("init", "-q")
        self.commit()
        self.write("low", LOW + SECOND)
        self.commit()
        self.write("new", LOW)
        shutil.rmtree(self.room / "crates" / "old")
        (self.room / "crates.txt").write_text("low:\nnew: low\n")
        self.same("beside the last release", self.counted(), ROWS)
        self.same("beside a commit", self.counted("HEAD~1"), ROWS)
        self.check("beside the last commit", "| `low` | 2 | 8 | 1 |" in self.counted("HEAD"))

    def write(self, crate: str, text: str) -> None:
        source = self.room / "crates" / crate / "src"
        source.mkdir(parents=True, exist_ok=True)
        (source / "lib.rt").write_text(text, encoding="utf-8")

    def git(self, *words: str) -> None:
        who = ["-c", "user.name=a", "-c", "user.email=a@b.c"]
        subprocess.run(["git", "-C", str(self.room), *who, *words], check=True)

    def commit(self) -> None:
        self.git("add", "-A")
        self.git("commit", "-q", "-m", "a")

    def counted(self, *commit: str) -> str:
        """What is printed below its first line."""
        ended = built.call([self.room / "docs" / "counts", "--beside", *commit])
        self.same("errors", ended.errors, b"")
        return ended.output.decode().partition("\n")[2]
