"""docs/chain: the table of two logs, and what it says of a log from which none can be made."""

import json
import shutil

import built
from case import Case

CRATES = "# One line a crate.\nlow: itoa\nleft: low\nright: low\ntop: left right clap\n"
BEFORE = """fn low::f: proved
rt: low proved
1 passed, 0 failed

real\t0m9.000s
user\t1m2.500s
sys\t0m0.500s
rt: low is kept: an earlier run on this machine proved the same files over the same libraries
rt: left proved
real 500.0
user 100.0
sys 1.0
"""
AFTER = """rt: low proved
real 1m1.0s
user 1m0.0s
sys 0m0.4s
rt: left proved
real 1m1.0s
user 1m40.0s
sys 0m0.0s
rt: right proved
real 1m1.0s
user 1m0.0s
sys 0m0.0s
rt: top proved
real 1m1.0s
user 20m0.0s
sys 0m1.0s
rt: low is kept: an earlier run on this machine proved the same files over the same libraries
real 0m1.0s
user 0m1.0s
sys 0m0.0s
"""
TABLE = """| crate | seconds before | seconds after | chain |
| --- | --- | --- | --- |
| `low` | 63 | 60 | **60** |
| `left` | 101 | 100 | **160** |
| `right` |  | 60 | 120 |
| `top` |  | 1,201 | **1,361** |
| all | 164 | 1,421 | 1,361 |
"""
PAGE = "# Speed\n\n## A proved build\n\nIt takes long.\n\n## How to measure\n"
TWO = "rt: low proved\nrt: left proved\nreal 1m1.0s\nuser 1m0.0s\nsys 0m0.0s\n"


class Chain(Case):
    def setUp(self) -> None:
        super().setUp()
        (self.room / "docs").mkdir()
        shutil.copy(built.TOP / "docs" / "chain", self.room / "docs")
        (self.room / "crates.txt").write_text(CRATES)
        (self.room / "docs" / "SPEED.md").write_text(PAGE)
        (self.room / "docs" / "figures.json").write_text("{}\n")
        for name, text in (("before", BEFORE), ("after", AFTER), ("two", TWO), ("none", "real 1m1.0s\n")):
            (self.room / name).write_text(text)

    def said(self, *words: str) -> built.Ended:
        return built.call([self.room / "docs" / "chain", *words], cwd=self.room)

    def test_tables(self) -> None:
        self.same("two logs", self.said("before", "after"), built.Ended(TABLE.encode(), b"", 0))
        one = self.said("after").output.decode().splitlines()
        self.same("one log", (one[0], one[3]), ("| crate | seconds | chain |", "| `left` | 100 | **160** |"))

    def test_page(self) -> None:
        nothing = built.Ended(b"", b"", 0)
        self.same("a page without a table", self.said("--check"), nothing)
        self.same("writing", self.said("--write", "before", "after"), nothing)
        page = self.room / "docs" / "SPEED.md"
        self.same("the page", page.read_text(), PAGE.replace("\n## How", f"\n{TABLE}\n## How"))
        self.same("the file", json.loads((self.room / "docs" / "figures.json").read_text())["build"][0]["low"], 63.0)
        self.same("a check of it", self.said("--check"), nothing)
        self.same("writing again", self.said("--write", "before", "after"), nothing)
        self.same("the page again", page.read_text(), PAGE.replace("\n## How", f"\n{TABLE}\n## How"))
        page.write_text(page.read_text().replace("1,201", "1,200"))
        self.same("a check of another table", self.said("--check").status, 1)

    def test_faults(self) -> None:
        two = b"chain: two has one time for low and left: prove one after the other\n"
        self.same("two crates at once", self.said("two"), built.Ended(b"", two, 1))
        self.same("no crate", self.said("none"), built.Ended(b"", b"chain: none has no time for any crate\n", 1))
        self.same("no log", self.said("missing").status, 1)
