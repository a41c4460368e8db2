"""Looks whether docs/PROOFS.md says of each trait of the crates, and of each of its calls with a clause, what that says
at the server."""

import re
from pathlib import Path
from typing import Iterator, Tuple

import built
from case import Case

HEADING = "## What each clause says at the server\n"
TRAIT = re.compile(r"^pub(?:\(crate\))? trait (\w+)[^{]*\{\n(.*?)^\}", re.M | re.S)
CALL = re.compile(r"^    fn (\w+)(.*?)(?=^    fn |\Z)", re.M | re.S)


class Traits(Case):
    def test_each_trait_has_a_row(self) -> None:
        rows = rows_of(built.TOP / "docs" / "PROOFS.md")
        for trait, call, has_clause in calls_of(built.TOP / "crates"):
            where = f"{trait}::{call}" if has_clause else trait
            self.check(f"docs/PROOFS.md has a row of {where}", is_said(rows, trait, call if has_clause else ""))

    def test_each_row_says_what_carries_it(self) -> None:
        for row in rows_of(built.TOP / "docs" / "PROOFS.md"):
            cells = [cell.strip() for cell in row.strip("|").split("|")]
            self.check(f"three full cells: {row[:60]}", len(cells) == 3 and all(cells))

    def test_a_trait_without_a_row_is_found(self) -> None:
        rows = ("| `Inbox::next`: an event | it holds | itself |",)
        self.assertTrue(is_said(rows, "Inbox", "next"))
        self.assertFalse(is_said(rows, "Inbox", "last"))
        self.assertFalse(is_said(rows, "Outbox", ""))


def rows_of(page: Path) -> Tuple[str, ...]:
    """The rows of the table below the heading, without its head."""
    section = page.read_text(encoding="utf-8").partition(HEADING)[2].partition("\n## ")[0]
    return tuple(line for line in section.split("\n") if line.startswith("| ") and not line.startswith("| clause |"))


def calls_of(crates: Path) -> Iterator[Tuple[str, str, bool]]:
    """Each call of each trait, and whether it has a clause. A trait without calls has an empty one."""
    for file in sorted(crates.glob("*/src/**/*.rt")):
        for trait, body in TRAIT.findall(file.read_text(encoding="utf-8")):
            found = CALL.findall(body)
            for call, rest in found:
                yield trait, call, re.search(r"^        ensures", rest, re.M) is not None
            if not found:
                yield trait, "", False


def is_said(rows: Tuple[str, ...], trait: str, call: str) -> bool:
    """Whether the first cell of a row names this trait, and this call of it."""
    firsts = [row.split("|")[1] for row in rows]
    own = [cell for cell in firsts if re.search(rf"`{trait}(?:::|`)", cell)]
    return any(not call or re.search(rf"(?:::|`){call}`", cell) for cell in own)
