"""The programs of docs/LIBRARY.md: each is run, and the page shows it as it is."""

from pathlib import Path

import built
import unproved

PAGE = built.TOP / "docs" / "LIBRARY.md"


class Library(unproved.Unproved):
    tests = Path(__file__).resolve().parent

    def test_all(self) -> None:
        self.check_all()

    def test_the_page_shows_each(self) -> None:
        shown = PAGE.read_text(encoding="utf-8")
        for path in sorted(self.tests.glob("*.rattle")):
            if path.stem != "main":
                program = path.read_text(encoding="utf-8").strip("\n")
                self.check(f"{PAGE.name} shows {path.name}", f"```rust\n{program}\n```" in shown)
