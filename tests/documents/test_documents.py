"""Looks at the pages of the project as they are: each link leads to a file and a heading, README fits three screens,
limits are those of the definitions, figures are those of docs/SPEED.md, recipes
name rooms that are there, and no paragraph and no row of a table is on two pages."""

import re
from collections import defaultdict
from pathlib import Path
from typing import Dict, List, Set

import built
from case import Case
from limits import missing_limits
from measures import wrong_measures
from pages import anchors_of, links_of, prose_of
from recipes import wrong_rooms
from words import GENERATED, wordy

PAGES = [
    *(built.TOP / name for name in ("README.md", "CONTRIBUTING.md", "CHANGELOG.md")),
    *sorted((built.TOP / "docs").rglob("*.md")),
    *sorted((built.TOP / "examples").glob("*.md")),
    *sorted((built.TOP / "crates").glob("*/*.md")),
    *(built.TOP / name for name in ("tests/README.md", "bench/LOG.md")),
]
# README: how many lines it may have, and how many characters a line that is no row of a table.
MOST_LINES = 150
MOST_COLUMNS = 120
# Parts of fewer words may be on two pages, as heads of tables.
FEWEST_WORDS = 12


class Pages(Case):
    def test_links(self) -> None:
        headings = {page: set(anchors_of(page)) for page in PAGES}
        for page in PAGES:
            for number, target in links_of(page):
                where = f"{name_of(page)}, line {number}"
                self.check(f"{where}: {target}", leads_somewhere(page, target, headings))

    def test_limits_are_those_of_the_definitions(self) -> None:
        self.assertEqual(list(missing_limits(built.TOP)), [])

    def test_figures_are_those_of_speed(self) -> None:
        self.assertEqual(list(wrong_measures(built.TOP)), [])

    def test_recipes_name_rooms_that_are_there(self) -> None:
        self.assertEqual(list(wrong_rooms(built.TOP)), [])

    def test_pages_keep_to_their_words(self) -> None:
        self.assertEqual(list(wordy(built.TOP)), [])

    def test_readme(self) -> None:
        lines = PAGES[0].read_text(encoding="utf-8").rstrip("\n").split("\n")
        self.check(f"README.md has at most {MOST_LINES} lines", len(lines) <= MOST_LINES, [f"it has {len(lines)}"])
        long = [line for line in lines if len(line) > MOST_COLUMNS and not line.startswith("|")]
        self.check(f"README.md has lines of at most {MOST_COLUMNS} characters", not long, long)

    def test_parts(self) -> None:
        """No paragraph, item or row is there twice."""
        places: Dict[str, List[str]] = defaultdict(list)
        for page in PAGES:
            for number, line in prose_of(page):
                if line == GENERATED:
                    break
                if len(re.findall(r"[A-Za-z]+", line)) >= FEWEST_WORDS and not line.startswith("<!--"):
                    places[line.strip()].append(f"{name_of(page)}, line {number}")
        twice = [f"{' and '.join(found)}: {line[:80]}" for line, found in places.items() if len(found) > 1]
        self.check("no paragraph is there twice", not twice, twice)


def name_of(page: Path) -> str:
    return str(page.relative_to(built.TOP))


def leads_somewhere(page: Path, target: str, headings: Dict[Path, Set[str]]) -> bool:
    path, _, heading = target.partition("#")
    other = (page.parent / path).resolve() if path else page
    return other.exists() and (not heading or heading in headings.get(other, set()))
