"""The questions of strangers: each has a place in a page, which is at most two links from README and has some words of
the answer. A line of `questions` is the question, the page with its heading, and these words."""

import re
from functools import lru_cache
from pathlib import Path
from typing import List, NamedTuple, Set, Tuple

import built
from case import Case
from pages import anchors_of, links_of
from words import COVERED

QUESTIONS = Path(__file__).resolve().parent / "questions"
FEWEST = 50
START = "README.md"
# Links from README to an answer.
MOST_LINKS = 2


class Question(NamedTuple):
    text: str
    page: str
    heading: str
    words: str


def questions() -> List[Question]:
    lines = QUESTIONS.read_text(encoding="utf-8").splitlines()
    parts = [re.split(r" \| |#", line, maxsplit=3) for line in lines]
    return [Question(*part) for part in parts]


class Questions(Case):
    def test_answers(self) -> None:
        """Whoever reads the section finds the answer: its words are there."""
        for it in questions():
            sections = sections_of(it.page)
            self.check(it.text, it.heading in sections, [f"{it.page} has no heading {it.heading}"])
            text = sections.get(it.heading, "")
            self.check(it.text, it.words in text, [f"{it.page}#{it.heading} lacks: {it.words}"])

    def test_links(self) -> None:
        """README leads to the section by two links. The first may lead to the page, whose contents lead on."""
        reached = within(MOST_LINKS)
        for it in questions():
            is_first = it.heading == anchors_of(built.TOP / it.page)[0]
            is_here = it.page == START or (is_first and (it.page, "") in reached)
            is_reached = is_here or (it.page, it.heading) in reached
            self.check(it.text, is_reached, [f"{it.page}#{it.heading} is over {MOST_LINKS} links from {START}"])

    def test_each_is_asked_once(self) -> None:
        asked = [it.text for it in questions()]
        self.check(f"there are at least {FEWEST}", len(asked) >= FEWEST, [str(len(asked))])
        self.same("each question is there once", len(set(asked)), len(asked))
        self.same("each ends so", [text for text in asked if not text.endswith("?")], [])

    def test_pages_without_a_limit_have_questions(self) -> None:
        """A page is as long as its questions need."""
        self.same("pages", sorted(COVERED), sorted({it.page for it in questions()}))


@lru_cache(maxsize=None)
def sections_of(page: str) -> "dict[str, str]":
    """The text below each heading of a page, up to the next one."""
    path = built.TOP / page
    parts = re.split(r"(?m)^#+ .*$", path.read_text(encoding="utf-8"))
    return dict(zip(anchors_of(path), parts[1:]))


def within(links: int) -> Set[Tuple[str, str]]:
    """The pages and headings that so many links from README lead to; a page has the heading "" too."""
    reached = {(START, "")}
    for _ in range(links):
        for page in {page for page, _ in reached if (built.TOP / page).suffix == ".md"}:
            reached |= {target_of(page, target) for _, target in links_of(built.TOP / page)}
    return reached


def target_of(page: str, target: str) -> Tuple[str, str]:
    path, _, heading = target.partition("#")
    other = (built.TOP / page).parent / path if path else built.TOP / page
    return other.resolve().relative_to(built.TOP).as_posix() if is_inside(other) else page, heading


def is_inside(path: Path) -> bool:
    return path.exists() and built.TOP in path.resolve().parents
