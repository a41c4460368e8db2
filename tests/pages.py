"""The pages of the project in Markdown: blocks of code and tables with their marks, prose, links and headings.

A mark is an HTML comment, which a reader of the page does not see. It stands before a block or a table:

    <!-- run: KIND -->          the block or table is run so
    <!-- not run: REASON -->    it has no example that can be run
"""

import re
from pathlib import Path
from typing import Iterator, List, NamedTuple, Tuple

COMMENT = re.compile(r"<!--(.*?)-->", re.DOTALL)
LINK = re.compile(r"\]\(([^)\s]+)\)")
HEADING = re.compile(r"#+ ")
INDENT, FENCE = "    ", "```"


class Element(NamedTuple):
    """A block of code, with its lines, a table, with its header and its rows, or a comment. A mark holds for the block
    or table that follows it, and for no other."""

    number: int
    kind: str
    mark: str
    lines: List[str]


def elements_of(text: str) -> Iterator[Element]:
    """The elements of a page from top to bottom."""
    lines = text.split("\n")
    mark, place = "", 0
    while place < len(lines):
        end, kind = end_of_element(lines, place), kind_of(lines[place])
        if kind == "comment":
            mark = COMMENT.findall("\n".join(lines[place:end]))[0].strip()
            yield Element(place + 1, kind, mark, [])
        elif kind in ("block", "table"):
            yield Element(place + 1, kind, mark, shown(lines[place:end], kind))
        if kind in ("block", "table", "text"):
            mark = ""
        place = end


def kind_of(line: str) -> str:
    if not line.strip():
        return "blank"
    if line.startswith("<!--"):
        return "comment"
    if line.startswith("|"):
        return "table"
    return "block" if line.startswith((FENCE, INDENT)) else "text"


def end_of_element(lines: List[str], place: int) -> int:
    """The place after the element that begins here."""
    kind, end = kind_of(lines[place]), place + 1
    if kind == "comment":
        while "-->" not in lines[end - 1]:
            end += 1
    elif lines[place].startswith(FENCE):
        return lines.index(FENCE, end) + 1
    elif kind in ("block", "table"):
        while end < len(lines) and kind_of(lines[end]) == kind:
            end += 1
    return end


def shown(lines: List[str], kind: str) -> List[str]:
    if kind == "table":
        return lines
    return lines[1:-1] if lines[0].startswith(FENCE) else [line[len(INDENT) :] for line in lines]


def prose_of(page: Path) -> Iterator[Tuple[int, str]]:
    """The lines of a page with their numbers, without blocks of code and without code within a line."""
    lines = page.read_text(encoding="utf-8").split("\n")
    place = 0
    while place < len(lines):
        end = end_of_element(lines, place)
        if kind_of(lines[place]) != "block":
            yield from (
                (place + 1 + more, re.sub(r"`[^`]*`", "`code`", line)) for more, line in enumerate(lines[place:end])
            )
        place = end


def links_of(page: Path) -> Iterator[Tuple[int, str]]:
    for number, line in prose_of(page):
        yield from ((number, target) for target in LINK.findall(line) if "://" not in target)


def anchors_of(page: Path) -> List[str]:
    """The headings of a page in their order, as links name them."""
    lines = page.read_text(encoding="utf-8").split("\n")
    words = [line.lstrip("#").strip() for line in lines if HEADING.match(line)]
    return [re.sub(r"[^\w\- ]", "", word.lower()).replace(" ", "-") for word in words]
