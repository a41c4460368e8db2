"""The recipes of docs/RECIPES.md: each room that a table of them names is there, and has what its row says of it. Each
file that names a sibling of what a recipe adds is a room of it, or need not change."""

import re
from collections import defaultdict
from fnmatch import fnmatch
from pathlib import Path
from typing import Dict, Iterator, List, NamedTuple, Set

from siblings import SIBLINGS, files_that_name

PAGE = "docs/RECIPES.md"
CODE = re.compile(r"`([^`]+)`")
# A row may say this of its files: a name of the code, or one with hyphens. `ask_..` and `NAME-found` are no names.
WORD = re.compile(r"(?!NAME)[A-Za-z_][\w-]*")
CRATE = re.compile(r"In `(crates/\w+)`")
HEADING = "## To add "
# The page says how many rooms the tables of these name: files, and directories that get a file more.
COUNTED_RECIPES = ("a term", "a field", "a query key", "a command that reads", "a command that changes", "an error")
COUNTED = re.compile(rf"(?:tables|those) for ({'|'.join(COUNTED_RECIPES)})(?: name)? (\d+)")


class Room(NamedTuple):
    """A row of a recipe: the line that it is in, its files as paths from the repository's top, and what is in them."""

    recipe: str
    number: int
    files: List[str]
    words: List[str]


def rooms(page: str) -> Iterator[Room]:
    recipe, base = "", ""
    for number, line in enumerate(page.split("\n"), 1):
        crate = CRATE.match(line)
        if line.startswith("## "):
            recipe, base = line[len(HEADING) :] if line.startswith(HEADING) else "", ""
        elif crate:
            base = f"{crate[1]}/"
        elif line.startswith(("In ", "Outside ")):
            base = ""
        elif recipe and line.startswith("| `"):
            first, last = line.strip("| ").split(" | ")
            yield Room(recipe, number, list(files_in(first, base)), CODE.findall(last))


def files_in(cell: str, base: str) -> Iterator[str]:
    """The paths that a cell names. A name without a slash is in the directory of the one before, or at the top."""
    beside = base
    for name in CODE.findall(cell):
        path = base + name if "/" in name else name if name.endswith(".md") else beside + name
        beside = path[: path.rfind("/") + 1]
        # X is the name of any group of commands.
        yield path.replace("/X.", "/*.").rstrip("/")


def wrong_rooms(top: Path) -> Iterator[str]:
    """The sayings of the recipes that are not so."""
    page = (top / PAGE).read_text(encoding="utf-8")
    named: Dict[str, Set[str]] = defaultdict(set)
    for room in rooms(page):
        named[room.recipe].update(room.files)
        yield from (f"line {room.number}: there is no {name}" for name in room.files if not list(top.glob(name)))
        paths = [path for name in room.files for path in top.glob(name) if path.is_file()]
        text = "\n".join(path.read_text(encoding="utf-8") for path in paths)
        for word in room.words:
            if text and WORD.fullmatch(word) and word not in text:
                yield f"line {room.number}: {word} is in none of its files"
    said = {recipe: int(count) for recipe, count in COUNTED.findall(page)}
    counts = {recipe: len(named[recipe]) for recipe in COUNTED_RECIPES}
    if said != counts:
        yield f"the tables name other numbers of rooms than the page says: {counts}"
    for recipe, sibling in SIBLINGS.items():
        known = [*named[recipe], *(f"{room}/*" for room in named[recipe]), *sibling.unchanged]
        yield from (
            f"{recipe}: {name} names {' and '.join(sibling.words)}, and is no room"
            for name in files_that_name(top, sibling.words)
            if not any(fnmatch(name, one) for one in known)
        )
