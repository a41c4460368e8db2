"""The figures of docs/SPEED.md: other pages quote them, and its table beside Watchman is that of docs/figures.json."""

import json
import re
from pathlib import Path
from typing import Iterator, List, NamedTuple, Optional, Tuple

SPEED = "docs/SPEED.md"


class Quote(NamedTuple):
    """A text of a page and a text of SPEED that have one figure, where `{}` is. `..` is any text within a line."""

    page: str
    text: str
    origin: str


# A page may round: 0.16 s is 162 ms. Blanks and ends of lines are one.
QUOTES = [
    Quote("README.md", "| what changed since a recent clock | {} | .. |", "| recent clock | {} | .. | .. |"),
    Quote("README.md", "| what changed since a recent clock | .. | {} |", "| recent clock | .. | {} | .. |"),
    Quote("README.md", "| all names | {} | .. |", "| names | {} | .. | .. |"),
    Quote("README.md", "| all names | .. | {} |", "| names | .. | {} | .. |"),
    Quote("README.md", "| memory of an entry | {} | .. |", "| memory of an entry | {} | .. | .. |"),
    Quote("README.md", "| memory of an entry | .. | {} |", "| memory of an entry | .. | {} | .. |"),
    Quote("README.md", "from a write to the notice of it | {} | .. |", "| write to list | {} | .. | .. |"),
    Quote("README.md", "from a write to the notice of it | .. | {} |", "| write to list | .. | {} | .. |"),
    Quote("README.md", "while nothing happens, of one processor | .. | {} |", "| idle | .. | {} | .. |"),
    Quote("README.md", "wqd notices a write in {}, by", "| `--share 10 --interval 100`, .. | .. | .. | {} (.. | .. |"),
    Quote("README.md", "by default: wqd scans first | .. | {} |", "| write to answer | .. | {} | .. |"),
    Quote("README.md", "by default: wqd scans first | {} | .. |", "| write to answer | {} | .. | .. |"),
    Quote("docs/TROUBLESHOOTING.md", "the scan. It takes {} for 100,000 files", "| write to answer | .. | {} | .. |"),
    Quote(
        "docs/SERVER.md",
        "| one view, after a scan that found nothing new | {} |",
        "| memory of a view, in bytes an entry, with names of 33 bytes | {} | .. |",
    ),
    Quote("docs/REFERENCE.md", 'of `{"":0},` in a list: .. s and {} |', '| .. | {} for `{"":0},` | .. |'),
]
# How many of the first unit of its kind each unit is.
UNITS = {"s": 1.0, "ms": 1e-3, "B": 1.0, "MB": 1e6, "GB": 1e9, "%": 1.0, "/s": 1.0, "": 1.0}
KINDS = ({"s", "ms"}, {"B", "MB", "GB"}, {"%"}, {"/s"}, {""})
FIGURE = re.compile(r"([0-9][0-9,]*(?:\.[0-9]+)?) ?(\S*)")


def wrong_measures(top: Path) -> Iterator[str]:
    speed = " ".join((top / SPEED).read_text(encoding="utf-8").split())
    for quote in QUOTES:
        page = " ".join((top / quote.page).read_text(encoding="utf-8").split())
        said, measured = figure_in(page, quote.text), figure_in(speed, quote.origin)
        if said is None:
            yield f"{quote.page} lacks, or has twice: {quote.text}"
        elif measured is None:
            yield f"{SPEED} lacks, or has twice: {quote.origin}"
        elif not agree(said, measured):
            yield f"{quote.page} has {said} in: {quote.text}; {SPEED} has {measured}"
    yield from wrong_rows(top, speed)


def wrong_rows(top: Path, speed: str) -> Iterator[str]:
    """The table beside Watchman has the measures of docs/figures.json."""
    peers = json.loads((top / "docs" / "figures.json").read_text(encoding="utf-8"))["peers"]
    for text in (f"on one tree of {peers['entries']:,} entries", f"of three runs of {peers['date']}"):
        if text not in speed:
            yield f"{SPEED} lacks: {text}"
    for name, measure in peers["measures"].items():
        for peer, text in (("watchman", f"| {name} | {{}} | .. | .. |"), ("wqd", f"| {name} | .. | {{}} | .. |")):
            said, measured = figure_in(speed, text), f"{measure[peer]} {measure['unit']}"
            if said is None or not agree(said, measured):
                yield f"{SPEED} has {said} for {name} of {peer}; docs/figures.json has {measured}"


def figure_in(page: str, text: str) -> Optional[str]:
    """What a page has in the place of `{}`, if it has the text once."""
    pattern = re.escape(text).replace(re.escape("{}"), "([^|;]+?)", 1).replace(re.escape(".."), "[^|]*?")
    found: List[str] = re.findall(pattern, page)
    return found[0] if len(found) == 1 else None


def agree(said: str, measured: str) -> bool:
    """Whether a figure is another one, or that one rounded."""
    if said == measured:
        return True
    (value, digits, unit), (exact, _, other) = parsed(said), parsed(measured)
    if not any({unit, other} <= kind for kind in KINDS):
        return False
    return float(f"{exact * UNITS[other] / UNITS[unit]:.{digits}g}") == value


def parsed(figure: str) -> Tuple[float, int, str]:
    """The number of a figure, how many of its digits count, and its unit."""
    found = FIGURE.fullmatch(figure)
    if found is None:
        return 0.0, 1, "no figure"
    number = found[1].replace(",", "")
    return float(number), len(number.replace(".", "").lstrip("0")) or 1, found[2]
