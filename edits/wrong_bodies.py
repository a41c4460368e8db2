"""Wrong bodies: edits of a crate's files, each with the functions that the prover has to refuse for it.

Those of a crate are in one file, one after the other below the headline of their tier, which is `gate` or `more`:

    # gate

    ## a-second-at-the-limit-is-none
    refused: bound::Bound::second
    file: src/bound.rt
    old: if second <= MAX_NUMBER {
    new: if second < MAX_NUMBER {

tests/README.md says what each line is.
"""

import re
from pathlib import Path
from typing import Dict, List, NamedTuple, Tuple

TIERS = ("gate", "more")
TIER = re.compile(r"# (%s)" % "|".join(TIERS))
HEADLINE = re.compile(r"## ([a-z0-9-]+)")

# Whether something is as it should be, and what there is to say of it.
Verdicts = List[Tuple[bool, str]]


class Block(NamedTuple):
    """An edit as its file has it: its tier, if it is below one, its name, and the lines below."""

    tier: str
    name: str
    lines: List[str]


class Pair(NamedTuple):
    """A text of a file and what takes its place: the first one behind the line `after`, if there is such a line."""

    file: str
    after: str
    old: str
    new: str


class Edit(NamedTuple):
    """A wrong body: what it puts in place of what, and the functions that have to be refused. Or what the compiler has
    to say of it, if no such body has the types that it needs."""

    name: str
    pairs: List[Pair]
    refused: List[str]
    untyped: str


class BadEdit(Exception):
    """An edit that cannot be tried, and why."""


def blocks_in(path: Path) -> List[Block]:
    """The edits that a file has, in their order."""
    blocks: List[Block] = []
    tier = ""
    for number, line in enumerate(path.read_text(encoding="utf-8").splitlines(), 1):
        of_tier, headline = TIER.fullmatch(line), HEADLINE.fullmatch(line)
        if of_tier is not None:
            tier = of_tier[1]
        elif headline is not None:
            blocks.append(Block(tier, headline[1], []))
        elif line and (line.startswith("#") or not blocks):
            raise BadEdit(f"line {number} is no headline of a tier or of an edit, such as `## a-name-in-words`")
        elif line:
            blocks[-1].lines.append(line)
    return blocks


def read(block: Block) -> Edit:
    """An edit from its lines: `refused: FUNCTION`, or `untyped: WORDS` of the compiler; `file: FILE`, and pairs of
    lines `old: TEXT` and `new: TEXT`, with a line `after: TEXT` before one whose old text the file has twice."""
    file, after, old, untyped = "", "", "", ""
    pairs, refused = [], []
    for line in block.lines:
        word, _, text = line.partition(": " if not line.startswith("new:") else ":")
        if word == "refused":
            refused.append(text.strip())
        elif word == "untyped":
            untyped = text.strip()
        elif word == "file":
            file = text.strip()
        elif word == "after":
            after = text
        elif word == "old":
            old = text
        elif word == "new":
            pairs.append(Pair(file, after, old, text[1:] if text.startswith(" ") else text))
            after = ""
        else:
            raise BadEdit(f"a line begins with no word that an edit has: {line}")
    if bool(refused) == bool(untyped) or not pairs or not all(it.file and it.old for it in pairs):
        raise BadEdit("it names no function that is refused, or has no pair of texts behind a file")
    return Edit(block.name, pairs, refused, untyped)


def apply(edit: Edit, directory: Path, texts: Dict[str, str]) -> None:
    """Puts the edit into the texts of the files of the crate, by their paths. Those that are not there are read."""
    for file, after, old, new in edit.pairs:
        if not re.fullmatch(r"src/[\w/]+\.rt", file):
            raise BadEdit(f"it changes {file}, which is no body")
        if file not in texts:
            texts[file] = (directory / file).read_text(encoding="utf-8")
        for text, found in (
            (after, texts[file].count(after) if after else 1),
            (old, count_behind(texts[file], after, old)),
        ):
            if found != 1:
                raise BadEdit(f"its text {text!r} is in {file} {found} times, and not once")
        above, line, below = texts[file].partition(after) if after else ("", "", texts[file])
        texts[file] = above + line + below.replace(old, new, 1)


def count_behind(text: str, after: str, old: str) -> int:
    """How often a text is there; or, behind a line, whether it is."""
    return text.count(old) if not after else min(1, text.partition(after)[2].count(old))


def together(edits: List[Edit], directory: Path) -> Tuple[List[Edit], Dict[str, str]]:
    """The first of these edits with each behind it that another function is refused for and that can stand beside them,
    and the texts of the crate's files with all of them."""
    chosen: List[Edit] = []
    texts: Dict[str, str] = {}
    for edit in edits:
        if any(set(edit.refused) & set(it.refused) for it in chosen):
            continue
        with_it = dict(texts)
        try:
            apply(edit, directory, with_it)
        except BadEdit:
            continue
        chosen.append(edit)
        texts = with_it
    return chosen, texts


def tell(verdicts: Verdicts) -> Verdicts:
    for _, text in verdicts:
        print(text, flush=True)
    return verdicts
