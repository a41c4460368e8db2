"""Siblings of what the recipes of docs/RECIPES.md add: each is there already, so that the files that name it show which
rooms a new one has."""

import os
import re
from pathlib import Path
from typing import Dict, Iterator, List, NamedTuple

DIRECTORIES = ["bench", "clients", "contrib", "crates", "docs", "edits", "examples", "tests"]
# Directories of what is built.
PASSED_OVER = {"out", "__pycache__"}
MADE = {
    "docs/crates/*.md": "docs/crates/generate writes it",
    "clients/wqclient/names.py": "so it does this",
    "tests/documents/siblings.py": "this file",
}


class Sibling(NamedTuple):
    """Files that have all these words name it. `unchanged` has those that need no change for another one, each with
    the reason."""

    words: List[str]
    unchanged: Dict[str, str]


SIBLINGS = {
    # One of the two is the name of a time of a record too, and the other that of an instruction and of a `since`.
    "a field": Sibling(
        ["mtime_ms|MtimeMs", "cclock|Cclock"],
        {
            **MADE,
            "bench/*": "a bench asks what it asked before",
            "crates/wq_code/*": "instructions that read a record",
            "crates/wq_machine/*": "the same",
            "crates/wq_verify/*": "the same",
            "edits/wq_term.edits": "the fields of `since`",
            "tests/bridge/*": "samples of queries",
            "tests/calls/query.rattle": "a sample of names",
            "tests/refused_memory/*": "a field takes no memory",
        },
    ),
    "a query key": Sibling(
        ["empty_on_fresh_instance"],
        {
            **MADE,
            "clients/bridge/queries.py": "a key of Watchman, which says true or false",
            "clients/tried/words.rows": "the same",
            "clients/wq/questions.py": "a value that is wrong, of any key",
            "tests/bridge/*": "samples of queries",
            "tests/refused_memory/query.rattle": "the key takes no memory",
            "tests/wq/places.cases": "samples of faults",
        },
    ),
    "a term": Sibling(
        ["idirname|Idirname"],
        {
            **MADE,
            "clients/wq/vocabulary.py": "what to take in the place of `case_sensitive`",
            "clients/wq/warnings.py": "warnings of terms that name directories",
            "docs/CLIENTS.md": "what a client of Watchman says in its place",
            "tests/plain/cases.py": "cases of the forms of arguments",
            "tests/refused_memory/expression.rattle": "each form of arguments that takes memory",
            "tests/surface/calls": "what was planned",
            "tests/wq/places.cases": "samples of faults",
        },
    ),
}


def files_that_name(top: Path, words: List[str]) -> Iterator[str]:
    """The files below the top that have each of these words, as paths from it."""
    patterns = [re.compile(rf"\b(?:{word})\b".encode()) for word in words]
    for file in files_of(top):
        text = file.read_bytes()
        if all(pattern.search(text) for pattern in patterns):
            yield file.relative_to(top).as_posix()


def files_of(top: Path) -> Iterator[Path]:
    yield from top.glob("*.md")
    for directory in DIRECTORIES:
        for base, inner, names in os.walk(top / directory):
            inner[:] = [name for name in inner if name not in PASSED_OVER]
            yield from (Path(base, name) for name in names if Path(base, name).is_file())
