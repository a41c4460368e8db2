"""The numbers of limits that pages name, beside those of the definitions under crates/*/specs/Limit.antt."""

import re
from pathlib import Path
from typing import Iterator, List, NamedTuple


class Said(NamedTuple):
    """A text of a page, with `{}` for each number, and the definitions that have these numbers, as `crate word`."""

    page: str
    text: str
    limits: List[str]


def said(page: str, text: str, *limits: str) -> Said:
    return Said(f"{page if '/' in page else f'docs/{page}'}.md", text, list(limits))


SAID = [
    said("crates/wq_view/DECISIONS", "A chunk has 1 to {} records", "wq_view max_chunk"),
    said("crates/wq_term/DECISIONS", "**At most {} terms are inside one another.**", "wq_term max_depth"),
    said("REFERENCE", "| name of a file | 1 to {} bytes |", "wq_record max_name"),
    said("REFERENCE", "watched, as it is given | 1 to {} bytes |", "wq_ask max_root_length"),
    said("REFERENCE", "| roots that are watched | {} |", "wq_base max_roots"),
    said("REFERENCE", "| rows of a pass | {} |", "wq_view max_listing_rows"),
    said("REFERENCE", "| records of a view | {} |", "wq_view max_records"),
    said("REFERENCE", "of a subscription and of a trigger | 1 to {} bytes |", "wq_clock max_cursor_name"),
    said("REFERENCE", "| cursors of a root, and programs that are kept | {} each |", "wq_registry max_cursors"),
    said("REFERENCE", "| cursors of a root, and programs that are kept | {} each |", "wq_registry max_programs"),
    said(
        "REFERENCE", "| subscriptions of a session, and triggers of a root | {} each |", "wq_session max_subscriptions"
    ),
    said("REFERENCE", "| subscriptions of a session, and triggers of a root | {} each |", "wq_registry max_triggers"),
    said("REFERENCE", "| terms inside one another | {} |", "wq_term max_depth"),
    said("REFERENCE", "of an expression's program, with its end | {} |", "wq_code max_rows_in Second"),
    said("REFERENCE", "empty suffixes not counted | {} |", "wq_code max_entries_in Second"),
    said(
        "REFERENCE",
        "has at most {} bytes, and a pattern at most {}.",
        "wq_term max_term_text",
        "wq_glob max_pattern_length",
    ),
    said("REFERENCE", "| line of a client, without its newline | {} bytes |", "wq_stream max_line"),
    said("REFERENCE", "| commands of triggers that run at once | {} |", "wq_launch max_runs"),
    said("REFERENCE", "| one, or {} bytes together;", "wq_launch max_input_bytes"),
]


def missing_limits(top: Path) -> Iterator[str]:
    """The texts with the numbers of the definitions that pages lack."""
    for it in SAID:
        text = it.text.format(*(f"{limit(top, name):,}" for name in it.limits))
        if text not in (top / it.page).read_text(encoding="utf-8"):
            yield f"{it.page} lacks: {text}"


def limit(top: Path, name: str) -> int:
    crate, _, word = name.partition(" ")
    definitions = (top / "crates" / crate / "specs" / "Limit.antt").read_text(encoding="utf-8")
    found = re.search(rf"^{re.escape(word)} = ([0-9]+)$", definitions, re.MULTILINE)
    if found is None:
        raise ValueError(f"no limit {name}")
    return int(found.group(1))
