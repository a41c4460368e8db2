"""Files that changed, as `since`, `follow` and `run` read them from lists: which count, and how they are printed."""

import argparse
from typing import Any, Dict, List

from .terminal import OF_MARKS, name_shown, show
from .values_shown import print_lists_as_json

FIELDS = ["name", "exists", "new", "type"]
File = Dict[str, Any]


def counted(files: List[File], options: argparse.Namespace) -> List[File]:
    """The files that a person means. What changes in a directory is told by its files, so a directory counts only if it
    is asked for."""
    return files if options.dirs or options.type else [file for file in files if file["type"] != "d"]


def mark_of(file: File) -> str:
    return "-" if not file["exists"] else "+" if file["new"] else "~"


def print_changes(lists: List[Dict[str, Any]], options: argparse.Namespace) -> None:
    """The changes of lists that a person is told."""
    if options.json or options.jsonl:
        print_lists_as_json(lists, options)
        return
    ending = "\0" if options.print0 else "\n"
    marked = ((mark_of(file), file["name"]) for found in lists for file in found["files"])
    show((name_shown(f"{mark} {name}", OF_MARKS[mark], ending) for mark, name in marked), ending)
