"""Values as they are printed: one line in a pipe, laid out at a terminal."""

import argparse
import json
import sys
from typing import Any, Dict, List

from wqclient.harmless import harmless_json

from .terminal import is_terminal, show


def json_line(value: Any) -> str:
    """A value on one line, in a pipe as the server writes it."""
    text = json.dumps(value, ensure_ascii=False, separators=(",", ":"))
    return harmless_json(text) if is_terminal(sys.stdout) else text


def json_shown(value: Any) -> str:
    if not is_terminal(sys.stdout):
        return json_line(value)
    return harmless_json(json.dumps(value, ensure_ascii=False, indent=2))


def print_lists_as_json(lists: List[Dict[str, Any]], options: argparse.Namespace) -> None:
    """Each list as an object on a line; with --count its number of files in place of them, with --jsonl each file."""
    if getattr(options, "count", False):
        counted = ({**found, "count": len(found["files"])} for found in lists)
        show(json_line({key: found[key] for key in sorted(found) if key != "files"}) for found in counted)
    elif options.jsonl:
        show(json_line(file) for found in lists for file in found["files"])
    else:
        show(json_line({key: found[key] for key in sorted(found)}) for found in lists)
