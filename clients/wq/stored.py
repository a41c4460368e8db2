"""Queries by a stored program. Globs or suffixes may be beside it, since the server has keys for them that say which
files it asks the program about."""

import argparse
from typing import Any, Dict, List

from .globs import WITH_DOTS, front_of, glob_term, suffixes_of
from .roots import Place, require_utf8
from .trouble import WrongWords


def require_no_other(options: argparse.Namespace, globs: List[str]) -> None:
    """A program takes the place of an expression, so no option that becomes a part of one may be beside it."""
    require_utf8(options.program, "--program")
    others = ("expression", "type", "size", "newer", "older", "exclude", "ignore_case", "max_depth", "min_depth")
    if any(getattr(options, name) for name in others):
        raise WrongWords(
            "--program takes the place of -i, -t, --size, --newer, --older, --exclude, --max-depth, "
            "--min-depth "
            "and --expression; take them out"
        )
    if globs and options.ext:
        raise WrongWords("--program takes globs or -e beside it, and not both")


def query_of(place: Place, globs: List[str], options: argparse.Namespace) -> Dict[str, Any]:
    """The keys of a query. Those that say where it starts give their union, so only one of them may be there."""
    query: Dict[str, Any] = {"program": options.program}
    if globs:
        return {**query, "glob": [whole_pattern(glob, place) for glob in globs], "glob_includedotfiles": True}
    if options.ext:
        if place.below:
            raise WrongWords("-e beside --program is for a whole root; take a glob for a directory below it")
        return {**query, "suffix": suffixes_of(options.ext)}
    return {**query, "path": [place.below]} if place.below else query


def whole_pattern(glob: str, place: Place) -> str:
    """The pattern of whole names that a glob means."""
    _, pattern, scope, flags = glob_term(glob, place)
    assert flags == WITH_DOTS
    found: str = pattern if scope == "wholename" else f"{front_of(place)}**/{pattern}"
    return found
