"""Lines of a .gitignore as terms of the protocol, which match all that such a line could mean. git itself says what it
means: a name that no term matches is not asked of git, and a directory that one matches may be left out in a query."""

import json
from typing import Any, Dict, List, Optional

from wqprogram.limits import MAX_PATTERN

from .globs import SPECIAL, WITH_DOTS, any_of, escaped

Terms = List[Any]
# The terms of a query have at most so many bytes. With more of them the server takes longer than git does for all
# names.
MOST_BYTES = 16_384


def one_of(terms: Terms) -> Any:
    """A term for what any of these matches. More of them than a query has could mean anything."""
    return any_of(terms) if len(json.dumps(terms)) <= MOST_BYTES else "true"


def terms_of(text: str, directory: Optional[str]) -> Terms:
    """The terms of the lines of a file. Its patterns with a slash are for names below its directory. A file outside of
    the root has none here, and then the last part of such a pattern counts."""
    names: Dict[str, None] = {}
    terms: Terms = []
    for line in text.lstrip("\ufeff").split("\n"):
        pattern = pattern_of(line[:-1] if line.endswith("\r") else line)
        if not pattern:
            continue
        if "/" in pattern and directory is None:
            pattern = pattern.rpartition("/")[2]
        if "/" in pattern:
            front = f"{escaped(directory)}/" if directory else ""
            terms.append(["imatch", bounded(front + pattern.lstrip("/")), "wholename", WITH_DOTS])
        elif any(letter in pattern for letter in SPECIAL) or bounded(pattern) != pattern:
            terms.append(["imatch", bounded(pattern), "basename", WITH_DOTS])
        else:
            names[pattern] = None
    return [*([["iname", list(names)]] if names else []), *terms]


def pattern_of(line: str) -> str:
    """The pattern of a line that leaves something out, without the slash at its end; else nothing."""
    if line.startswith(("#", "!")):
        return ""
    found = line.rstrip(" ")
    if found.endswith("\\") and len(found) < len(line):
        found += " "
    return found[:-1] if found.endswith("/") else found


def bounded(pattern: str) -> str:
    """A pattern that the server does not take, since it is too long or no UTF-8, could mean anything."""
    try:
        return pattern if len(pattern.encode()) <= MAX_PATTERN else "**"
    except UnicodeEncodeError:
        return "**"
