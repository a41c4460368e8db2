"""Warnings of what nobody can mean, and is no error: unknown keys, and patterns that can match nothing."""

import re
from typing import Any, Iterator, List

from wqprogram.patterns import Flags, atoms_of

from .sentences import GROUPS
from .vocabulary import IGNORED_KEYS, LEFT_OUT_KEYS, LEFT_OUT_OF_TRIGGERS, QUERY_KEYS, TRIGGER_KEYS, meant, quoted

OF_NAMES = ("name", "iname")
OF_PATTERNS = ("match", "imatch")
OF_DIRECTORIES = ("dirname", "idirname")
# A shell would make several words of these.
BRACES = re.compile(r"\{[^{}]*,[^{}]*\}")
OF_QUERIES = [*QUERY_KEYS, *LEFT_OUT_KEYS, *IGNORED_KEYS]
KNOWN_KEYS = {"query": OF_QUERIES, "subscribe": OF_QUERIES, "trigger": [*TRIGGER_KEYS, *LEFT_OUT_OF_TRIGGERS]}


def warnings_of(command: Any) -> List[str]:
    """The warnings about a command, whatever it is."""
    if not isinstance(command, list) or not command or not isinstance(command[-1], dict):
        return []
    known = KNOWN_KEYS.get(command[0] if isinstance(command[0], str) else "")
    return [] if known is None else [*of_keys(command[-1], known), *of_values(command[-1])]


def of_keys(value: Any, known: List[str]) -> Iterator[str]:
    for key in value:
        if key not in known:
            yield f"nobody knows the key {quoted(key)}, and it was ignored{meant(key, known)}"


def of_values(query: Any) -> Iterator[str]:
    if "expression" in query:
        yield from of_term(query["expression"], "expression")
    suffixes = query.get("suffix", [])
    for suffix in suffixes if isinstance(suffixes, list) else [suffixes]:
        yield from of_suffix(suffix, "suffix")
    globs = query.get("glob", [])
    for number, glob in enumerate(globs if isinstance(globs, list) else []):
        yield from of_glob(glob, f"glob[{number}]", True, False)
    paths = query.get("path", [])
    for number, path in enumerate(paths if isinstance(paths, list) else []):
        yield from of_path(path.get("path") if isinstance(path, dict) else path, f"path[{number}]")


def of_term(term: Any, place: str) -> Iterator[str]:
    if not isinstance(term, list) or len(term) < 2 or not isinstance(term[0], str):
        return
    head, value = term[0], term[1]
    scope = term[2] if len(term) > 2 else "basename"
    if head in GROUPS:
        for number, inner in enumerate(term[1:], 1):
            yield from of_term(inner, f"{place}[{number}]")
    elif head == "suffix":
        for suffix in value if isinstance(value, list) else [value]:
            yield from of_suffix(suffix, place)
    elif head in OF_DIRECTORIES:
        yield from of_path(value, place)
    elif head in OF_NAMES:
        for name in value if isinstance(value, list) else [value]:
            yield from of_name(name, place, scope)
    elif head in OF_PATTERNS:
        flags = term[3] if len(term) > 3 and isinstance(term[3], dict) else {}
        yield from of_glob(value, place, scope == "wholename", bool(flags.get("noescape")))


def of_suffix(suffix: Any, place: str) -> Iterator[str]:
    if not isinstance(suffix, str):
        return
    if suffix.startswith(".") and "." not in suffix[1:]:
        yield nothing(place, suffix, f"a suffix has no dot: {quoted(suffix[1:])}")
    elif "." in suffix:
        pattern = quoted(f"*.{suffix.lstrip('.')}")
        yield nothing(place, suffix, f"the suffix is what follows the last dot; the pattern {pattern} finds such names")
    elif "/" in suffix:
        yield nothing(place, suffix, "no suffix has a slash")


def of_path(path: Any, place: str) -> Iterator[str]:
    if not isinstance(path, str):
        return
    if path.startswith("/"):
        yield nothing(place, path, "names begin below the root, without a slash")
    elif path == ".":
        yield nothing(place, path, 'the root itself is ""')
    elif path.startswith("./"):
        yield nothing(place, path, f'no name begins with "./": {quoted(path[2:])}')
    elif ".." in path.split("/"):
        yield nothing(place, path, 'no name has ".." in it')


def of_name(name: Any, place: str, scope: Any) -> Iterator[str]:
    if not isinstance(name, str):
        return
    if "/" in name and scope == "basename":
        yield nothing(place, name, 'it has a slash, and the last part of a name has none; add "wholename"')
    elif scope == "wholename":
        yield from of_path(name, place)


def of_glob(glob: Any, place: str, is_whole: bool, has_no_escape: bool, knows_braces: bool = False) -> Iterator[str]:
    if not isinstance(glob, str):
        return
    atoms = atoms_of(glob.encode(), Flags(wholename=is_whole, noescape=has_no_escape))
    if any(atom.kind == "nothing" for atom in atoms):
        yield nothing(place, glob, "a class in it has no end or an unknown name, or a backslash ends it")
    elif not is_whole and "/" in glob:
        yield nothing(place, glob, 'it has a slash, and the last part of a name has none; add "wholename"')
    elif is_whole and glob.startswith("./"):
        yield nothing(place, glob, f'no name begins with "./": {quoted(glob[2:])}')
    elif is_whole and glob.startswith("/"):
        yield nothing(place, glob, "names begin below the root, without a slash")
    elif is_whole and glob.endswith("/"):
        yield nothing(place, glob, f"no name ends in a slash; {quoted(glob + '**')} is what lies below it")
    elif is_whole and "//" in glob:
        yield nothing(place, glob, "no name has two slashes side by side")
    elif not knows_braces and BRACES.search(glob):
        yield f"at {place}: {quoted(glob)} takes its braces as they are; write a pattern for each"


def nothing(place: str, text: str, why: str) -> str:
    return f"at {place}: {quoted(text)} can match nothing: {why}"
