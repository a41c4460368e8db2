"""Expressions for a directory below the root, and without letter case, said in the server's terms."""

from typing import Callable, Dict, List, NamedTuple

from bridge.clocks import said_clock, second_of
from bridge.faults import Refused
from wqclient.names import FLAGS_OF_MATCH

Term = object
BARE = ("true", "false", "exists", "empty")
WITHOUT_NAMES = ("type", "suffix", "size", "since")
WITHOUT_CASE = {"name": "iname", "match": "imatch", "dirname": "idirname"}
NAMES = ("name", "iname")
PATTERNS = ("match", "imatch")
DIRECTORIES = ("dirname", "idirname")
GROUPS = ("not", "allof", "anyof")
OF_ONE_WORD = ("type", "suffix")
TERMS = (*BARE, *WITHOUT_NAMES, *NAMES, *PATTERNS, *DIRECTORIES, *GROUPS)
# Deeper terms than the server takes are left to it, which refuses them.
DEEPEST = 64
SPECIAL = "*?[\\"
# The server takes no longer name, and no file has one.
LONGEST_NAME = 4_096


class Place(NamedTuple):
    """The directory to which names in an expression are relative, and whether their case counts."""

    # The directory below the root, without slashes at its ends; "" is the root itself.
    directory: str
    has_case: bool

    def path_of(self, name: str) -> str:
        if not self.directory:
            return name
        return f"{self.directory}/{name}" if name else self.directory

    def pattern_of(self, pattern: str, has_escapes: bool) -> str:
        if not self.directory:
            return pattern
        return f"{literal(self.directory, has_escapes)}/{pattern}"


def literal(text: str, has_escapes: bool) -> str:
    """A pattern that fits this text alone."""
    if has_escapes:
        return "".join(f"\\{letter}" if letter in SPECIAL else letter for letter in text)
    # Without escapes a backslash is a byte as any other, and a class has the others.
    return "".join(f"[{letter}]" if letter in "*?[" else letter for letter in text)


def said_at(term: Term, place: Place, depth: int = 0) -> Term:
    """The term that matches the same files below the directory of the place. A term that is none stays as it is, and
    the server refuses it."""
    if not isinstance(term, list) or not term or not isinstance(term[0], str) or depth > DEEPEST:
        return term
    name, rest = term[0], term[1:]
    if name in GROUPS:
        return [name, *(said_at(inner, place, depth + 1) for inner in rest)]
    if name in BARE:
        return name  # Watchman takes words after it, which say nothing
    if name in OF_ONE_WORD:
        return [name, *rest[:1]]
    if name == "since" and rest:
        return said_since(rest)
    if not rest or name not in SAID:
        return term
    head = name if place.has_case else WITHOUT_CASE.get(name, name)
    return [head, *SAID[name](rest, place)]


def said_since(rest: List[object]) -> Term:
    """Of a second the term tells what changed in it too, and the server's term only what changed after it. No file is
    older than the second 0."""
    second = second_of(rest[0])
    if second is None:
        return ["since", said_clock(rest[0]), *rest[1:]]
    return ["since", second - 1, *rest[1:]] if second > 0 else "true"


def said_name(rest: List[object], place: Place) -> List[object]:
    """Names that are longer than any file's are left out."""
    if isinstance(rest[0], (str, list)):
        names = rest[0] if isinstance(rest[0], list) else [rest[0]]
        short = [name for name in names if not isinstance(name, str) or len(name) <= LONGEST_NAME]
        if len(short) < len(names):
            rest = [short, *rest[1:]]
    if rest[1:] != ["wholename"]:
        return rest
    return [each_text(rest[0], place.path_of), "wholename"]


def said_pattern(rest: List[object], place: Place) -> List[object]:
    pattern, flags = rest[0], known_flags(rest[2]) if len(rest) > 2 else {}
    scope = rest[1] if len(rest) > 1 and isinstance(rest[1], str) else "basename"
    if scope == "wholename" and isinstance(pattern, str):
        pattern = place.pattern_of(pattern, not flags.get("noescape"))
    return [pattern, scope, *([flags] if flags else [])]


def known_flags(flags: object) -> Dict[str, bool]:
    """The flags of a pattern that Watchman knows. If one of these has no truth value, it takes none of them."""
    found = {key: value for key, value in flags.items() if key in FLAGS_OF_MATCH} if isinstance(flags, dict) else {}
    return found if all(isinstance(value, bool) for value in found.values()) else {}


def said_directory(rest: List[object], place: Place) -> List[object]:
    if not isinstance(rest[0], str):
        return rest
    return [place.path_of(rest[0].rstrip("/")), *rest[1:]]


SAID: Dict[str, Callable[[List[object], Place], List[object]]] = {
    **{name: said_name for name in NAMES},
    **{name: said_pattern for name in PATTERNS},
    **{name: said_directory for name in DIRECTORIES},
}


def each_text(value: object, change: Callable[[str], str]) -> object:
    """A text, or each text of a list, changed; everything else as it is."""
    if isinstance(value, str):
        return change(value)
    if isinstance(value, list):
        return [change(each) if isinstance(each, str) else each for each in value]
    return value


def all_of(terms: List[Term]) -> Term:
    return terms[0] if len(terms) == 1 else ["allof", *terms]


def any_of(terms: List[Term]) -> Term:
    return terms[0] if len(terms) == 1 else ["anyof", *terms]


def below(place: Place) -> List[Term]:
    """That a file lies below the directory of the place; nothing if that is the root."""
    return [["dirname", place.directory]] if place.directory else []


def of_globs(globs: List[object], place: Place, flags: Dict[str, bool]) -> Term:
    """That a file fits one of these patterns. As in Watchman, globs give files that exist."""
    terms: List[Term] = []
    for pattern in globs:
        if not isinstance(pattern, str):
            raise Refused("expected json string object")
        terms.append(
            [
                "match" if place.has_case else "imatch",
                place.pattern_of(pattern, not flags["noescape"]),
                "wholename",
                flags,
            ]
        )
    return all_of(["exists", any_of(terms)])
