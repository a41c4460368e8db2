"""The terms in words: what each takes, which is for hints alone, and what an expression of them means."""

from typing import Any, Callable, Dict, Iterator, List, NamedTuple, Optional

from wqclient import names

from .vocabulary import quoted

KINDS = {
    "f": "a regular file",
    "d": "a directory",
    "l": "a symbolic link",
    "b": "a block device",
    "c": "a character device",
    "p": "a FIFO",
    "s": "a socket",
    "D": "a door",
}
RELATIONS = {"eq": "is", "ne": "is not", "gt": "is over", "ge": "is at least", "lt": "is under", "le": "is at most"}
CLOCKS = {"oclock": "was last changed", "cclock": "came", "mtime": "was modified"}
DEPTH = "  "


def lines_of(term: Any, indent: str = "") -> Iterator[str]:
    """A line for each term, the terms in it below it."""
    parts = [term] if isinstance(term, str) else term
    head, arguments = parts[0], parts[1:]
    if head in GROUPS:
        yield indent + (GROUPS[head].says if arguments else EMPTY[head])
        for inner in arguments:
            yield from lines_of(inner, indent + DEPTH)
    else:
        yield indent + PLAIN[head].says(*arguments)


class Plain(NamedTuple):
    """A term without terms in it: what it takes, and what it says of a file with these arguments."""

    takes: str
    says: Callable[..., str]


class Group(NamedTuple):
    """A term with terms in it: what it takes, and what it says of the lines below it."""

    takes: str
    says: str


EMPTY = {"allof": "whatever the file is", "anyof": "never, since none of no terms is so"}


def one_of(value: Any) -> str:
    texts: List[str] = value if isinstance(value, list) else [value]
    return " or ".join(map(quoted, texts)) if texts else "none of no texts"


def part(scope: str) -> str:
    return "its whole name" if scope == "wholename" else "the last part of its name"


def name_words(folds: bool) -> Callable[..., str]:
    return lambda names, scope="basename": f"{part(scope)} is {one_of(names)}{case(folds)}"


def case(folds: bool) -> str:
    return ", A to Z as a to z" if folds else ""


def match_words(folds: bool) -> Callable[..., str]:
    def words(pattern: str, scope: str = "basename", given: Optional[Dict[str, bool]] = None) -> str:
        flags = given or {}
        dots = ", leading dots too" if flags.get("includedotfiles") else ""
        escapes = ", a backslash as any other letter" if flags.get("noescape") else ""
        return f"{part(scope)} fits the pattern {quoted(pattern)}{dots}{escapes}{case(folds)}"

    return words


def dirname_words(folds: bool) -> Callable[..., str]:
    def words(directory: str, depth: Any = None) -> str:
        where = f"below the directory {quoted(directory.rstrip('/'))}" if directory.rstrip("/") else "below the root"
        deep = f", and {RELATIONS[depth[1]]} {depth[2]} directories deep in it" if depth else ""
        return f"it lies {where}{deep}{case(folds)}"

    return words


def since_words(spec: Any, field: str = "oclock") -> str:
    moment = f"second {spec}" if isinstance(spec, int) else f"the clock {quoted(spec)}"
    return f"it {CLOCKS[field]} after {moment}"


NAME = 'a text or a list of texts, and "basename" or "wholename", such as ["%s",["Makefile","a.c"]]'
MATCH = 'a pattern, "basename" or "wholename", and flags, such as ["%s","*.c","basename",{"includedotfiles":true}]'
DIRNAME = 'a directory, and a depth if you like, such as ["%s","src",["depth","eq",0]]'
RELATION = f"a relation ({' '.join(names.RELATIONS)}) and a whole number without quotes or unit"
SINCE = (
    'a clock id that a reply gave ("c:..") or a second, and "oclock", "cclock" or "mtime", which takes a second '
    'alone, such as ["since",1700000000,"mtime"]'
)
PLAIN: Dict[str, Plain] = {
    "true": Plain("nothing", lambda: "whatever the file is"),
    "false": Plain("nothing", lambda: "never"),
    "exists": Plain("nothing", lambda: "it exists, so was not deleted"),
    "empty": Plain("nothing", lambda: "it exists, is a file or a directory, and has size 0"),
    "type": Plain(
        'one letter (f file, d directory, l link, b c p s D), such as ["type","f"]',
        lambda letter: f"it is {KINDS[letter]}",
    ),
    "size": Plain(
        f'{RELATION}, such as ["size","gt",1048576]',
        lambda relation, number: f"it exists, and its size {RELATIONS[relation]} {number:,} bytes",
    ),
    "name": Plain(NAME % "name", name_words(False)),
    "match": Plain(MATCH % "match", match_words(False)),
    "dirname": Plain(DIRNAME % "dirname", dirname_words(False)),
    "iname": Plain(NAME % "iname", name_words(True)),
    "imatch": Plain(MATCH % "imatch", match_words(True)),
    "idirname": Plain(DIRNAME % "idirname", dirname_words(True)),
    "suffix": Plain(
        'a text or a list of texts, such as ["suffix",["c","h"]]',
        lambda suffixes: f"what follows the last dot of its name is {one_of(suffixes)}, A to Z as a to z",
    ),
    "since": Plain(SINCE, since_words),
}
GROUPS: Dict[str, Group] = {
    "not": Group('one term, such as ["not","exists"]', "this is not so:"),
    "allof": Group("any number of terms", "all of these are so:"),
    "anyof": Group("any number of terms", "one of these is so:"),
}
# Each term, with the words for its arguments.
TERMS: Dict[str, str] = {
    **{name: term.takes for name, term in PLAIN.items()},
    **{name: term.takes for name, term in GROUPS.items()},
}
