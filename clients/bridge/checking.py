"""Terms that are none are refused in Watchman's words, before the server is asked."""

from typing import Callable, Dict, List

from bridge.clocks import BAD, CURSOR
from bridge.expressions import BARE, DEEPEST, DIRECTORIES, GROUPS, NAMES, PATTERNS, TERMS, Term
from bridge.faults import Refused
from wqclient.names import KINDS, RELATIONS, SCOPES

OF_CLOCKS = ("oclock", "cclock")
OF_SECONDS = ("mtime", "ctime")


def unparsed(words: str) -> Refused:
    return Refused(f"failed to parse query: {words}")


def check_term(term: Term, depth: int = 0) -> None:
    """Refuses a term for its first fault, outer terms before inner ones. What is too deep is left to the server."""
    if depth > DEEPEST:
        return
    if isinstance(term, str):
        name, words = term, None
    elif isinstance(term, list) and term:
        if not isinstance(term[0], str):
            raise unparsed("first element of an expression must be a string")
        name, words = term[0], term
    else:
        raise unparsed("expected array or string for an expression")
    if name not in TERMS:
        raise unparsed(f"unknown expression term '{name}'")
    if name in BARE:
        return
    if name in GROUPS:
        check_group(name, words, depth)
    else:
        CHECKS[name](name, words)


def check_group(name: str, words: object, depth: int) -> None:
    if name == "not":
        if not isinstance(words, list) or len(words) != 2:
            raise unparsed('must use ["not", expr]')
    elif not isinstance(words, list) or len(words) < 2:
        raise unparsed(f'must use ["{name}", expr...]')
    for inner in words[1:]:
        check_term(inner, depth + 1)


def array_of(name: str, words: object) -> List[object]:
    if not isinstance(words, list):
        raise unparsed(f"Expected array for '{name}' term")
    return words


def count_fault(name: str) -> Refused:
    return unparsed(f"Invalid number of arguments for '{name}' term")


def check_name(name: str, words: object) -> None:
    words = array_of(name, words)
    if not 2 <= len(words) <= 3:
        raise count_fault(name)
    if len(words) == 3:
        if not isinstance(words[2], str):
            raise unparsed(f"Argument 3 to '{name}' must be a string")
        check_scope(name, words[2])
    value = words[1]
    if not isinstance(value, str) and not (isinstance(value, list) and all(isinstance(each, str) for each in value)):
        raise unparsed(f"Argument 2 to '{name}' must be either a string or an array of string")


def check_scope(name: str, scope: str) -> None:
    if scope not in SCOPES:
        raise unparsed(f"Invalid scope '{scope}' for {name} expression")


def check_match(name: str, words: object) -> None:
    if not isinstance(words, list) or len(words) < 2 or not isinstance(words[1], str):
        raise unparsed(f'Expected ["{name}", "pattern", "scope"?]')
    if len(words) > 2 and isinstance(words[2], str):
        check_scope(name, words[2])


def check_directory(name: str, words: object) -> None:
    words = array_of(name, words)
    if not 2 <= len(words) <= 3:
        raise count_fault(name)
    if not isinstance(words[1], str):
        raise unparsed(f"Argument 2 to '{name}' must be a string")
    if len(words) == 3:
        if not isinstance(words[2], list):
            raise count_fault(name)
        check_comparison(words[2])
        if words[2][0] != "depth":
            raise unparsed(f"Third parameter to '{name}' should be a relational depth term")


def check_comparison(words: List[object]) -> None:
    if len(words) != 3:
        raise unparsed("integer comparator must have 3 elements")
    if not isinstance(words[1], str):
        raise unparsed("integer comparator op must be a string")
    if isinstance(words[2], bool) or not isinstance(words[2], int):
        raise unparsed("integer comparator operand must be an integer")
    if words[1] not in RELATIONS:
        raise unparsed(f"integer comparator opname `{words[1]}' is invalid")


def check_size(name: str, words: object) -> None:
    check_comparison(array_of(name, words))


def check_kind(_: str, words: object) -> None:
    if not isinstance(words, list) or len(words) < 2 or not isinstance(words[1], str):
        raise unparsed('must use ["type", "typestr"]')
    if len(words[1]) != 1 or words[1] not in KINDS:
        raise unparsed(f"invalid type string '{words[1]}'")


def check_suffix(_: str, words: object) -> None:
    """A list of suffixes is taken too: the server knows it, and clients ask for the capability `suffix-set`."""
    value = words[1] if isinstance(words, list) and len(words) > 1 else None
    if not isinstance(value, str) and not (isinstance(value, list) and all(isinstance(each, str) for each in value)):
        raise unparsed('must use ["suffix", "suffixstring"]')


def check_since(_: str, words: object) -> None:
    if not isinstance(words, list):
        raise unparsed('"since" term must be an array')
    if not 2 <= len(words) <= 3:
        raise unparsed('"since" term has invalid number of parameters')
    spec = words[1]
    if spec is None:
        raise unparsed('invalid clockspec for "since" term')
    if isinstance(spec, bool) or not isinstance(spec, (str, int, dict)):
        raise Refused(BAD)
    if isinstance(spec, str) and spec.startswith(CURSOR):
        raise unparsed('named cursors are not allowed in "since" terms')
    if len(words) == 2:
        return
    field = words[2]
    if not isinstance(field, str):
        raise unparsed('field name for "since" term must be a string')
    if field not in (*OF_CLOCKS, *OF_SECONDS):
        raise unparsed(f'invalid field name "{field}" for "since" term')
    if field in OF_SECONDS and not isinstance(spec, int):
        raise unparsed(f'field "{field}" requires a timestamp value for comparison in "since" term')
    if field == "ctime":
        raise unparsed('the field "ctime" is not kept, so a "since" term cannot compare it')


CHECKS: Dict[str, Callable[[str, object], None]] = {
    **dict.fromkeys(NAMES, check_name),
    **dict.fromkeys(PATTERNS, check_match),
    **dict.fromkeys(DIRECTORIES, check_directory),
    "size": check_size,
    "type": check_kind,
    "suffix": check_suffix,
    "since": check_since,
}
