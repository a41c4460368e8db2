"""Expressions: a term is read as the test that says which records it matches."""

import operator
from typing import Any, Callable, Dict, List, Optional

from . import clocks
from .clocks import Bound, Instance
from .errors import (
    BAD_CLOCK_SPEC,
    CURSOR_IN_TERM,
    PATTERN_TOO_LONG,
    TOO_DEEP,
    UNKNOWN_TERM,
    WRONG_TERM_ARGUMENTS,
    Refused,
)
from .json_values import is_whole_number
from .limits import MAX_PATTERN, MAX_TERM_DEPTH, MAX_TEXT
from .patterns import Flags, atoms_of, fits
from .records import Record

Test = Callable[[Record], bool]

RELATIONS: Dict[str, Callable[[int, int], bool]] = {
    "eq": operator.eq,
    "ne": operator.ne,
    "gt": operator.gt,
    "ge": operator.ge,
    "lt": operator.lt,
    "le": operator.le,
}
TYPE_LETTERS = ["b", "c", "d", "f", "l", "p", "s", "D"]
SINCE_FIELDS = ["oclock", "cclock", "mtime"]


def read_term(value: Any, instance: Optional[Instance] = None, depth: int = 1) -> Test:
    """The test that a term makes at this instance, or the refusal of its first fault."""
    if depth > MAX_TERM_DEPTH:
        raise Refused(TOO_DEEP)
    parts = [value] if isinstance(value, str) else value
    if not isinstance(parts, list) or not parts or not isinstance(parts[0], str):
        raise Refused(WRONG_TERM_ARGUMENTS)
    head, arguments = parts[0], parts[1:]
    if head in COMBINATIONS:
        return COMBINATIONS[head](arguments, instance, depth)
    if head not in TERMS:
        raise Refused(UNKNOWN_TERM)
    return read_since(arguments, instance) if head == "since" else TERMS[head](arguments)


def require(is_right: bool) -> None:
    if not is_right:
        raise Refused(WRONG_TERM_ARGUMENTS)


# Terms with terms in them.


def read_not(arguments: List[Any], instance: Optional[Instance], depth: int) -> Test:
    require(len(arguments) == 1)
    (inner,) = read_inner(arguments, instance, depth)
    return lambda record: not inner(record)


def read_allof(arguments: List[Any], instance: Optional[Instance], depth: int) -> Test:
    inner = read_inner(arguments, instance, depth)
    return lambda record: all(test(record) for test in inner)


def read_anyof(arguments: List[Any], instance: Optional[Instance], depth: int) -> Test:
    inner = read_inner(arguments, instance, depth)
    return lambda record: any(test(record) for test in inner)


def read_inner(arguments: List[Any], instance: Optional[Instance], depth: int) -> List[Test]:
    """The tests of the terms in a term, from left to right. The place of a fault begins with the number of its term."""
    tests = []
    for number, argument in enumerate(arguments, 1):
        try:
            tests.append(read_term(argument, instance, depth + 1))
        except Refused as refused:
            raise Refused(refused.error, (number, *refused.place)) from None
    return tests


# Terms without arguments, and terms on kinds and sizes.


def read_plain(test: Test) -> Callable[[List[Any]], Test]:
    def read(arguments: List[Any]) -> Test:
        require(not arguments)
        return test

    return read


def is_empty(record: Record) -> bool:
    return record.exists and record.kind in ("f", "d") and record.size == 0


def read_type(arguments: List[Any]) -> Test:
    require(len(arguments) == 1 and arguments[0] in TYPE_LETTERS)
    letter: str = arguments[0]
    return lambda record: record.kind == letter


def read_size(arguments: List[Any]) -> Test:
    compare = comparison(arguments)
    return lambda record: record.exists and compare(record.size)


def comparison(arguments: List[Any]) -> Callable[[int], bool]:
    """A relation and a whole number: whether a number stands so to it."""
    require(len(arguments) == 2)
    relation, number = arguments
    require(isinstance(relation, str) and relation in RELATIONS and is_whole_number(number))
    return lambda other: RELATIONS[relation](other, number)


# Terms on names. What folds compares A to Z as a to z.


def is_short_text(value: Any) -> bool:
    return isinstance(value, str) and len(value.encode()) <= MAX_TEXT


def texts_of(value: Any) -> List[bytes]:
    """One text, or a list of them."""
    texts = value if isinstance(value, list) else [value]
    require(all(is_short_text(text) for text in texts))
    return [text.encode() for text in texts]


def part_of(scope: Optional[str]) -> Callable[[Record], bytes]:
    """The part of a name that a scope means; without a scope the basename."""
    require(scope in ("basename", "wholename"))
    return (lambda record: record.name) if scope == "wholename" else (lambda record: record.basename)


def fold_case(text: bytes, fold: bool) -> bytes:
    """`bytes.lower` changes A to Z alone."""
    return text.lower() if fold else text


def read_name(fold: bool) -> Callable[[List[Any]], Test]:
    def read(arguments: List[Any]) -> Test:
        require(1 <= len(arguments) <= 2)
        names = {fold_case(name, fold) for name in texts_of(arguments[0])}
        part = part_of(arguments[1] if len(arguments) == 2 else "basename")
        return lambda record: fold_case(part(record), fold) in names

    return read


def read_suffix(arguments: List[Any]) -> Test:
    require(len(arguments) == 1)
    suffixes = {text.lower() for text in texts_of(arguments[0])} - {b""}
    return lambda record: record.suffix is not None and record.suffix.lower() in suffixes


def read_dirname(fold: bool) -> Callable[[List[Any]], Test]:
    def read(arguments: List[Any]) -> Test:
        require(1 <= len(arguments) <= 2 and is_short_text(arguments[0]))
        directory = arguments[0].rstrip("/").encode()
        start = fold_case(directory + b"/" if directory else b"", fold)
        has_depth = depth_test(arguments[1]) if len(arguments) == 2 else (lambda depth: True)

        def is_below(record: Record) -> bool:
            rest = record.name[len(start) :]
            return fold_case(record.name, fold).startswith(start) and has_depth(rest.count(b"/"))

        return is_below

    return read


def depth_test(value: Any) -> Callable[[int], bool]:
    require(isinstance(value, list) and value[:1] == ["depth"])
    return comparison(value[1:])


def read_match(fold: bool) -> Callable[[List[Any]], Test]:
    def read(arguments: List[Any]) -> Test:
        require(1 <= len(arguments) <= 3 and isinstance(arguments[0], str))
        scope = arguments[1] if len(arguments) >= 2 else "basename"
        part = part_of(scope)
        options = arguments[2] if len(arguments) == 3 else {}
        require(are_match_options(options))
        pattern = arguments[0].encode()
        if len(pattern) > MAX_PATTERN:
            raise Refused(PATTERN_TOO_LONG)
        flags = Flags(
            wholename=scope == "wholename",
            dotfiles=options.get("includedotfiles", False),
            noescape=options.get("noescape", False),
            fold=fold,
        )
        atoms = atoms_of(pattern, flags)
        return lambda record: fits(atoms, flags, part(record))

    return read


def are_match_options(value: Any) -> bool:
    return isinstance(value, dict) and all(
        key in ("includedotfiles", "noescape") and isinstance(value[key], bool) for key in value
    )


# The term `since`.


def read_since(arguments: List[Any], instance: Optional[Instance] = None) -> Test:
    require(1 <= len(arguments) <= 2)
    field = arguments[1] if len(arguments) == 2 else "oclock"
    require(field in SINCE_FIELDS)
    bound = bound_for(arguments[0], field, instance)
    if bound.kind == "fresh":
        return lambda record: record.exists
    return lambda record: moment(record, field, bound) > bound.number


def bound_for(spec: object, field: str, instance: Optional[Instance]) -> Bound:
    if field == "mtime" and isinstance(spec, str):
        raise Refused(BAD_CLOCK_SPEC)
    try:
        return clocks.bound_of(spec, instance)
    except clocks.BadClockSpec:
        raise Refused(BAD_CLOCK_SPEC) from None
    except clocks.NamedCursor:
        raise Refused(CURSOR_IN_TERM) from None


def moment(record: Record, field: str, bound: Bound) -> int:
    """The clock of the record in the unit of the bound."""
    if bound.kind == "tick":
        return record.otick if field == "oclock" else record.ctick
    return {"oclock": record.osec, "cclock": record.csec, "mtime": record.mtime}[field]


COMBINATIONS = {"not": read_not, "allof": read_allof, "anyof": read_anyof}
TERMS: Dict[str, Callable[[List[Any]], Test]] = {
    "true": read_plain(lambda record: True),
    "false": read_plain(lambda record: False),
    "exists": read_plain(lambda record: record.exists),
    "empty": read_plain(is_empty),
    "type": read_type,
    "size": read_size,
    "name": read_name(fold=False),
    "iname": read_name(fold=True),
    "suffix": read_suffix,
    "dirname": read_dirname(fold=False),
    "idirname": read_dirname(fold=True),
    "match": read_match(fold=False),
    "imatch": read_match(fold=True),
    "since": read_since,
}
