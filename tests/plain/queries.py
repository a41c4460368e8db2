"""Queries over one view, and their replies."""

from typing import Any, Callable, Dict, List, NamedTuple, Optional

from generators import Generators, candidate_test, read_generators
from programs import require_program
from scripted import FIRST_ROOT, at_root, clock_id
from servers import Server
from views import View
from wqprogram import clocks
from wqprogram.clocks import FRESH, Bound
from wqprogram.errors import (
    BAD_CLOCK_SPEC,
    BAD_GENERATOR,
    EXPRESSION_AND_PROGRAM,
    LEFT_OUT_KEY,
    UNKNOWN_FIELD,
    WRONG_QUERY_VALUE,
    Refused,
)
from wqprogram.json_values import is_whole_number
from wqprogram.records import Record
from wqprogram.terms import Test, read_term

LEFT_OUT_KEYS = ["relative_root", "settle_period", "settle_timeout"]
DEFAULT_FIELDS = ["name", "exists", "new", "size"]

# What a field says of a record. Of `new` the bound of the query decides.
FIELDS: Dict[str, Callable[[Record, "Query"], Any]] = {
    "name": lambda record, query: record.name.decode(),
    "exists": lambda record, query: record.exists,
    "new": lambda record, query: is_new(record, query.bound),
    "size": lambda record, query: record.size,
    "type": lambda record, query: record.kind,
    "cclock": lambda record, query: clock_id(query.root, record.ctick),
    "oclock": lambda record, query: clock_id(query.root, record.otick),
    "mtime": lambda record, query: record.mtime,
    "mtime_ms": lambda record, query: record.mtime_ms,
}


class Query(NamedTuple):
    matches: Test
    fields: List[str]
    bound: Bound
    is_empty_on_fresh: bool
    generators: Generators = Generators()
    cursor: Optional[str] = None
    program: Optional[str] = None
    root: int = FIRST_ROOT
    expression: Any = "true"


def read_query(asked: Dict[str, Any], root: int = FIRST_ROOT, is_subscription: bool = False) -> Query:
    """What the object of a query asks at the root of this number, or the refusal of its first fault.

    A subscription has no generators and no cursor.
    """
    if any(key in asked for key in LEFT_OUT_KEYS) or asked.get("case_sensitive", True) is not True:
        raise Refused(LEFT_OUT_KEY)
    if "expression" in asked and "program" in asked:
        raise Refused(EXPRESSION_AND_PROGRAM)
    expression = asked.get("expression", "true")
    matches = read_term(expression, at_root(root))
    fields = read_fields(asked.get("fields", DEFAULT_FIELDS))
    if is_subscription and any(key in asked for key in ("suffix", "path", "glob")):
        raise Refused(BAD_GENERATOR)
    generators = read_generators(asked)
    cursor, bound = None, FRESH
    if "since" in asked:
        try:
            bound = clocks.bound_of(asked["since"], at_root(root))
        except clocks.NamedCursor as named:
            if is_subscription:
                raise Refused(BAD_CLOCK_SPEC) from None
            cursor = named.name
        except clocks.BadClockSpec:
            raise Refused(BAD_CLOCK_SPEC) from None
    program = asked.get("program")
    if "program" in asked and not isinstance(program, str):
        raise Refused(WRONG_QUERY_VALUE)
    is_empty_on_fresh = asked.get("empty_on_fresh_instance", False)
    if not isinstance(asked.get("glob_includedotfiles", False), bool):
        raise Refused(WRONG_QUERY_VALUE)
    if not isinstance(is_empty_on_fresh, bool) or not is_whole_number(asked.get("sync_timeout", 0)):
        raise Refused(WRONG_QUERY_VALUE)
    return Query(matches, fields, bound, is_empty_on_fresh, generators, cursor, program, root, expression)


def read_fields(value: Any) -> List[str]:
    if not isinstance(value, list) or not value:
        raise Refused(UNKNOWN_FIELD)
    if not all(isinstance(field, str) and field in FIELDS for field in value):
        raise Refused(UNKNOWN_FIELD)
    return value


def settled(query: Query, server: Server) -> Query:
    """The query with its program and with the bound of its cursor, which is moved."""
    if query.program is not None:
        query = query._replace(matches=server.program(query.program).matches)
    else:
        require_program(query.expression, query.root)
    if query.cursor is not None:
        query = query._replace(bound=server.use_cursor(query.cursor))
    return query


def reply_to(query: Query, view: View) -> Dict[str, Any]:
    return {
        "clock": clock_id(query.root, view.tick),
        "files": [file_of(record, query) for record in listed_records(query, view)],
        "is_fresh_instance": query.bound.kind == "fresh",
        "version": "wq-1",
    }


def listed_records(query: Query, view: View) -> List[Record]:
    if query.bound.kind == "fresh" and query.is_empty_on_fresh:
        return []
    is_candidate = candidate_test(query.bound, query.generators)
    files = [record for record in view.records if is_candidate(record) and query.matches(record)]
    return [record for record in files if record.exists] if query.bound.kind == "fresh" else files


def is_new(record: Record, bound: Bound) -> bool:
    if bound.kind == "tick":
        return record.ctick > bound.number
    if bound.kind == "second":
        return record.csec > bound.number
    return True


def file_of(record: Record, query: Query) -> Any:
    """The bare value of one field, or an object of several."""
    if len(query.fields) == 1:
        return FIELDS[query.fields[0]](record, query)
    return {field: FIELDS[field](record, query) for field in query.fields}
