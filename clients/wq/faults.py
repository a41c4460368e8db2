"""The line after an error of the object of a query, a subscription or a trigger: where the fault is, what that part
takes, and what was perhaps meant. Of keys the server is asked which is at fault; an expression is read here."""

from itertools import islice
from typing import Any, Callable, Dict, Iterator, List, Optional

from wqprogram.errors import Refused
from wqprogram.limits import MAX_PATTERN, MAX_TERM_DEPTH
from wqprogram.terms import read_term

from .mending import mended_term, mended_value
from .questions import ErrorOf, Look, NoAnswer, Object, Questions, first_of
from .sentences import TERMS
from .vocabulary import (
    LEFT_OUT_KEYS,
    LEFT_OUT_OF_SUBSCRIPTIONS,
    LEFT_OUT_OF_TRIGGERS,
    QUERY_KEYS,
    TERMS_OF_WATCHMAN,
    TRIGGER_KEYS,
    meant,
    quoted,
)

LONGEST_PLACE = 60
SUBSCRIPTION_KEYS = {**QUERY_KEYS, "since": 'a clock id that a reply gave ("c:.."), or a second, and no cursor'}
# By the command: the word for its object, the keys of that, and those that are refused.
OBJECTS = {
    "query": ("query", QUERY_KEYS, LEFT_OUT_KEYS),
    "subscribe": ("subscription", SUBSCRIPTION_KEYS, {**LEFT_OUT_KEYS, **LEFT_OUT_OF_SUBSCRIPTIONS}),
    "trigger": ("trigger", TRIGGER_KEYS, LEFT_OUT_OF_TRIGGERS),
}
# A trigger has to have these.
NEEDED = ("name", "command")
# The error of a key that the server looks at last.
OF_VALUES = "E37"


def sentences(error: str, command: List[Any], look: Look) -> List[str]:
    """One sentence; none if the server cannot say where the fault is."""
    try:
        return list(islice(faults_of(error, command[-1], Questions(command, look)), 1))
    except NoAnswer:
        return []


def faults_of(error: str, asked: Object, questions: Questions) -> Iterator[str]:
    """The fault of the expression, or of each key that is refused if it is asked about alone."""
    if error[:3] in OF_TERMS and "expression" in asked:
        refused = refusal(asked["expression"])
        if refused is not None and refused.error == error:
            yield of_expression(refused, asked["expression"])
    noun, keys, left_out = OBJECTS[questions.command[0]]
    for key, value in asked.items():
        error_of = questions.of_key(key, error[:3] == OF_VALUES)
        if key in left_out and error_of(value) == error:
            yield f'a {noun} takes no "{key}"; {left_out[key]}'
        elif key in keys and key != "expression" and error_of(value) == error:
            yield of_key(error, key, value, taken(key, keys[key]), error_of)
    if error[:3] == OF_VALUES:
        yield from (told(key, taken(key, keys[key]), asked[key]) for key in left_over(asked))
    yield from (f'there is no "{key}", which is {keys[key]}' for key in NEEDED if key in keys and key not in asked)


def left_over(asked: Object) -> Iterator[str]:
    """The keys of values about which no question is: each has these itself. So one is at fault if no other key is."""
    if not isinstance(asked.get("program", ""), str):
        yield "program"
    if "sync_timeout" in asked:
        yield "sync_timeout"


# Keys.


def of_key(error: str, key: str, value: Any, takes: str, error_of: ErrorOf) -> str:
    """The fault of a key alone. In a list it is the entry from which on the list is wrong."""
    if not isinstance(value, list) or not value:
        return of_part(error, key, takes, value, error_of)
    number = first_of(len(value), lambda count: bool(error_of(value[:count])))
    before, part = value[: number - 1], value[number - 1]
    return of_part(error, f"{key}[{number - 1}]", takes, part, lambda entry: error_of([*before, entry]))


def of_part(error: str, place: str, takes: str, part: Any, error_of: ErrorOf) -> str:
    if error.startswith("E28"):
        return f"at {place}: {too_long(part)}"
    return told(place, takes, part) + mended_value(part, error_of)


def taken(key: str, takes: str) -> str:
    return f'"{key}" takes {takes}'


def told(place: str, takes: str, part: Any) -> str:
    return f"at {place}: {takes}, and this is {quoted(part)}"


# Terms.


def refusal(expression: Any) -> Optional[Refused]:
    """The refusal of an expression, which has the place of its first fault; none if it is right."""
    try:
        read_term(expression)
    except Refused as refused:
        return refused
    return None


def term_error(term: Any) -> str:
    """The error of a term; nothing if it is right."""
    found = refusal(term)
    return found.error if found else ""


def of_expression(refused: Refused, expression: Any) -> str:
    """The sentence on the fault for which an expression is refused."""
    term = expression
    for number in refused.place:
        term = term[number]
    place = "expression" + "".join(f"[{number}]" for number in refused.place)
    if len(place) > LONGEST_PLACE:
        place = f"{place[:LONGEST_PLACE // 2]}..{place[-LONGEST_PLACE // 2:]}"
    return f"at {place}: {OF_TERMS[refused.error[:3]](term)}"


def head_of(term: Any) -> Any:
    """The name of a term; nothing if it has none."""
    head = term[0] if isinstance(term, list) and term else term
    return head if isinstance(head, str) else None


def unknown(term: Any) -> str:
    head = head_of(term)
    if head in TERMS_OF_WATCHMAN:
        return f'the term "{head}" of Watchman is not built; take "{TERMS_OF_WATCHMAN[head]}" with a glob'
    return f"{quoted(head)} is no term{meant(head, TERMS) or '; wq explain --terms lists them'}"


def wrong_arguments(term: Any) -> str:
    head = head_of(term)
    if head not in TERMS:
        return f'a term is a list that begins with its name, such as ["suffix","c"], and this is {quoted(term)}'
    return f"{taken(head, TERMS[head])}, and this is {quoted(term)}{mended_term(term, term_error)}"


def too_deep(term: Any) -> str:
    return f"{MAX_TERM_DEPTH} terms may be inside one another, and this one is the {MAX_TERM_DEPTH + 1}th"


def cursor(term: Any) -> str:
    return (
        f'{quoted(term)} names a cursor, which the key "since" of a query takes, and no term; take a clock id, '
        "or a second as a whole number"
    )


def too_long(value: Any) -> str:
    pattern = value[1] if isinstance(value, list) else value
    return f"the pattern has {len(pattern.encode()):,} bytes, and at most {MAX_PATTERN} may be: {quoted(pattern)}"


OF_TERMS: Dict[str, Callable[[Any], str]] = {
    "E23": wrong_arguments,
    "E24": unknown,
    "E25": wrong_arguments,
    "E26": too_deep,
    "E27": cursor,
    "E28": too_long,
}
