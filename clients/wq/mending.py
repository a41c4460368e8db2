"""A value that may have been meant by a wrong one: it is like that, and the server takes it."""

import json
from itertools import chain, islice
from typing import Any, Iterator

from .questions import ErrorOf
from .vocabulary import VALUES, quoted

# So many values are tried, and so many entries of a list are changed.
MOST_TRIED = MOST_ENTRIES = 8
LONGEST_WORD = 20
LONGEST_SHOWN = 120


def mended_term(term: Any, error_of: ErrorOf) -> str:
    """The term that was meant, as the end of a sentence; nothing if none is found. Its name is right."""
    if not isinstance(term, list):
        return ""
    head, arguments = term[0], term[1:]
    is_row = len(arguments) > 1 and all(isinstance(argument, str) for argument in arguments)
    rows = [[head, arguments]] if is_row else []
    return mended(chain(([head, *changed] for changed in near(arguments)), rows), error_of)


def mended_value(value: Any, error_of: ErrorOf) -> str:
    return mended(chain(near(value), [] if isinstance(value, list) else [[value]]), error_of)


def mended(values: Iterator[Any], error_of: ErrorOf) -> str:
    for value in islice(values, MOST_TRIED):
        if not error_of(value):
            return f"; did you mean {quoted(value, LONGEST_SHOWN)}?"
    return ""


def near(value: Any) -> Iterator[Any]:
    """Values with one difference: a word of the protocol in place of one like it, or no quotes."""
    if isinstance(value, str):
        yield from words_like(value)
        yield from unquoted(value)
    elif isinstance(value, list):
        for place, entry in enumerate(value[:MOST_ENTRIES]):
            yield from ([*value[:place], other, *value[place + 1 :]] for other in near(entry))
    elif isinstance(value, dict):
        for key in list(value)[:MOST_ENTRIES]:
            for other in words_like(key):
                yield {other if name == key else name: entry for name, entry in value.items()}


def words_like(word: str) -> Iterator[str]:
    """A kind may be written out, as `file`."""
    import difflib  # most requests are right

    if len(word) <= LONGEST_WORD:
        like = [*difflib.get_close_matches(word.lower(), VALUES, 2), word[:1].lower()]
        yield from (other for other in dict.fromkeys(like) if other in VALUES and other != word)


def unquoted(word: str) -> Iterator[Any]:
    """A number, `true` or `false`."""
    if len(word) <= LONGEST_WORD:
        try:
            found = json.loads(word)
        except ValueError:
            return
        if isinstance(found, (bool, int)):
            yield found
