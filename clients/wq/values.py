"""Values of JSON that a person wrote on a command line."""

import json
from typing import Any, NoReturn, Union

from .trouble import Trouble

NOT_JSON = "E2: not JSON"


class NotJson(Trouble):
    """A text is no JSON: the server's words for it, and what is wrong."""


def read(text: str, what: str) -> Any:
    """The value of a text, with what is wrong if it is none."""
    try:
        value = json.loads(text, parse_constant=refused, parse_int=integer)
        json.dumps(value, ensure_ascii=False).encode("utf-8")
        return value
    except json.JSONDecodeError as error:
        where = f"line {error.lineno}, column {error.colno}" if error.lineno > 1 else f"column {error.colno}"
        hint = (
            "; a text has double quotes, and the shell takes them away: put single quotes around the whole"
            if '"' not in text
            else ""
        )
        raise NotJson(NOT_JSON, f"{what}, {where}: {error.msg}{hint}") from None
    except UnicodeEncodeError:
        reason = "half a surrogate pair is no letter, and bytes that are not UTF-8 are none either"
        raise NotJson(NOT_JSON, f"{what}: {reason}") from None
    except (RecursionError, ValueError) as error:
        reason = "it is nested too deep" if isinstance(error, RecursionError) else str(error)
        raise NotJson(NOT_JSON, f"{what}: {reason}") from None


def integer(digits: str) -> Union[int, float]:
    """The server takes -0 for no whole number."""
    return -0.0 if digits == "-0" else int(digits)


def refused(name: str) -> NoReturn:
    raise ValueError(f"{name} is no number of JSON")
