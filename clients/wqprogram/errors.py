"""The errors that a reply names."""

from typing import Tuple

LINE_TOO_LONG = "E1: line too long"
NOT_JSON = "E2: not JSON"
NOT_A_COMMAND = "E3: not a command array"
UNKNOWN_COMMAND = "E4: unknown command"
WRONG_ARGUMENTS = "E5: wrong arguments"
BINARY = "E6: BSER is not spoken here"
ROOT_NOT_ABSOLUTE = "E10: root is not absolute"
UNREADABLE_ROOT = "E11: root cannot be read"
NOT_WATCHED = "E14: root is not watched"
LEFT_OUT_KEY = "E20: query key is left out"
UNKNOWN_FIELD = "E21: unknown field"
BAD_GENERATOR = "E22: bad generator"
BAD_CLOCK_SPEC = "E23: bad clockspec"
UNKNOWN_TERM = "E24: unknown term"
WRONG_TERM_ARGUMENTS = "E25: wrong term arguments"
TOO_DEEP = "E26: expression too deep"
CURSOR_IN_TERM = "E27: cursor in a term"
PATTERN_TOO_LONG = "E28: pattern too long"
EXPRESSION_AND_PROGRAM = "E29: expression and program"
PROGRAM_TOO_LARGE = "E30: program too large"
NOT_BASE64 = "E31: not base64"
WRONG_FILE = "E32: F3"
WRONG_PROGRAM = "E33: Y2 at 0"
NO_SUCH_PROGRAM = "E34: no such program"
SHELF_FULL = "E35: shelf is full"
BAD_NAME = "E36: bad name"
WRONG_QUERY_VALUE = "E37: wrong query value"
TOO_MANY_SUBSCRIPTIONS = "E41: too many subscriptions"
TOO_MANY_TRIGGERS = "E42: too many triggers"
BAD_TRIGGER = "E43: bad trigger"

# All but those for expressions that are too long to be drawn, which tests/size has, and for a shelf that is full, or a
# client with as many subscriptions or a root with as many triggers as may be, which tests/scripts has.
ALL = [
    LINE_TOO_LONG,
    NOT_JSON,
    NOT_A_COMMAND,
    UNKNOWN_COMMAND,
    WRONG_ARGUMENTS,
    BINARY,
    ROOT_NOT_ABSOLUTE,
    UNREADABLE_ROOT,
    NOT_WATCHED,
    LEFT_OUT_KEY,
    UNKNOWN_FIELD,
    BAD_GENERATOR,
    BAD_CLOCK_SPEC,
    UNKNOWN_TERM,
    WRONG_TERM_ARGUMENTS,
    TOO_DEEP,
    CURSOR_IN_TERM,
    PATTERN_TOO_LONG,
    EXPRESSION_AND_PROGRAM,
    NOT_BASE64,
    WRONG_FILE,
    WRONG_PROGRAM,
    NO_SUCH_PROGRAM,
    BAD_NAME,
    WRONG_QUERY_VALUE,
    BAD_TRIGGER,
]


class Refused(Exception):
    """A client's line is refused with this error. The place of a term that is wrong in an expression is the numbers of
    the terms that lead to it."""

    def __init__(self, error: str, place: Tuple[int, ...] = ()) -> None:
        super().__init__(error)
        self.error = error
        self.place = place
