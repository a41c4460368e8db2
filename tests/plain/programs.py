"""Programs by their base64 texts, and whether an expression has a program. The few that generated scripts add are in a
table, and others are run by the plain machine. What programs mean is compared elsewhere."""

import base64
from typing import Any, Callable, Dict, NamedTuple

from scripted import at_root
from wqprogram.compiler import TooLarge, compiled
from wqprogram.errors import NOT_BASE64, PROGRAM_TOO_LARGE, WRONG_FILE, WRONG_PROGRAM, Refused
from wqprogram.machine import run
from wqprogram.program_file import FileFault, read
from wqprogram.records import Record
from wqprogram.verifier import refusal_of


class Program(NamedTuple):
    instructions: int
    matches: Callable[[Record], bool]


PROGRAMS: Dict[str, Program] = {
    # flag 1; ret
    "V1FQRgEAAAAAAAAAAAACAQEAACMAAAA=": Program(2, lambda record: True),
    # flag 0; ret
    "V1FQRgEAAAAAAAAAAAACAQAAACMAAAA=": Program(2, lambda record: False),
    # exists; ret
    "V1FQRgEAAAAAAAAAAAACDgAAACMAAAA=": Program(2, lambda record: record.exists),
    # exists; not; ret
    "V1FQRgEAAAAAAAAAAAADDgAAABUAAAAjAAAA": Program(3, lambda record: not record.exists),
    # flag 1; ret, in a file of version 2
    "V1FQRgIAAAAAAAAAAAAAAAAAAAAAAAAAAAAAAAIBAQAAAAAjAAAAAAA=": Program(2, lambda record: True),
    # basename; anymatch 0; ret, with a set of "*" alone, which fits no name with a leading dot
    "V1FQRgIAAAAAAAAAAAAAAAAAAAAAAAAAAQAAAAMAAAABAAEqBQAAAAAAGQAAAAAAIwAAAAAA": Program(
        3, lambda record: not record.basename.startswith(b".")
    ),
}
FAULTS: Dict[str, str] = {
    "V1F": NOT_BASE64,
    "V1FQ====": NOT_BASE64,
    "": WRONG_FILE,
    "V1FQ": WRONG_FILE,
    # not; ret
    "V1FQRgEAAAAAAAAAAAACFQAAACMAAAA=": WRONG_PROGRAM,
    "V1FQRgIAAAAAAAAAAAAAAAAAAAAAAAAAAAAAAAIVAAAAAAAjAAAAAAA=": WRONG_PROGRAM,
}


def program_of(text: str) -> Program:
    """The program of a text, or why there is none."""
    if text in FAULTS:
        raise Refused(FAULTS[text])
    return PROGRAMS[text] if text in PROGRAMS else read_program(text)


def read_program(text: str) -> Program:
    try:
        data = base64.b64decode(text, validate=True)
    except ValueError:
        raise Refused(NOT_BASE64) from None
    if base64.b64encode(data).decode() != text:
        raise Refused(NOT_BASE64)
    try:
        program = read(data)
    except FileFault as fault:
        raise Refused(f"E32: F{fault.number}") from None
    refusal = refusal_of(program)
    if refusal is not None:
        raise Refused("E33: Y%d at %d" % refusal)
    return Program(len(program.code), lambda record: run(program, record)[0])


def require_program(expression: Any, root: int) -> None:
    """Refuses an expression, which has no other fault, if its program at the root of this number would be too large."""
    try:
        compiled(expression, at_root(root))
    except TooLarge:
        raise Refused(PROGRAM_TOO_LARGE) from None
