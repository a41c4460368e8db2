"""Writes a program as a text that assembles to the same bytes."""

from typing import Dict, Iterator, List

from .program_file import Program, Version
from .writing import TABLE_WORDS, constant_words, operation_words, row_words

INDENT = "    "
# How wide an instruction is in front of a comment, and how long a comment may be.
COMMENT_COLUMN = 20
LONGEST_COMMENT = 60


def disassembled(program: Program, version: Version) -> str:
    """The text of a program in a file of this version."""
    lines = [f"version {version.number}"]
    for name in version.tables:
        if program.table(name):
            lines += ["", TABLE_WORDS[name], *(INDENT + row_words(row) for row in program.table(name))]
    lines += ["", "code", *code_lines(program)]
    return "\n".join(lines) + "\n"


def code_lines(program: Program) -> Iterator[str]:
    labels = labels_of(program)
    for place, operation in enumerate(program.code):
        if place in labels:
            yield f"{labels[place]}:"
        is_forward = operation.instruction.b == "code" and operation.b > place
        words = operation_words(operation, labels.get(operation.b, "") if is_forward else "")
        comment = constant_words(program, operation, LONGEST_COMMENT)
        yield INDENT + (f"{words:<{COMMENT_COLUMN}}# {comment}" if comment else words)


def labels_of(program: Program) -> Dict[int, str]:
    """A label for each place to which an earlier instruction goes. Other places are written as numbers."""
    targets: List[int] = [
        operation.b
        for place, operation in enumerate(program.code)
        if operation.instruction.b == "code" and place < operation.b < len(program.code)
    ]
    return {target: f"at{target}" for target in sorted(targets)}
