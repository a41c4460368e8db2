"""The instructions of program files: a table of their bytes, operands and stacks."""

from typing import Dict, List, NamedTuple

RELATIONS = ["eq", "ne", "lt", "le", "gt", "ge"]
# The instructions of which the operand a says whether A to Z count as a to z.
FOLDS = ("eq", "depth", "oneof")


class Instruction(NamedTuple):
    """`greatest_a` is the greatest value of the operand a. `b` says what the operand b is the place of: a table of
    constants, `code` for a place to go to, or nothing. `needs` and `leaves` are the cells taken from the stack and put
    on it, the top last: F a flag, N a number, T a text, and ? any cell."""

    byte: int
    name: str
    greatest_a: int
    b: str
    needs: str
    leaves: str


INSTRUCTIONS: List[Instruction] = [
    Instruction(0x01, "flag", 1, "", "", "F"),
    Instruction(0x02, "num", 0, "numbers", "", "N"),
    Instruction(0x03, "text", 0, "texts", "", "T"),
    Instruction(0x04, "wholename", 0, "", "", "T"),
    Instruction(0x05, "basename", 0, "", "", "T"),
    Instruction(0x06, "suffix", 0, "", "", "T"),
    Instruction(0x07, "size", 0, "", "", "N"),
    Instruction(0x08, "mtime", 0, "", "", "N"),
    Instruction(0x09, "oclock", 0, "", "", "N"),
    Instruction(0x0A, "cclock", 0, "", "", "N"),
    Instruction(0x0B, "osec", 0, "", "", "N"),
    Instruction(0x0C, "csec", 0, "", "", "N"),
    Instruction(0x0D, "kind", 0, "", "", "N"),
    Instruction(0x0E, "exists", 0, "", "", "F"),
    Instruction(0x10, "cmp", 5, "", "NN", "F"),
    Instruction(0x11, "eq", 1, "", "TT", "F"),
    Instruction(0x12, "depth", 1, "", "TT", "N"),
    Instruction(0x13, "oneof", 1, "lists", "T", "F"),
    Instruction(0x14, "match", 0, "patterns", "T", "F"),
    Instruction(0x15, "not", 0, "", "F", "F"),
    Instruction(0x16, "and", 0, "", "FF", "F"),
    Instruction(0x17, "or", 0, "", "FF", "F"),
    Instruction(0x18, "drop", 0, "", "?", ""),
    Instruction(0x19, "anymatch", 0, "sets", "T", "F"),
    Instruction(0x20, "jump", 0, "code", "", ""),
    Instruction(0x21, "jf", 0, "code", "F", "F"),
    Instruction(0x22, "jt", 0, "code", "F", "F"),
    Instruction(0x23, "ret", 0, "", "F", ""),
]

BY_BYTE: Dict[int, Instruction] = {instruction.byte: instruction for instruction in INSTRUCTIONS}
BY_NAME: Dict[str, Instruction] = {instruction.name: instruction for instruction in INSTRUCTIONS}
