"""How instructions, constants and kinds are written."""

from .instructions import FOLDS, RELATIONS
from .program_file import Operation, Program, Row

KINDS = {"F": "flag", "N": "number", "T": "text", "?": "cell"}
# The words of the flags of a pattern, from the lowest bit on.
PATTERN_FLAGS = ["wholename", "dotfiles", "noescape", "fold"]
# The words for tables of constants.
TABLE_WORDS = {"numbers": "nums", "texts": "texts", "lists": "lists", "patterns": "patterns", "sets": "sets"}
ESCAPED = {'"': '\\"', "\\": "\\\\", "\n": "\\n", "\t": "\\t"}


def operation_words(operation: Operation, place: str = "") -> str:
    """An instruction with its operands, as `oneof 0 fold`. A place to go to may be written as a label."""
    words = [operation.instruction.name]
    if operation.instruction.name == "flag":
        words.append(str(operation.a))
    elif operation.instruction.name == "cmp":
        words.append(RELATIONS[operation.a])
    if operation.instruction.b:
        words.append(place or str(operation.b))
    if operation.instruction.name in FOLDS and operation.a:
        words.append("fold")
    return " ".join(words)


def quoted(text: bytes) -> str:
    """A text in quotes, on one line: bytes that are no letter are escapes."""
    letters = text.decode("utf-8", "surrogateescape")
    if not letters.isprintable() or '"' in letters or "\\" in letters:
        letters = "".join(map(letter_words, letters))
    return f'"{letters}"'


def letter_words(letter: str) -> str:
    if letter in ESCAPED:
        return ESCAPED[letter]
    if letter.isprintable():
        return letter
    return "".join(f"\\x{byte:02x}" for byte in letter.encode("utf-8", "surrogateescape"))


def row_words(row: Row) -> str:
    """A constant, or an entry of a list or of a set."""
    if isinstance(row, int):
        return str(row)
    if isinstance(row, bytes):
        return quoted(row)
    if isinstance(row, tuple):
        flags, text = row
        return " ".join([quoted(text), *(word for bit, word in enumerate(PATTERN_FLAGS) if flags >> bit & 1)])
    return "[" + ", ".join([row_words(entry) for entry in row]) + "]"


def constant_words(program: Program, operation: Operation, longest: int) -> str:
    """The constant that an instruction names, if it names one that is there, cut after so many letters."""
    table = operation.instruction.b
    if table not in TABLE_WORDS or operation.b >= len(program.table(table)):
        return ""
    words = row_words(front_of(program.table(table)[operation.b], longest))
    return words if len(words) <= longest else words[: longest - 2] + ".."


def front_of(row: Row, longest: int) -> Row:
    """As much of a constant as makes so many letters: a list may be very long, and so may a text, each letter of which
    has four bytes at most."""
    if isinstance(row, bytes):
        return row[: 4 * longest]
    return row[:longest] if isinstance(row, list) else row


def kinds_words(stack: str) -> str:
    """The kinds of the cells on a stack, the top last."""
    return ", ".join(KINDS[kind] for kind in stack)
