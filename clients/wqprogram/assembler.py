"""Makes a program of a text: tables of constants, and code with one instruction a line and labels for places.

A text that says no program is refused for its first fault. Whether the program may run is for the verifier to say: a
place or a constant that is given by its number is taken as it is.
"""

from typing import Any, Callable, Dict, List, NamedTuple, Optional

from .instructions import BY_NAME, FOLDS, RELATIONS, Instruction
from .program_file import LATEST, MAX_PATTERN, MAX_TEXT, VERSIONS, Operation, Pattern, Program, Version
from .source import TextFault, Token, Words, fault_of, one_of, text_of, tokens_of
from .writing import PATTERN_FLAGS, TABLE_WORDS

LEAST_NUMBER, GREATEST_NUMBER = -(2**63), 2**63 - 1
CODE = "code"


class Assembled(NamedTuple):
    """A program, the version that its text asks for, and the word of each instruction."""

    program: Program
    version: Version
    words: List[Token]


class Parsed(NamedTuple):
    """An instruction as it was read: its operand b may be a label."""

    instruction: Instruction
    a: int
    b: Optional[Token]
    word: Token


def assembled(data: bytes, version: Optional[Version] = None) -> Assembled:
    """The program that a text says. A version that is given counts more than the one in the text."""
    return Assembler(data, version).assembled()


class Assembler:
    """Reads a text line by line, and then finds what its labels mean."""

    def __init__(self, data: bytes, version: Optional[Version]) -> None:
        self.words = Words(tokens_of(text_of(data)))
        self.asked = version
        self.version = version or LATEST
        self.tables: Dict[str, List[Any]] = {}
        self.code: List[Parsed] = []
        # For each table of constants, and for the code, its labels and their places.
        self.labels: Dict[str, Dict[str, int]] = {}

    def assembled(self) -> Assembled:
        self.words.skip_lines()
        if self.words.next.kind == "end":
            raise self.words.next.fault("empty text", f'a table or "{CODE}"')
        if self.words.next.word == "version":
            self.read_version()
        while self.words.next.kind != "end":
            self.read_table()
        tables = {name: self.tables.get(name, []) for name in TABLE_WORDS}
        code = [self.operation(place, parsed) for place, parsed in enumerate(self.code)]
        return Assembled(Program(**tables, code=code), self.version, [parsed.word for parsed in self.code])

    def read_version(self) -> None:
        self.words.take()
        number = self.words.require("number", "the number of a version")
        if number.number not in VERSIONS:
            raise number.fault("unknown version", one_of(map(str, VERSIONS)))
        self.version = self.asked or VERSIONS[number.number]
        self.words.end_line()

    # Tables.

    def read_table(self) -> None:
        head = self.words.take()
        names = {TABLE_WORDS[name]: name for name in self.version.tables}
        if head.word in TABLE_WORDS.values() and head.word not in names:
            raise head.fault("not in this version", f"{later_version()}, or another table")
        if head.kind != "name" or head.word not in [*names, CODE]:
            raise head.fault("unknown word", f"{one_of([*names, CODE], head.word)}, with which a table begins")
        name = names.get(head.word, CODE)
        if name in self.labels:
            raise head.fault("table twice", "each table once")
        self.words.end_line()
        self.labels[name] = {}
        if name == CODE:
            self.read_code()
        else:
            self.tables[name] = self.rows(name)

    def rows(self, name: str) -> List[Any]:
        """The rows of a table of constants."""
        kinds: Dict[str, Callable[[], Any]] = {
            "numbers": self.number,
            "texts": self.text,
            "lists": self.entries,
            "patterns": self.pattern,
            "sets": self.patterns,
        }
        rows: List[Any] = []
        while not self.is_at_table():
            self.read_label(name, len(rows))
            if len(rows) == self.version.most_rows:
                raise self.too_many("rows", self.version.most_rows, "rows of a table")
            rows.append(kinds[name]())
            self.words.end_line()
        return rows

    def too_many(self, counted: str, most: int, subject: str) -> TextFault:
        """The fault of a row or an entry for which the version has no room."""
        return self.words.next.fault(
            f"too many {counted}", f"at most {most:,} {subject} in version {self.version.number}"
        )

    def is_at_table(self) -> bool:
        """Whether a table begins here, or the text ends."""
        token, after = self.words.next, self.words.after_next
        is_head = token.kind == "name" and token.word in [*TABLE_WORDS.values(), CODE]
        return token.kind == "end" or is_head and after is not None and after.kind == "line"

    def read_label(self, table: str, place: int) -> bool:
        """Goes past a label, if one is here."""
        token, after = self.words.next, self.words.after_next
        if token.kind != "name" or after is None or after.kind != ":":
            return False
        if token.word in self.labels[table]:
            raise token.fault("label twice", "another label")
        self.labels[table][token.word] = place
        self.words.take()
        self.words.take()
        return True

    def number(self) -> int:
        return self.number_to(LEAST_NUMBER, GREATEST_NUMBER, "a number, or a label with a colon")

    def number_to(self, least: int, greatest: int, expected: str) -> int:
        token = self.words.require("number", expected)
        if not least <= token.number <= greatest:
            raise token.fault("number out of range", f"a number from {least} to {greatest}")
        return token.number

    def text(self) -> bytes:
        return self.text_to(MAX_TEXT)

    def text_to(self, longest: int) -> bytes:
        token = self.words.require("text", "a text in quotes")
        if len(token.data) > longest:
            raise token.fault("entry too long", f"at most {longest:,} bytes, and these are {len(token.data):,}")
        return token.data

    def entries(self) -> List[bytes]:
        return self.bracketed(self.text, 'a list, as ["c", "h"]', "texts of a list")

    def patterns(self) -> List[Pattern]:
        return self.bracketed(self.pattern, 'a set, as ["*.c", "*.h" fold]', "patterns of a set")

    def bracketed(self, entry: Callable[[], Any], example: str, subject: str) -> List[Any]:
        """Entries in brackets, which may go on over several lines."""
        self.words.require("[", example)
        entries: List[Any] = []
        self.words.skip_lines()
        while self.words.take_if("]") is None:
            if len(entries) == self.version.most_entries:
                raise self.too_many("entries", self.version.most_entries, subject)
            entries.append(entry())
            self.words.skip_lines()
            if self.words.next.kind != "]":
                self.words.require(",", "a comma or a closing bracket")
                self.words.skip_lines()
        return entries

    def pattern(self) -> Pattern:
        text = self.text_to(MAX_PATTERN)
        flags = 0
        while self.words.next.kind not in ("line", ",", "]"):
            token = self.words.take()
            if token.word not in PATTERN_FLAGS:
                raise token.fault("unknown flag", one_of(PATTERN_FLAGS, token.word))
            flag = 1 << PATTERN_FLAGS.index(token.word)
            if flags & flag:
                raise token.fault("flag twice", "each flag once")
            flags |= flag
        return flags, text

    # The code.

    def read_code(self) -> None:
        labelled: Optional[Token] = None
        while not self.is_at_table():
            label = self.words.next
            if self.read_label(CODE, len(self.code)):
                labelled = label
                self.words.skip_lines()
                continue
            labelled = None
            if len(self.code) == self.version.most_rows:
                raise self.too_many("rows", self.version.most_rows, "instructions")
            self.code.append(self.instruction())
            self.words.end_line()
        if labelled is not None:
            raise labelled.fault("label without an instruction", "an instruction after it")

    def instruction(self) -> Parsed:
        token = self.words.take()
        instruction = BY_NAME.get(token.word)
        if instruction is not None and not self.version.knows(instruction):
            raise token.fault("not in this version", f"{later_version()}, or another instruction")
        if token.kind != "name" or instruction is None:
            raise token.fault(
                "unknown word", f"an instruction, as {one_of(near_instructions(token.word, self.version))}"
            )
        a, b = 0, None
        if instruction.name == "cmp":
            a = self.relation()
        elif instruction.name == "flag":
            a = self.number_to(0, 1, "0 for no or 1 for yes")
        if instruction.b:
            b = self.reference(instruction)
        if instruction.name in FOLDS and self.words.next.word == "fold":
            self.words.take()
            a = 1
        return Parsed(instruction, a, b, token)

    def relation(self) -> int:
        token = self.words.take()
        if token.word not in RELATIONS:
            raise token.fault(fault_of(token), one_of(RELATIONS))
        return RELATIONS.index(token.word)

    def reference(self, instruction: Instruction) -> Token:
        """The label or the number of a place or of a constant."""
        token = self.words.next
        if token.kind not in ("name", "number"):
            raise token.fault(fault_of(token), f"a label of {table_words(instruction.b)}, or its number")
        if token.kind == "number":
            self.number_to(0, self.version.greatest_place, "")
        else:
            self.words.take()
        return token

    def operation(self, place: int, parsed: Parsed) -> Operation:
        """The instruction at this place, with what its label means."""
        token = parsed.b
        if token is None:
            return Operation(parsed.instruction, parsed.a, 0)
        if token.kind == "number":
            return Operation(parsed.instruction, parsed.a, token.number)
        labels = self.labels.get(parsed.instruction.b, {})
        if token.word not in labels:
            expected = f"a label of {table_words(parsed.instruction.b)}"
            raise token.fault("no such label", f"{expected}, as {one_of(labels, token.word)}" if labels else expected)
        target = labels[token.word]
        if parsed.instruction.b == CODE and target <= place:
            raise token.fault("jump back", "a label of a later instruction, since jumps lead forward")
        return Operation(parsed.instruction, parsed.a, target)


def near_instructions(word: str, version: Version) -> List[str]:
    """The instruction of the version that a word may have been meant for, or some."""
    found = one_of([name for name, instruction in BY_NAME.items() if version.knows(instruction)], word)
    return [found.strip('"')] if found.count('"') == 2 else ["exists", "num", "cmp", "ret"]


def later_version() -> str:
    """The version that has what another has not."""
    return f"version {LATEST.number} of program files"


def table_words(table: str) -> str:
    """The word for a table, or for the code."""
    return f'"{TABLE_WORDS.get(table, table)}"'
