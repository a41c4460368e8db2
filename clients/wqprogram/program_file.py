"""Program files: the bytes that spell a program, and the fault of bytes that spell none."""

from typing import Callable, Dict, List, NamedTuple, Optional, Sequence, Tuple, TypeVar, Union

from .instructions import BY_BYTE, Instruction

MAGIC = b"WQPF"
MAX_TEXT = 4_096
MAX_PATTERN = 255
GREATEST_FLAGS = 15


class Version(NamedTuple):
    """The room of a version of program files, and how many bytes its counts and places take. `tables` are the
    tables of constants, in the order of the file. An instruction is known if its table is there."""

    number: int
    tables: Tuple[str, ...]
    count_bytes: int
    most_rows: int
    most_entries: int
    place_bytes: int

    @property
    def greatest_place(self) -> int:
        return (1 << 8 * self.place_bytes) - 1

    def knows(self, instruction: Instruction) -> bool:
        return instruction.b in ("", "code", *self.tables)


VERSIONS: Dict[int, Version] = {
    1: Version(1, ("numbers", "texts", "lists", "patterns"), 2, 4_096, 65_535, 2),
    2: Version(2, ("numbers", "texts", "lists", "patterns", "sets"), 4, 65_536, 65_536, 4),
}
LATEST = VERSIONS[max(VERSIONS)]

Pattern = Tuple[int, bytes]
# A constant.
Row = Union[int, bytes, Pattern, List[bytes], List[Pattern]]
Kind = TypeVar("Kind")


class Operation(NamedTuple):
    """One instruction of a program, with its operands."""

    instruction: Instruction
    a: int
    b: int


class Program(NamedTuple):
    numbers: List[int]
    texts: List[bytes]
    lists: List[List[bytes]]
    patterns: List[Pattern]
    sets: List[List[Pattern]]
    code: List[Operation]

    def table(self, name: str) -> Sequence[Row]:
        """The table of constants of this name."""
        tables: Dict[str, Sequence[Row]] = {
            "numbers": self.numbers,
            "texts": self.texts,
            "lists": self.lists,
            "patterns": self.patterns,
            "sets": self.sets,
        }
        return tables[name]


class FileFault(Exception):
    """The bytes are no program file of the version, for the fault of this number in the part that begins at this
    place."""

    def __init__(self, number: int, place: int, version: Version) -> None:
        super().__init__(f"F{number} at byte {place}")
        self.number = number
        self.place = place
        self.version = version


class Reader:
    """Reads the parts of a file one by one."""

    def __init__(self, data: bytes) -> None:
        self.data = data
        self.place = 0
        self.version = LATEST

    def fault(self, number: int, place: int) -> FileFault:
        return FileFault(number, place, self.version)

    def bytes_of(self, length: int) -> bytes:
        """A part of so many bytes. F3: they are not there."""
        part = self.data[self.place : self.place + length]
        if len(part) < length:
            raise self.fault(3, self.place)
        self.place += length
        return part

    def number(self, length: int, greatest: Optional[int] = None, fault: int = 0) -> int:
        """A number of so many bytes. It has the fault if it is over the greatest."""
        place = self.place
        number = int.from_bytes(self.bytes_of(length), "big")
        if greatest is not None and number > greatest:
            raise self.fault(fault, place)
        return number

    def head(self) -> Dict[str, int]:
        """How many rows each table of the version has, and the code."""
        for place, byte in enumerate(MAGIC):
            if self.number(1) != byte:
                raise self.fault(1, place)
        version = VERSIONS.get(self.number(1))
        if version is None:
            raise self.fault(2, len(MAGIC))
        self.version = version
        return {name: self.number(version.count_bytes, version.most_rows, 7) for name in [*version.tables, "code"]}

    def signed(self) -> int:
        return int.from_bytes(self.bytes_of(8), "big", signed=True)

    def text(self) -> bytes:
        return self.bytes_of(self.number(2, MAX_TEXT, 7))

    def count(self) -> int:
        """How many entries a list or a set has."""
        return self.number(self.version.count_bytes, self.version.most_entries, 7)

    def entries(self) -> List[bytes]:
        return self.rows(self.count(), self.text)

    def pattern(self) -> Pattern:
        flags = self.number(1, GREATEST_FLAGS, 6)
        return flags, self.bytes_of(self.number(1))

    def patterns(self) -> List[Pattern]:
        return self.rows(self.count(), self.pattern)

    def operation(self) -> Operation:
        place = self.place
        instruction = BY_BYTE.get(self.number(1))
        if instruction is None or not self.version.knows(instruction):
            raise self.fault(5, place)
        a = self.number(1, instruction.greatest_a, 6)
        b = self.number(self.version.place_bytes, None if instruction.b else 0, 6)
        return Operation(instruction, a, b)

    def rows(self, count: int, row: Callable[[], Kind]) -> List[Kind]:
        return [row() for _ in range(count)]


def read(data: bytes) -> Program:
    """The program of a file."""
    reader = Reader(data)
    counts = reader.head()
    program = Program(
        reader.rows(counts["numbers"], reader.signed),
        reader.rows(counts["texts"], reader.text),
        reader.rows(counts["lists"], reader.entries),
        reader.rows(counts["patterns"], reader.pattern),
        reader.rows(counts.get("sets", 0), reader.patterns),
        reader.rows(counts["code"], reader.operation),
    )
    if reader.place < len(data):
        raise reader.fault(4, reader.place)
    return program


def blank() -> Program:
    """A program without constants and instructions."""
    return Program([], [], [], [], [], [])


def version_of(data: bytes) -> Version:
    """The version of a file that can be read."""
    return VERSIONS[data[len(MAGIC)]]


class Writer:
    """Writes the parts of a file of a version. What is written has to fit into it."""

    def __init__(self, version: Version) -> None:
        self.version = version

    def file(self, program: Program) -> bytes:
        rows = [[self.row(row) for row in program.table(name)] for name in self.version.tables]
        rows.append([self.operation(operation) for operation in program.code])
        counts = [self.count(len(table)) for table in rows]
        head = MAGIC + bytes([self.version.number])
        return head + b"".join(counts) + b"".join(row for table in rows for row in table)

    def count(self, number: int) -> bytes:
        return number.to_bytes(self.version.count_bytes, "big")

    def row(self, row: Row) -> bytes:
        """A constant, or an entry of a list or of a set."""
        if isinstance(row, int):
            return row.to_bytes(8, "big", signed=True)
        if isinstance(row, bytes):
            return len(row).to_bytes(2, "big") + row
        if isinstance(row, tuple):
            flags, text = row
            return bytes([flags, len(text)]) + text
        return self.count(len(row)) + b"".join([self.row(entry) for entry in row])

    def operation(self, operation: Operation) -> bytes:
        head = bytes([operation.instruction.byte, operation.a])
        return head + operation.b.to_bytes(self.version.place_bytes, "big")


def written(program: Program, version: Version = LATEST) -> bytes:
    """The file of a program."""
    return Writer(version).file(program)
