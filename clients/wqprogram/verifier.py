"""Whether a program may run, and what it can cost: what `wqd check` says of a file."""

from typing import Dict, List, NamedTuple, Optional, Tuple

from .instructions import Instruction
from .patterns import Flags, atoms_of
from .program_file import FileFault, Operation, Pattern, Program, read

MAX_CELLS = 16
LONGEST_NAME = 4_096


class Reached(NamedTuple):
    """The kinds of the cells at a place, the top last, and the earlier place that led to it first."""

    stack: str
    origin: Optional[int]


class Looked(NamedTuple):
    """How far the verifier went: what it knows of the places that it met, and the first fault with its place, if there
    is one."""

    reached: Dict[int, Reached]
    fault: Optional[int] = None
    place: int = 0


def looked_at(program: Program) -> Looked:
    """Goes through the code once, place by place, up to the first fault."""
    reached: Dict[int, Reached] = {0: Reached("", None)}
    if not program.code:
        return Looked(reached, 1)
    for place, operation in enumerate(program.code):
        if place not in reached:
            return Looked(reached, 8, place)
        fault = fault_at(program, place, operation, reached)
        if fault is not None:
            return Looked(reached, fault, place)
        after = stack_after(operation, reached[place].stack)
        for follower in followers(place, operation):
            reached.setdefault(follower, Reached(after, place))
    return Looked(reached)


def fault_at(program: Program, place: int, operation: Operation, reached: Dict[int, Reached]) -> Optional[int]:
    """The number of the first fault of the operation at this place."""
    instruction, stack, end = operation.instruction, reached[place].stack, len(program.code)
    if instruction.name == "ret":
        if stack != "F":
            return 10
    elif len(stack) < len(instruction.needs):
        return 2
    elif not is_of_kinds(stack[len(stack) - len(instruction.needs) :], instruction.needs):
        return 3
    if instruction.b not in ("", "code") and operation.b >= len(program.table(instruction.b)):
        return 4
    if instruction.b == "code" and not place < operation.b < end:
        return 5
    after = stack_after(operation, stack)
    if len(after) > MAX_CELLS:
        return 7
    if goes_on(instruction) and place + 1 == end:
        return 9
    if other_follower(place, operation, reached) is not None:
        return 6
    return None


def is_of_kinds(cells: str, needs: str) -> bool:
    return all(need in ("?", cell) for cell, need in zip(cells, needs))


def stack_after(operation: Operation, stack: str) -> str:
    return stack[: len(stack) - len(operation.instruction.needs)] + operation.instruction.leaves


def goes_on(instruction: Instruction) -> bool:
    """Whether the next place can follow."""
    return instruction.name not in ("jump", "ret")


def followers(place: int, operation: Operation) -> List[int]:
    """The places that can follow."""
    targets = [operation.b] if operation.instruction.b == "code" else []
    return targets + [place + 1] if goes_on(operation.instruction) else targets


def other_follower(place: int, operation: Operation, reached: Dict[int, Reached]) -> Optional[int]:
    """The first place that can follow and was reached before with other kinds of cells."""
    after = stack_after(operation, reached[place].stack)
    places = [follower for follower in followers(place, operation) if follower in reached]
    return next((follower for follower in places if reached[follower].stack != after), None)


Refusal = Tuple[int, int]


def refusal_of(program: Program) -> Optional[Refusal]:
    """The number of the first fault of a program and its place, or nothing if it may run."""
    looked = looked_at(program)
    return None if looked.fault is None else (looked.fault, looked.place)


def width_of(program: Program, name_length: int) -> int:
    """The longest text that a run can meet on a name of so many bytes."""
    return max([name_length, *map(len, program.texts)])


def budget_of(program: Program, name_length: int) -> int:
    """The most that the program can cost on a name of so many bytes."""
    width, costs = width_of(program, name_length), Costs(program)
    return sum(costs.of(operation, width) for operation in program.code)


class Costs:
    """What the instructions of a program cost. The atoms of a constant are counted once, however many instructions
    name it."""

    def __init__(self, program: Program) -> None:
        self.program = program
        self.columns: Dict[Tuple[str, int], int] = {}

    def of(self, operation: Operation, width: int) -> int:
        """The cost of an instruction on a text of so many bytes. Its constant has to be there."""
        if operation.instruction.name in ("match", "anymatch"):
            return 1 + self.columns_of(operation) * (width + 1)
        if operation.instruction.name == "oneof":
            return 1 + len(self.program.lists[operation.b])
        return 1

    def columns_of(self, operation: Operation) -> int:
        """How many cells the patterns of an instruction have at each byte of a text, and at its end."""
        key = (operation.instruction.b, operation.b)
        if key not in self.columns:
            program, row = self.program, operation.b
            patterns = program.sets[row] if operation.instruction.name == "anymatch" else [program.patterns[row]]
            self.columns[key] = sum(atom_count(pattern) + 1 for pattern in patterns)
        return self.columns[key]


def flags_of(byte: int) -> Flags:
    """The flags of a pattern."""
    return Flags(*[bool(byte & bit) for bit in (1, 2, 4, 8)])


def atom_count(pattern: Pattern) -> int:
    flags, text = pattern
    return len(atoms_of(text, flags_of(flags)))


def said(data: bytes) -> str:
    """The line of `wqd check`, without its newline."""
    try:
        return said_of(read(data))
    except FileFault as fault:
        return f"refused F{fault.number}"


def said_of(program: Program) -> str:
    """The line for the file of this program."""
    refusal = refusal_of(program)
    if refusal is not None:
        return "refused Y%d at %d" % refusal
    return f"ok {len(program.code)} {budget_of(program, LONGEST_NAME)}"
