"""The faults of program files and of programs, each in a sentence that says what to change."""

from typing import Callable, Dict, List, NamedTuple

from .program_file import MAGIC, MAX_TEXT, VERSIONS, FileFault, Operation, Program
from .source import one_of
from .verifier import MAX_CELLS, Looked, Reached, other_follower, stack_after
from .writing import KINDS, TABLE_WORDS, kinds_words, operation_words

# What is in braces is of the version of the file.
FILE_FAULTS: Dict[int, str] = {
    1: f"a program file begins with {MAGIC.decode()}: this is another file; of a text assemble makes one",
    2: f"no version of program files has this number: {one_of(map(str, VERSIONS))} may be there",
    3: "the file ends before or inside this part: take the whole file",
    4: "the last instruction ends here: take away what follows",
    5: "no instruction of version {0.number} has this byte: take one of the table of instructions that it has",
    6: "this operand or these flags are none that may be: put 0 for an operand that the instruction has not",
    7: "this is over the limit of version {0.number}: a table has at most {0.most_rows:,} rows, a row "
    f"{{0.most_entries:,}} entries, and a text {MAX_TEXT:,} bytes",
}


def file_fault_sentence(fault: FileFault) -> str:
    return f"F{fault.number} at byte {fault.place}: {FILE_FAULTS[fault.number].format(fault.version)}"


# The instruction that was meant, by the one that is there and the cells that it meets.
OF_OTHER_KINDS = {("cmp", "TT"): 'two texts are compared by "eq"', ("eq", "NN"): 'two numbers are compared by "cmp eq"'}


class Met(NamedTuple):
    """The instruction at which the verifier met a fault: its place and what was known of it."""

    program: Program
    place: int
    reached: Dict[int, Reached]

    @property
    def operation(self) -> Operation:
        return self.program.code[self.place]

    @property
    def name(self) -> str:
        return self.operation.instruction.name

    @property
    def stack(self) -> str:
        return self.reached[self.place].stack


def fault_sentence(program: Program, looked: Looked) -> str:
    """The fault of a program that may not run, and the change that mends it."""
    assert looked.fault is not None
    return f"Y{looked.fault}: {SENTENCES[looked.fault](Met(program, looked.place, looked.reached))}"


def no_instruction(met: Met) -> str:
    return 'the program has no instruction; write at least one that puts a flag, and then "ret"'


def few_cells(met: Met) -> str:
    needs = met.operation.instruction.needs
    return (
        f'"{met.name}" takes {cells(needs)}, and the stack has {cells(met.stack)}; put '
        f"{cells(needs[:len(needs) - len(met.stack)])} on it before"
    )


def other_kind(met: Met) -> str:
    needs = met.operation.instruction.needs
    top = met.stack[len(met.stack) - len(needs) :]
    remedy = OF_OTHER_KINDS.get((met.name, top), f"put {cells(needs)} there")
    return f'"{met.name}" takes {cells(needs)}, and the top of the stack is {cells(top)}; {remedy}'


def no_constant(met: Met) -> str:
    table, words = met.operation.instruction.b, operation_words(met.operation)
    count = len(met.program.table(table))
    if count:
        remedy = f"take {one_from('number', 0, count - 1)}, or add rows"
    else:
        remedy = "add a row, and take 0" if met.operation.b else "add a row"
    return f'"{words}" names row {met.operation.b} of "{TABLE_WORDS[table]}", which has {count}; {remedy}'


def one_from(subject: str, first: int, last: int) -> str:
    """The numbers of rows or places that may be taken."""
    return f"{subject} {first}" if first == last else f"a {subject} from {first} to {last}"


def wrong_place(met: Met) -> str:
    first, last = met.place + 1, len(met.program.code) - 1
    remedy = f"take {one_from('place', first, last)}" if first <= last else "put instructions after it"
    return f"it goes to place {met.operation.b}, and jumps lead to later places of the code alone; {remedy}"


def other_cells(met: Met) -> str:
    after = stack_after(met.operation, met.stack)
    follower = other_follower(met.place, met.operation, met.reached)
    assert follower is not None
    before = met.reached[follower]
    return (
        f"place {follower} was reached from place {before.origin} with {cells(before.stack)} on the stack, and from "
        f"here "
        f"it would be with {cells(after)}; let both ways leave the same kinds of cells"
    )


def many_cells(met: Met) -> str:
    count = len(stack_after(met.operation, met.stack))
    return f"it leaves {count} cells, and at most {MAX_CELLS} may be on the stack; take some away before"


def not_reached(met: Met) -> str:
    return "no earlier instruction leads here; take it out, or let a jump lead here"


def runs_out(met: Met) -> str:
    return 'the code ends here, and the next place can follow; put "ret" after it'


def wrong_end(met: Met) -> str:
    return f'"ret" ends with one flag alone, and the stack has {cells(met.stack)}; {end_remedy(met.stack)}'


def end_remedy(stack: str) -> str:
    if not stack:
        return "put a flag before"
    if stack.endswith("F"):
        return 'take the others away before by "and", "or" or "drop"'
    return "make a flag of it before" if len(stack) == 1 else "make one flag of them before"


SENTENCES: Dict[int, Callable[[Met], str]] = {
    1: no_instruction,
    2: few_cells,
    3: other_kind,
    4: no_constant,
    5: wrong_place,
    6: other_cells,
    7: many_cells,
    8: not_reached,
    9: runs_out,
    10: wrong_end,
}


def cells(stack: str) -> str:
    """Cells in words, as `a flag and a number`."""
    words: List[str] = [f"a {KINDS[kind]}" for kind in stack]
    if not words:
        return "no cell"
    if len(words) > 3:
        return f"{len(words)} cells ({kinds_words(stack)})"
    return ", ".join(words[:-1]) + (" and " if words[1:] else "") + words[-1]
