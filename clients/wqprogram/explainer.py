"""Explains a program: the cells before each instruction, what it costs, where it goes on, and the fault, if it has
one."""

from typing import Iterator, List, Sequence

from .faults import fault_sentence
from .program_file import Operation, Program
from .verifier import LONGEST_NAME, Costs, Looked, budget_of, followers, looked_at, said_of
from .writing import constant_words, kinds_words, operation_words

HEAD = ["place", "instruction", "cost", "goes on at", "stack before it, top last"]
# The columns of numbers, which end at one column.
NUMBERS = ("place", "cost", "cost so far")
LONGEST_CONSTANT = 24


def explained(program: Program) -> str:
    """The table of a program, its sum or its fault, and the line of `wqd check`."""
    looked, costs = looked_at(program), Costs(program)
    rows = [HEAD, *(row(program, place, looked, costs) for place in range(len(program.code)))]
    lines = list(aligned(rows))
    if looked.fault is not None:
        mark = "       ^ " if program.code else ""
        lines.insert(min(looked.place + 2, len(lines)), mark + fault_sentence(program, looked))
    else:
        budget = budget_of(program, LONGEST_NAME)
        lines.append(f"the sum is {budget}: no run on a name of up to {LONGEST_NAME:,} bytes costs more")
    return "\n".join([*lines, said_of(program)]) + "\n"


def row(program: Program, place: int, looked: Looked, costs: Costs) -> List[str]:
    """The facts about the instruction at this place."""
    operation = program.code[place]
    constant = constant_words(program, operation, LONGEST_CONSTANT)
    words = operation_words(operation) + (f"  # {constant}" if constant else "")
    return [str(place), words, cost_words(costs, operation), next_words(place, operation), stack_words(place, looked)]


def cost_words(costs: Costs, operation: Operation) -> str:
    """The cost of the instruction for a name of the greatest length, if its constant is there."""
    table = operation.instruction.b
    is_there = table in ("", "code") or operation.b < len(costs.program.table(table))
    return str(costs.of(operation, LONGEST_NAME)) if is_there else "?"


def next_words(place: int, operation: Operation) -> str:
    """The places that can follow, the next place first."""
    places = sorted(set(followers(place, operation)), key=lambda follower: (follower != place + 1, follower))
    return " or ".join(map(str, places)) or "the end"


def stack_words(place: int, looked: Looked) -> str:
    """The kinds of cells before a place. The verifier knows no more of those after a fault."""
    is_known = place in looked.reached and (looked.fault is None or place <= looked.place)
    return (kinds_words(looked.reached[place].stack) or "empty") if is_known else "?"


def aligned(rows: Sequence[List[str]]) -> Iterator[str]:
    """The rows of a table in columns."""
    widths = [max(map(len, column)) for column in zip(*rows)]
    for cells in rows:
        columns = [
            cell.rjust(width) if head in NUMBERS else cell.ljust(width)
            for cell, width, head in zip(cells, widths, rows[0])
        ]
        yield "  ".join(columns).rstrip()
