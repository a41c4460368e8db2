"""Shows a run of a program on one file, step by step."""

from .explainer import aligned
from .machine import Cell, steps_of
from .program_file import Program
from .records import Record
from .verifier import LONGEST_NAME, budget_of
from .writing import operation_words, quoted

HEAD = ["place", "instruction", "cost so far", "stack after it, top last"]


def traced(program: Program, record: Record) -> str:
    """The steps of a program that may run, and its answer."""
    steps = list(steps_of(program, record))
    rows = [
        [str(step.place), operation_words(program.code[step.place]), str(step.cost), ", ".join(map(shown, step.stack))]
        for step in steps
    ]
    last = steps[-1]
    length = max(LONGEST_NAME, len(record.name))
    answer = f"{shown(bool(last.answer))} at a cost of {last.cost}, of at most {budget_of(program, length)}"
    return "\n".join([*aligned([HEAD, *rows]), answer]) + "\n"


def shown(cell: Cell) -> str:
    if isinstance(cell, bool):
        return "yes" if cell else "no"
    return quoted(cell) if isinstance(cell, bytes) else str(cell)
