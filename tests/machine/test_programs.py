"""Runs programs on the files of a small view by `wq_machine`, and compares their budgets, answers and costs: with
values that were worked out by hand, and with a plain machine over every program of up to four instructions, of a small
set, that may run, and over drawn ones. What calls `wq_machine` is main.rattle; it is compiled without proof beside the
crates."""

import itertools
from pathlib import Path
from typing import Any, Dict, Iterator, List, NamedTuple

from case import Case
from drawn import drawn_of
from notation import file_of
from rows import tables
from unproved import answers
from wqprogram.machine import run as plain_run
from wqprogram.program_file import VERSIONS, read
from wqprogram.records import Record
from wqprogram.verifier import budget_of, refusal_of

HERE = Path(__file__).resolve().parent
# The view of main.rattle after its two passes.
FILES = [
    Record(b"a", "f", 6, 1_999, True, ctick=1, csec=100, otick=1, osec=100),
    Record(b"d", "f", 4, -1, True, ctick=1, csec=100, otick=2, osec=200),
    Record(b"gone.c", "f", 7, 3_000, False, ctick=1, csec=100, otick=2, osec=200),
    Record(b"src", "d", 0, 0, True, ctick=1, csec=100, otick=1, osec=100),
    Record(b"src/.B.C", "l", 9, 5_999, True, ctick=2, csec=200, otick=2, osec=200),
    Record(b"src/a.c", "f", 5, 5_000, True, ctick=1, csec=100, otick=1, osec=100),
]

CONSTANTS: Dict[str, Any] = {
    "numbers": "5, -1, 100",
    "texts": '"src", "a", "SRC/A.C"',
    "lists": '["A","b","c"], []',
    "patterns": '[0,"*.c"], [9,"SRC/**"], [2,"*"]',
}
SETS = '[[0,"*.c"],[0,"*.h"]], [], [[9,"SRC/**"],[2,"b*"]]'


class Worked(NamedTuple):
    """A program, its budgets for names of 0 and of 4,096 bytes, and its answers for the files in the order of the view,
    worked out by hand."""

    code: str
    budgets: str
    answers: str


class Asked(NamedTuple):
    """A program, its file, and what is to be answered of it."""

    name: str
    file: bytes
    answers: str


WORKED = [
    # Each run: the name, the list with its three entries, the end.
    Worked("wholename; oneof 0 fold; ret", "6 6", "y6 n6 n6 n6 n6 n6"),
    # A deleted file is answered by the jump; of the others the size is compared with 5.
    Worked("exists; jf 6; drop; size; num 0; cmp gt; ret", "7 7", "y7 n7 n3 n7 y7 n7"),
    # The pattern *.c has three atoms, and so four cells at each byte and at the end: 3 + 4 * 2 for `a`.
    # A budget is told for the widest text: 3 + 4 * 8 for the constant SRC/A.C, and 3 + 4 * 4,097 for a name.
    Worked("basename; match 0; ret", "35 16391", "n11 n11 y31 n19 n23 y19"),
    # Both patterns of the set have three atoms, and so eight cells together, also if the first one fits.
    Worked("basename; anymatch 0; ret", "67 32779", "n19 n19 y59 n35 n43 y35"),
]

ROWS = tables(Path(__file__).with_name("machine.rows"))
EACH, SMALL = ([row.given for row in ROWS[name]] for name in ("each", "small"))

FEWEST_SMALL = 140

# So many programs are drawn of each version, and so many of them may run.
DRAWN = 3_000

FEWEST_DRAWN = 1_500


def drawn_programs(version: int) -> List[bytes]:
    """The files of the drawn programs of a version that may run. tests/programs has the same ones."""
    files = [drawn.file for drawn in drawn_of(version, DRAWN)]
    return [file for file in files if refusal_of(read(file)) is None]


def small_programs() -> Iterator[str]:
    for count in range(1, 5):
        for words in itertools.product(SMALL, repeat=count - 1):
            yield "; ".join([*words, "ret"])


def files_of(code: str) -> List[bytes]:
    """The files of a program with all constants, of each version that has its instructions."""
    second = file_of(code, **CONSTANTS, sets=SETS)
    return [second] if "anymatch" in code else [file_of(code, **CONSTANTS), second]


def plain_answers(file: bytes) -> str:
    known = read(file)
    runs = [plain_run(known, record) for record in FILES]
    budgets = [str(budget_of(known, length)) for length in (0, 4096)]
    return " ".join([*budgets, *(f"{'y' if yes else 'n'}{steps}" for yes, steps in runs)])


def cases_of(small: List[str], drawn: List[bytes]) -> Iterator[Asked]:
    for worked in WORKED:
        for file in files_of(worked.code):
            yield Asked(worked.code, file, f"{worked.budgets} {worked.answers}")
    for code in [*(worked.code for worked in WORKED), *EACH, *small]:
        for file in files_of(code):
            yield Asked(code, file, plain_answers(file))
    for file in drawn:
        yield Asked(f"drawn program {file.hex()}", file, plain_answers(file))


class Programs(Case):
    def test_programs(self) -> None:
        small = [code for code in small_programs() if refusal_of(read(files_of(code)[-1])) is None]
        drawn: List[bytes] = []
        for version in VERSIONS:
            found = drawn_programs(version)
            self.check(
                f"how many drawn programs of version {version} may run", len(found) >= FEWEST_DRAWN, [str(len(found))]
            )
            drawn += found
        self.check("how many small programs may run", len(small) >= FEWEST_SMALL, [str(len(small))])
        cases = list(cases_of(small, drawn))
        answered = answers(HERE, [case.file.hex() for case in cases])
        self.assertEqual(len(answered), len(cases))
        for case, written in zip(cases, answered):
            self.same(case.name, written, case.answers)
        print(f"{len(small)} programs of up to four instructions, {len(EACH)} others, {len(drawn)} drawn ones")
