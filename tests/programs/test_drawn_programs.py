"""Drawn programs: there and back as texts, and what the proved program says of them and answers by them."""

import base64
import json
import re
from functools import lru_cache
from pathlib import Path
from typing import Dict, List, NamedTuple, Optional

from case import Case
from case_file import read_cases
from drawn import Drawn, drawn_of
from draws import Draws
from replies import TREE, records_of, replies_to
from wqprogram.assembler import assembled
from wqprogram.disassembler import disassembled
from wqprogram.explainer import explained
from wqprogram.faults import file_fault_sentence
from wqprogram.machine import run
from wqprogram.program_file import LATEST, VERSIONS, FileFault, Program, read, version_of, written
from wqprogram.records import Record
from wqprogram.source import TextFault
from wqprogram.tracer import traced

# So many programs are drawn of each version. Of the first of them other texts are tried too.
DRAWN = 3_000
DAMAGED = 500
# So many of the drawn programs of a version may run, so many files are no program files, and so many of the first
# programs of version 2 are such that version 1 can hold them, and so many are not.
FEWEST_RUN, FEWEST_FILE_FAULTS, FEWEST_FIT, FEWEST_UNFIT = 1_500, 1_500, 30, 300
TESTS = Path(__file__).resolve().parent.parent
CASES = TESTS / "check" / "cases"
QUERY = '["query","/r",{"program":"p","since":"c:7:9:1:0","sync_timeout":0,"fields":["name"]}]'
LETTERS = ':[],"#\\- \n\t0ax_\u00fc\u202e'


@lru_cache(maxsize=None)
def drawn_files(version: int) -> List[Drawn]:
    return drawn_of(version, DRAWN)


class Asked(NamedTuple):
    """A file, its program, if it has one, what `explain` says of it in its last line, and the lines for the server: to
    add it, and to query by it, if it may run."""

    file: bytes
    program: Optional[Program]
    line: str
    lines: List[str]

    @property
    def may_run(self) -> bool:
        return self.line.startswith("ok ")


class DrawnPrograms(Case):
    def test_texts(self) -> None:
        """The text of each drawn file gives the same bytes."""
        for version in VERSIONS:
            wrong = [drawn.file.hex() for drawn in drawn_files(version) if not comes_back(drawn.file)]
            self.check(f"{DRAWN} drawn programs of version {version}, there and back", not wrong, wrong[:5])

    def test_cases(self) -> None:
        """So does the text of each file of tests/check that can be read, as those at the limits of both versions."""
        cases = [
            case for case in read_cases(CASES.read_text(encoding="utf-8")) if not case.line.startswith("refused F")
        ]
        for case in cases:
            self.check(f"{case.name}, there and back", comes_back(case.data))
        print(f"{len(cases)} files of tests/check as texts")

    def test_other_version(self) -> None:
        """The text of a file of version 1 gives the same program in version 2. That of a file of version 2 gives it in
        version 1, if this can hold it, and else the fault that the version has no such table or instruction."""
        fitting: Dict[bool, int] = {True: 0, False: 0}
        for version, other in ((VERSIONS[1], VERSIONS[2]), (VERSIONS[2], VERSIONS[1])):
            for drawn in drawn_files(version.number)[:DAMAGED]:
                known = read(drawn.file)
                text = disassembled(known, version).encode("utf-8")
                fits = not known.sets and all(map(other.knows, (operation.instruction for operation in known.code)))
                try:
                    is_right = written(assembled(text, other).program, other) == written(known, other) and (
                        fits or other == LATEST
                    )
                except TextFault as fault:
                    is_right = fault.name == "not in this version" and not fits and other != LATEST
                fitting[fits] += other != LATEST
                self.check(f"in version {other.number}, drawn file {drawn.file.hex()}", is_right)
        counts = f"{DAMAGED} drawn programs of version 2: version 1 can hold {fitting[True]}"
        self.check(counts, fitting[True] >= FEWEST_FIT and fitting[False] >= FEWEST_UNFIT)
        print(counts)

    def test_damaged_texts(self) -> None:
        """A text with a letter or a line more or less says a program, or has a named fault."""
        faults = set()
        for version in VERSIONS.values():
            for counter, drawn in enumerate(drawn_files(version.number)[:DAMAGED], 1):
                text = disassembled(read(drawn.file), version)
                try:
                    assembled(damaged(Draws(counter), text).encode("utf-8"))
                except TextFault as fault:
                    faults.add(fault.name)
        self.check("damaged texts have faults of many names", len(faults) >= 8, sorted(faults))

    def test_against_server(self) -> None:
        """Of each drawn program, as it is and with a change, the server says what `explain` says, and answers by it
        what `run` says of each file."""
        for version in VERSIONS:
            self.check_version_against_server(version)

    def check_version_against_server(self, version: int) -> None:
        asked = [asked_of(file) for file in dict.fromkeys(file for drawn in drawn_files(version) for file in drawn)]
        records = records_of(TREE.read_bytes())
        replies = iter(replies_to([line for one in asked for line in one.lines]))
        for number, one in enumerate(asked):
            added = next(replies)
            name = f"drawn file {number + 1} of version {version}: {one.file.hex()}"
            self.check(f"explain, {name}", one.line == line_of(added), [one.line, str(added)])
            if one.may_run and one.program is not None:
                self.check_runs(name, one.program, records, next(replies)["files"], records[number % len(records)])
        ran, file_faults = sum(one.may_run for one in asked), sum(one.program is None for one in asked)
        counts = f"{len(asked)} drawn files of version {version}: {ran} may run, {file_faults} are no program files"
        self.check(counts, ran >= FEWEST_RUN and file_faults >= FEWEST_FILE_FAULTS)
        print(counts)

    def check_runs(self, name: str, found: Program, records: List[Record], listed: List[str], shown: Record) -> None:
        """The files for which the plain machine says yes are those that the server lists, and `run` shows one of the
        runs."""
        names = [record.name.decode() for record in records if run(found, record)[0]]
        self.check(f"run, {name}", names == listed, [str(names), str(listed)])
        answer, cost = run(found, shown)
        last = traced(found, shown).splitlines()[-1]
        self.check(f"the steps of {name}", last.startswith(f"{'yes' if answer else 'no'} at a cost of {cost},"), [last])


def comes_back(file: bytes) -> bool:
    """Whether the text of a file gives its program and its bytes."""
    known = read(file)
    found = assembled(disassembled(known, version_of(file)).encode("utf-8"))
    return written(found.program, found.version) == file and found.program == known


def damaged(draws: Draws, text: str) -> str:
    place = draws.below(len(text))
    change = draws.below(4)
    if change == 0:
        return text[:place] + draws.pick(LETTERS) + text[place:]
    if change == 1:
        return text[:place] + text[place + 1 :]
    lines = text.split("\n")
    place = draws.below(len(lines))
    return "\n".join(lines[:place] + (lines[place : place + 1] * 2 if change == 2 else []) + lines[place + 1 :])


def asked_of(file: bytes) -> Asked:
    add = json.dumps(["program-add", "p", base64.b64encode(file).decode()])
    try:
        found = read(file)
    except FileFault as fault:
        return Asked(file, None, "refused " + file_fault_sentence(fault).split(" at ")[0], [add])
    # The server does not tell the budget.
    line = re.sub(r"^(ok \d+) \d+$", r"\1", explained(found).splitlines()[-1])
    return Asked(file, found, line, [add, QUERY] if line.startswith("ok ") else [add])


def line_of(reply: dict) -> str:
    """The words of `wqd check` for a file, as the reply to `program-add` has them."""
    return "refused " + reply["error"].split(": ")[1] if "error" in reply else f"ok {reply['instructions']}"
