"""Compiles expressions by `wq_compile`, and has the programs run on the files of a small view.

The expressions of `cases` and those of the user's reference have the programs that stand there. Drawn ones have those
of a plain compiler. Each program may run, and for each file its run answers what a plain machine answers, in as many
steps, and what the expression means: by `wq_term`, and by the plain program. What calls `wq_compile` is main.rattle; it
is compiled without proof beside the crates."""

import re
from collections import Counter
from pathlib import Path
from typing import Any, Iterator, List, NamedTuple, Optional

import built
import generate_terms
from case import Case
from case_file import data_of, groups
from cases import count_term, expected_cases, terms_in
from document import Table, read_page
from draws import Draws, array
from notation import expand
from replay import Turn, turns
from scripted import FIRST, FIRST_ROOT
from unproved import answers
from views import View
from wqprogram import json_values
from wqprogram.compiler import TooLarge, compiled
from wqprogram.errors import Refused
from wqprogram.machine import run as plain_run
from wqprogram.program_file import LATEST, FileFault, Program, read
from wqprogram.records import Record
from wqprogram.terms import COMBINATIONS, Test, read_term
from wqprogram.verifier import LONGEST_NAME, budget_of, refusal_of

HERE = Path(__file__).resolve().parent
DRAWN = 900
FEWEST_PROGRAMS = 600
FEWEST_PAIRS = 10_000
DEEPEST = 6

# The first words of the cases of `tests/plain/cases.py` that drawn expressions have to have.
COUNTED = ["term", "since", "type", "relation", "name", "iname", "match", "imatch", "atom"]


class Asked(NamedTuple):
    """An expression, as a line says it to main.rattle and in JSON; and maybe the file of its program, what is said of
    it, and the names that match. One that has no files is asked before the passes."""

    name: str
    line: str
    value: Any
    file: Optional[bytes] = None
    says: Optional[str] = None
    matches: Optional[List[str]] = None
    has_files: bool = True


def view_of(tree: bytes) -> View:
    """The view of the plain program after the passes of a tree."""
    last = list(turns(tree + b'ask 1 ["clock","/r"]\n'))[-1]
    assert isinstance(last, Turn)
    return last.view


def asked(name: str, expression: str, *known: Any) -> Asked:
    return Asked(name, f"ask {expression}", json_values.read(expression.encode()), *known)


def cases_of_file() -> Iterator[Asked]:
    for group in groups((HERE / "cases").read_text(encoding="utf-8")):
        file = data_of(group, LATEST.number) if "code" in group else None
        matches = group["matches"].split() if "matches" in group else None
        if "list" in group:
            case = Asked(group["name"], f"list {group['list']}", list_value(group["list"]), file, group["says"])
        else:
            case = asked(group["name"], expand(group["expression"]), file, group["says"], matches)
        yield case._replace(has_files="without files" not in group)


def list_value(words: str) -> Any:
    """The expression of a `list`."""
    head, count = words.split()
    return ["not", ["allof", "exists", [head, ["", *["c"] * (int(count) - 1)]]]]


def cases_of_page() -> Iterator[Asked]:
    """The tables of the user's reference that have an expression and its program."""
    page = read_page((built.TOP / "docs" / "PROGRAMS.md").read_text(encoding="utf-8"))
    tables = [Table(element.lines) for element in page.elements if element.kind == "table"]
    for row in (row for table in tables for row in table.rows if {"expression", "program"} <= set(row)):
        constants = dict(code.split(": ", 1) for code in row["constants"].codes())
        file = data_of({"code": row["program"].codes()[0], **constants}, LATEST.number)
        yield asked(f"docs/PROGRAMS.md: {row['expression'].shown}", row["expression"].codes()[0], file)


def drawn_cases(view: View) -> Iterator[Asked]:
    names = [record.name.decode() for record in view.records]
    world = generate_terms.World(names, view.tick, [100, 200, 300])
    for counter in range(1, DRAWN + 1):
        draws = Draws(counter)
        yield asked(f"drawn expression {counter}", nested(draws, world, draws.below(DEEPEST)))


def nested(draws: Draws, world: generate_terms.World, levels: int) -> str:
    """So many levels of terms with terms in them, and more now and then."""
    if levels == 0:
        return generate_terms.term(draws, world, 1)
    head = draws.pick(list(COMBINATIONS))
    inner = [generate_terms.term(draws, world, 0) for _ in range(0 if head == "not" else draws.below(4))]
    inner.insert(draws.below(len(inner) + 1), nested(draws, world, levels - 1))
    return array(draws, [f'"{head}"', *inner])


def depth_of(value: Any) -> int:
    inner = value[1:] if isinstance(value, list) and value[0] in COMBINATIONS else []
    return 1 + max(map(depth_of, inner), default=0)


class Made(NamedTuple):
    """A program or none; what is said of it; and for each file what a run answers in how many steps, and what the
    expression means."""

    program: Optional[Program]
    says: str
    answers: List[str]


def made_of(line: str) -> Made:
    program = re.fullmatch(r"([^ ]+) (length [0-9]+, budget [0-9]+ to [0-9]+)(.*)", line)
    if program is None:
        return Made(None, line, [])
    file, says, answers = program.groups()
    try:
        return Made(read(bytes.fromhex(expand(file).replace(".", "00"))), says, answers.split())
    except FileFault:
        return Made(None, f"no program file: {line}", [])


def expected_for(value: Any, view: View) -> Made:
    """What the plain compiler, the plain machine and the plain program say."""
    try:
        test = read_term(value, FIRST)
        program = compiled(value, FIRST)
    except Refused as refused:
        return Made(None, f"refused {refused.error.split(': ')[1]}", [])
    except TooLarge as large:
        return Made(None, f"too large, length {large.length}", [])
    least, most = (budget_of(program, length) for length in (0, LONGEST_NAME))
    answers = [answer(program, test, record) for record in view.records]
    return Made(program, f"length {len(program.code) - 1}, budget {least} to {most}", answers)


def answer(program: Program, test: Test, record: Record) -> str:
    is_yes, steps = plain_run(program, record)
    return f"{flag(is_yes)}{steps}/{flag(test(record))}"


def flag(is_yes: bool) -> str:
    return "y" if is_yes else "n"


class Expressions(Case):
    def check_one(self, case: Asked, written: Made, expected: Made, view: View) -> None:
        """Whether the program is as the plain compiler makes it and the case says, may run, and answers as it has
        to."""

        def expect(what: str, is_right: bool) -> None:
            self.check(f"{case.name}: {what}", is_right, details(case, written, expected))

        expect("the plain compiler and the plain machine", written == expected)
        if written.program is not None:
            expect("may run", refusal_of(written.program) is None)
            expect("an answer for each file", len(written.answers) == len(view.records))
            expect("means what the expression means", all(answer[0] == answer[-1] for answer in written.answers))
        if case.file is not None:
            expect("the program", written.program == read(case.file))
        if case.says is not None:
            expect("what is said", written.says == case.says)
        if case.matches is not None:
            expect("the files", matched(written, view) == case.matches)

    def test_expressions(self) -> None:
        tree = (HERE / "tree").read_bytes()
        empty, view = view_of(b""), view_of(tree)
        page, drawn = list(cases_of_page()), list(drawn_cases(view))
        known = [*cases_of_file(), *page]
        early = [case for case in known if not case.has_files]
        cases = early + [case for case in known if case.has_files] + drawn
        lines = [case.line for case in cases]
        lines[len(early) : len(early)] = tree.decode().splitlines()
        written = [made_of(line) for line in answers(HERE, lines)]
        self.assertEqual(len(written), len(cases))
        for case, one in zip(cases, written):
            seen = view if case.has_files else empty
            self.check_one(case, one, expected_for(case.value, seen), seen)
        self.check("docs/PROGRAMS.md has programs of expressions", len(page) > 0)
        self.check_counts(view, drawn, written[-len(drawn) :])
        print(f"{len(known)} other expressions; {len(view.records)} files")

    def check_counts(self, view: View, cases: List[Asked], made: List[Made]) -> None:
        """Whether there are enough drawn expressions, and each term, argument and depth is among them."""
        counts: Counter = Counter()
        programs = [case.value for case, one in zip(cases, made) if one.program is not None]
        for value in programs:
            counts[f"depth {depth_of(value)}"] += 1
            for term in terms_in(value):
                count_term(term, FIRST_ROOT, view, counts)
        wanted = [name for name in expected_cases() if name.split()[0] in COUNTED]
        wanted += [f"depth {depth}" for depth in range(1, DEEPEST + 1)]
        for name in wanted:
            self.check(f"drawn expressions have the case: {name}", counts[name] > 0)
        pairs = sum(len(one.answers) for one in made)
        self.check("how many programs", len(programs) >= FEWEST_PROGRAMS and pairs >= FEWEST_PAIRS)
        print(f"{len(cases)} drawn expressions, {len(programs)} of them with programs: {pairs} pairs with a file")


def matched(made: Made, view: View) -> List[str]:
    pairs = zip(view.records, made.answers)
    return [record.name.decode() for record, answer in pairs if answer.startswith("y")]


def details(case: Asked, written: Made, expected: Made) -> Iterator[str]:
    for line in (case.line, f"expected: {expected}", f"written:  {written}", f"known:    {case.says} {case.matches}"):
        yield line[:2_000]
