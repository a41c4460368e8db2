"""Whether the libraries have the public types, traits and calls that the file `calls` lists, each in its shape; and
whether docs/DECISIONS.md has a row for each that differs, and no other row. The calls of docs/LIBRARY.md are there. A
program of the tests makes each planned call."""

import re
from pathlib import Path
from typing import Dict, Iterator, List, NamedTuple, Optional, Set

import built
from case import Case
from shapes import CRATES, Declared, declared, shape_of_call, shape_of_type, shapes_of

PLAN = Path(__file__).resolve().parent / "calls"
DECISIONS = built.TOP / "docs" / "DECISIONS.md"
LIBRARY = built.TOP / "docs" / "LIBRARY.md"
SECTION = "## Calls that differ"
NAMES = [path.name for path in sorted(CRATES.iterdir())]
# The programs of tests, which are compiled without proof, and the crate of tests.
PROGRAMS = [*built.TOP.glob("tests/*/*.rattle"), *CRATES.glob("wq_tests/src/*.rt")]


class Row(NamedTuple):
    """A row of the table: what was planned, and what there is."""

    planned: List[str]
    now: List[str]

    def is_of_crate(self) -> bool:
        """Whether it says in which crates the calls of a planned crate are."""
        return all(re.fullmatch(r"wqd|wq_\w+", text) for text in self.planned)


class Account(NamedTuple):
    """The rows of DECISIONS: crates whose calls are in other crates, words that have another name, and all others."""

    places: Dict[str, List[str]]
    words: Dict[str, str]
    rows: List[Row]


def plan() -> List[Declared]:
    lines = PLAN.read_text(encoding="utf-8").splitlines()
    cut = [line.split(": ", 1) for line in lines if line and not line.startswith("#")]
    return [declared(text)._replace(crate=crate) for crate, text in cut]


def account(names: Set[str]) -> Account:
    section = DECISIONS.read_text(encoding="utf-8").split(f"{SECTION}\n")[1].split("\n## ")[0]
    rows = [Row(*cells[:2]) for cells in cells_of(section)]
    places = {name: row.now for row in rows if row.is_of_crate() for name in row.planned}
    others = [row for row in rows if not row.is_of_crate()]
    words = {row.planned[0]: row.now[0] for row in others if declared(row.planned[0]).name not in names}
    return Account(places, words, [row for row in others if row.planned[0] not in words])


def cells_of(page: str) -> Iterator[List[List[str]]]:
    """Of each row that begins with code, the texts in code of each cell."""
    for line in re.findall(r"(?m)^\| `.*$", page):
        yield [re.findall(r"`([^`]+)`", cell) for cell in line.split(" | ")]


def found(call: Declared, account: Account) -> Optional[str]:
    """The shape of a planned name in the crates where it may be."""
    places = [shapes_of(crate) for crate in account.places.get(call.crate, [call.crate])]
    return next((shapes[call.name] for shapes in places if call.name in shapes), None)


def is_as_planned(call: Declared, account: Account) -> bool:
    shape = found(call, account)
    # A word with another name may also be that of a variant, which keeps it.
    words = re.sub(r"\w+", lambda word: account.words.get(word[0], word[0]), call.shape)
    return shape is not None and (call.is_as(shape) or call._replace(shape=words).is_as(shape))


def is_called(name: str, program: str) -> bool:
    """Whether a program names the crate's function and calls it; or names the type or trait of a method, and calls a
    method of this name or has a body of it."""
    owner, _, call = name.rpartition("::")
    called = rf"{call}(?:::<[^;()]*>)?\("
    if not owner:
        is_named = re.search(rf"\buse wq_\w+::(?:\{{[^}}]*\b)?{call}\b", program)
        return bool(is_named and re.search(rf"(?<![.\w]){called}", program))
    is_of_trait = re.search(rf"\bimpl\b[^;{{]*\b{owner}\b[^;{{]* for ", program)
    if is_of_trait and re.search(rf"\bfn {call}\b", program):
        return True
    is_named = re.search(rf"\b{owner}\b", program)
    return bool(is_named and re.search(rf"(?:\b{owner}::|\.\s*){called}", program))


def is_there(text: str) -> bool:
    """Whether a crate has what a text names, in the shape that the text has."""
    named = declared(text)
    owner, _, member = named.name.rpartition("::")
    for shapes in (shapes_of(crate) for crate in NAMES if named.crate in ("", crate)):
        if named.name in shapes and named.is_as(shapes[named.name]):
            return True
        if not named.shape and member in re.findall(r"\w+", shapes.get(owner, "")):
            return True
    return text in NAMES


class Calls(Case):
    def setUp(self) -> None:
        super().setUp()
        self.plan = plan()
        self.account = account({call.name for call in self.plan})
        self.named = [declared(text) for row in self.account.rows for text in row.planned]

    def test_each_is_as_planned_or_has_a_row(self) -> None:
        names = {call.name for call in self.named}
        for call in self.plan:
            shape = found(call, self.account)
            details = [f"planned: {call.shape}", f"found: {shape}", f"no row of {DECISIONS.name} names it"]
            self.check(f"{call.crate}: {call.name}", is_as_planned(call, self.account) or call.name in names, details)

    def test_each_row_names_what_differs(self) -> None:
        planned = {call.name: call for call in self.plan}
        for call in self.named:
            self.check(f"{call.name} is planned so", call.name in planned and call.is_as(planned[call.name].shape))
            self.check(f"{call.name} differs", not is_as_planned(planned.get(call.name, call), self.account))
        twice = [call.name for call in self.named if sum(call.name == other.name for other in self.named) > 1]
        self.same("names with two rows", twice, [])

    def test_each_crate_of_a_row_has_calls_of_it(self) -> None:
        for crate, places in self.account.places.items():
            names = [call.name for call in self.plan if call.crate == crate]
            elsewhere = [name for name in names if name not in shapes_of(crate)]
            self.check(f"calls of {crate} are elsewhere", elsewhere)
            for place in places:
                self.check(f"{place} has calls of {crate}", any(name in shapes_of(place) for name in names))

    def test_each_word_of_a_row_has_another_name(self) -> None:
        words = {word for call in self.plan for word in re.findall(r"\w+", call.shape)}
        for word, name in self.account.words.items():
            shapes = [shape for crate in NAMES for shape in shapes_of(crate).values()]
            self.check(f"{word} is planned", word in words)
            self.check(f"{name} is there", any(name in re.findall(r"\w+", shape) for shape in shapes))

    def test_what_rows_say_of_today_is_there(self) -> None:
        for row in self.account.rows:
            for text in row.now:
                self.check(f"{text} is there", is_there(text))

    def test_each_call_is_made_by_a_program_of_the_tests(self) -> None:
        programs = [re.sub(r"//[^\n]*", "", path.read_text(encoding="utf-8")) for path in PROGRAMS]
        for call in self.plan:
            if call.shape.startswith("("):
                name = call.name if found(call, self.account) else self.name_today(call)
                self.check(f"a program calls {name}", any(is_called(name, program) for program in programs))

    def name_today(self, call: Declared) -> str:
        """The name of what is there in place of a planned call."""
        rows = [row for row in self.account.rows if call.name in {declared(text).name for text in row.planned}]
        return next((declared(text).name for row in rows for text in row.now), call.name)

    def test_calls_of_the_guide_are_there(self) -> None:
        for cells in cells_of(LIBRARY.read_text(encoding="utf-8")):
            for text in cells[0]:
                self.check(f"{text} of {LIBRARY.name} is there", is_there(text))

    def test_each_planned_crate_is_there_or_has_a_row(self) -> None:
        crates = {call.crate for call in self.plan} - self.account.places.keys()
        self.same("planned crates that are not there", sorted(crates - set(NAMES)), [])


class Shapes(Case):
    def test_calls(self) -> None:
        for text, expected in [
            ("pub fn len(&self) -> usize\n    ensures { it }\n", "(&self) -> usize"),
            ("pub fn clear(&mut self);", "(&mut self)"),
            ("pub fn new(alloc: Global, mut rows: Vec<Seen>) -> Pass {", "(Vec<Seen>) -> Pass"),
            ("pub fn add(&mut self, alloc: Global) -> u8 {", "(&mut self, Global) -> u8"),
            (
                "pub fn of<'a, F: Fn(u8) -> u8>(\n    of: F,\n    map: &'a Map<u8, T>,\n) -> Of<'a>",
                "(F, &Map<u8, T>) -> Of",
            ),
        ]:
            self.same(text, shape_of_call(text), expected)

    def test_what_calls(self) -> None:
        for name, program, expected in [
            ("of", "use wq_a::{b, of};\nof(1)", True),
            ("of", "use crate::a::of;\nof(1)", False),
            ("of", "use wq_a::of;\na.of(1)", False),
            ("A::of", "use wq_a::A;\nA::of(1)", True),
            ("A::of", "fn b(a: &A) { a.of::<u8>(1) }", True),
            ("A::of", "impl A for B {\n    fn of() {}\n}", True),
            ("A::of", "a.of(1)", False),
        ]:
            self.same(f"{name} in {program}", is_called(name, program), expected)

    def test_types(self) -> None:
        self.same(
            "fields",
            shape_of_type("struct", "{\n    pub a: u8,\n    b: u8,\n    pub c: Of<'a>,\n}"),
            "{ a: u8, c: Of }",
        )
        self.same(
            "variants",
            shape_of_type("enum", "{\n    A,\n    B(u8, &'a str),\n    C { d: u8 },\n}"),
            "{ A, B(u8, &str), C {d: u8} }",
        )

    def test_what_is_like_a_declaration(self) -> None:
        for text, shape, expected in [
            ("struct A", "{ a: u8 }", True),
            ("struct A { a }", "{ a: u8 }", True),
            ("struct A { a: u16 }", "{ a: u8 }", False),
            ("struct A { a }", "{ a: u8, b: u8 }", False),
            ("enum A { B, C(u8) }", "{ C(u8), B(u16) }", True),
            ("A::b(&self) -> Result<u8, ..>", "(&self) -> Result<u8, Fault>", True),
            ("A::b(&self) -> u8", "(&self) -> u16", False),
        ]:
            self.same(f"{text} for {shape}", declared(text).is_as(shape), expected)
