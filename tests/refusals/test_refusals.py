"""Whether each place that makes a refusal for want of memory by hand is listed in by_hand.txt, with its cause.

Any function can write `Err(AllocError)`, so no contract can say that a growth was really refused. This list is what can
be said. A refusal that is passed on needs no line: one that `?` passes on, that an `impl From` makes of the kit's
error, that `map_err(AllocError::from)` gives, or that an arm of a `match` makes of another that says no memory.

A line of the list is `FILE FUNCTION CAUSE`, one for each place, in the order of the sources. A cause is one of

  kit     an error of a call of the kit, which has no other cause than that a growth was refused
  passed  a refusal of this project's own that has no other cause, in a form that the arm does not name
  proved  an answer that the call cannot give here: the words say why
  read    an answer that the call does not give here, as the code shows; no clause says it
  limit   a number that is over a limit: the words name it
  handle  the system has no room for a thread or a handle, and the client hears that memory ran out
  gone    the client that asked has gone, so nobody reads the answer
  spent   an earlier refusal left the value so

It sees no change of the condition of a listed place, and no growth that is asked for so that it is refused."""

import re
from collections import Counter
from pathlib import Path
from typing import Iterator, List, NamedTuple

import built
from case import Case

LIST = Path(__file__).resolve().parent / "by_hand.txt"
CAUSES = ("kit", "passed", "proved", "read", "limit", "handle", "gone", "spent")

MADE = re.compile(
    r"\bAllocError\b(?!::from\b)|\b\w+::(?:NoMemory|Memory|OutOfMemory)\b|(?<!fn )\bno_memory\("
    r"|\buse\b[^;]*(?:\bNoMemory\b|\bOutOfMemory\b|\*)"
)
# A type, a parameter, an import or a comparison, and no value that is made. A variant that is imported could be made
# without the name of its type, so its import is refused.
TYPE = re.compile(
    r"\bAllocError\s*>|\bfn .*?(?<!:):\s+&?AllocError\b"
    r"|\buse (?![^;]*(?:\bAllocError as\b|\bNoMemory\b|\bOutOfMemory\b|\*))[^;]*;"
    r"|[=!]=\s*ErrorKind::OutOfMemory\b"
)
FUNCTION = re.compile(r"^\s*(?:pub(?:\([a-z]+\))?\s+)?(?:const\s+)?fn\s+(\w+)")
# The first line after contracts: that of a body, also of a closure's, or of the next item or statement.
ENDS_CLAUSES = re.compile(r"\s*(?:\{|(?:pub|fn|let|if|match|for|while|loop|return)\b)")
CONVERSION = re.compile(
    r"^impl(?:<[^{]*>)?\s+From<(?:[\w:]*::)?(?:AllocError|AllocFailed|TryReserveError|CollectionAllocErr)\b"
)
SAYS_NO_MEMORY = re.compile(r"\b(?:NoMemory|OutOfMemory|Memory)\b|is_memory\(\)")


class Place(NamedTuple):
    file: str
    function: str
    line: int
    text: str


def code_of(line: str) -> str:
    """A line without its comment."""
    return re.sub(r"//.*$", "", line)


def is_made(line: str) -> bool:
    """Whether a line of code makes a refusal for want of memory, and does not only name or pass it on."""
    left, arrow, right = line.partition("=>")
    if arrow and all(SAYS_NO_MEMORY.search(pattern) for pattern in left.split("|")):
        return False
    value = right if arrow else left
    return bool(MADE.search(TYPE.sub("", value)))


def places_in(path: Path) -> Iterator[Place]:
    function, in_conversion, in_clause = "", False, False
    for number, whole in enumerate(path.read_text("utf-8").splitlines(), 1):
        line = code_of(whole)
        if line and not line[0].isspace():
            in_conversion = bool(CONVERSION.match(line)) or in_conversion and line.startswith(("where", "{"))
        named = FUNCTION.match(line)
        if named:
            function = named.group(1)
        if re.match(r"\s*(?:ghost|ensures|requires)\b", line):
            in_clause = True
        elif in_clause and (not line.strip() or ENDS_CLAUSES.match(line)):
            in_clause = False
        if not in_clause and not in_conversion and is_made(line):
            yield Place(path.relative_to(built.TOP).as_posix(), function, number, line.strip())


def found() -> List[Place]:
    paths = sorted((built.TOP / "crates").glob("*/src/**/*.rt"))
    return [place for path in paths for place in places_in(path)]


class Refusals(Case):
    def test_places(self) -> None:
        """Each place has a line, and each line a place."""
        lines = LIST.read_text("utf-8").splitlines()
        listed = Counter(" ".join(line.split(" ", 2)[:2]) for line in lines if line and not line.startswith("#"))
        for place in found():
            name = f"{place.file} {place.function}"
            self.check(f"{place.file}:{place.line}: {place.text}", listed[name], ["it makes a refusal by hand"])
            listed[name] -= 1
        self.same("lines whose place makes no refusal", +listed, Counter())

    def test_causes(self) -> None:
        for number, line in enumerate(LIST.read_text("utf-8").splitlines(), 1):
            if line and not line.startswith("#"):
                cause = line.split(" ", 2)[2:]
                word, _, rest = "".join(cause).partition(": ")
                self.check(f"{LIST.name}:{number} has a cause and its words", word in CAUSES and rest, [line])
