"""The public calls of a crate, as its sources have them: the words above each, and what its contract speaks of."""

import re
from pathlib import Path
from typing import Iterator, List, NamedTuple, Set, Tuple

EXPORT = re.compile(r"(?ms)^pub use (?P<module>\w+)::(?:\{(?P<names>[^}]*)\}|(?P<name>\w+));")
BLOCK = re.compile(r"(?:pub )?(?P<kind>impl|trait)\b(?P<rest>.*)")
CALL = re.compile(r"(?:pub )?(?:const )?(?:unsafe )?fn (?P<name>\w+)")
CLAUSE = re.compile(r"\b(?P<kind>requires|ensures)\b(?: (?P<name>\w+))? \{")
USE = re.compile(r"ghost use Rattle\.wq_[\w.]*specs\.[\w.]*\{(?P<names>[^}]*)\};")
WORD = re.compile(r"[A-Za-z_][\w-]*")
LINK = re.compile(r"\[([^\]]*)\](?:\([^)]*\))?")


class Call(NamedTuple):
    """A public call: its name behind that of its type, its words, what it requires, the names of its clauses, and the
    definitions that these use. It has a contract if it has a clause at all."""

    name: str
    words: str
    requires: List[str]
    clauses: List[str]
    used: List[str]
    has_contract: bool


class Source(NamedTuple):
    """A file of a crate: its lines, and the definitions that its contracts may name."""

    lines: List[str]
    known: Set[str]


def calls_of(crate: Path) -> Iterator[Call]:
    """The calls that other crates may make, in the order of the sources' names and lines."""
    exported = exports(crate)
    for path in sorted((crate / "src").rglob("*.rt")):
        if path.name in ("lib.rt", "main.rt"):
            continue
        source = read(path)
        for at, owner in places(source.lines):
            called = CALL.match(source.lines[at].strip())
            name = called["name"] if called else ""
            if owner in exported if owner else name in exported:
                yield call_at(source, at, f"{owner}::{name}" if owner else name)


def exports(crate: Path) -> Set[str]:
    """The names that a crate gives to others."""
    names: Set[str] = set()
    for found in EXPORT.finditer((crate / "src" / "lib.rt").read_text(encoding="utf-8")):
        names.update(word.strip() for word in (found["names"] or found["name"]).split(","))
    return names


def read(path: Path) -> Source:
    text = path.read_text(encoding="utf-8")
    known = {word.split(" as ")[-1].strip() for found in USE.finditer(text) for word in found["names"].split(",")}
    return Source(text.split("\n"), known)


def places(lines: List[str]) -> Iterator[Tuple[int, str]]:
    """The lines at which a public call begins, each with its type or trait, or with nothing if it is of none."""
    owner, is_trait = "", False
    for at, line in enumerate(lines):
        block = BLOCK.match(line)
        if block:
            is_trait = block["kind"] == "trait"
            owner = "" if re.search(r"\bfor\b", block["rest"]) else owner_of(block["rest"])
        elif line == "}":
            owner, is_trait = "", False
        elif line.startswith("pub fn ") or line.startswith("pub const fn "):
            yield at, ""
        elif owner and line.startswith("    pub fn "):
            yield at, owner
        elif owner and is_trait and line.startswith("    fn "):
            yield at, owner


def owner_of(rest: str) -> str:
    """The name of the type or trait that a block is of."""
    bare = re.sub(r"^<[^{]*?>(?= \w)", "", rest.strip())
    found = re.match(r"\s*(\w+)", bare)
    return found[1] if found else ""


def call_at(source: Source, at: int, name: str) -> Call:
    contract = contract_from(source.lines, at)
    found = list(CLAUSE.finditer(contract))
    ends = [clause.start() for clause in found[1:]] + [len(contract)]
    texts = [(clause, contract[clause.end() : end]) for clause, end in zip(found, ends)]
    requires = [" ".join(text.rsplit("}", 1)[0].split()) for clause, text in texts if clause["kind"] == "requires"]
    ensures = [(clause["name"], text) for clause, text in texts if clause["kind"] == "ensures"]
    words = [word for _, text in ensures for word in WORD.findall(text) if word in source.known]
    clauses = [clause for clause, _ in ensures if clause]
    return Call(name, words_above(source.lines, at), requires, clauses, list(dict.fromkeys(words)), bool(ensures))


def contract_from(lines: List[str], at: int) -> str:
    """The text of a function from its name up to its body."""
    indent = lines[at][: len(lines[at]) - len(lines[at].lstrip(" "))]
    taken: List[str] = []
    for line in lines[at:]:
        if line == f"{indent}{{" or line == f"{indent}{{}}":
            break
        taken.append(line.split("//")[0])
        if line.endswith(";") or re.search(r"\) (?:-> .*)?\{$", line):
            break
    return "\n".join(taken)


def words_above(lines: List[str], at: int) -> str:
    """The first paragraph of the comment above a function."""
    above: List[str] = []
    for line in reversed(lines[:at]):
        text = line.strip()
        if text.startswith("///"):
            above.append(text[3:].strip())
        elif not text.startswith(("#[", "using(", "ghost")):
            break
    return LINK.sub(r"\1", first_paragraph(list(reversed(above))))


def first_paragraph(lines: List[str]) -> str:
    taken: List[str] = []
    for line in lines:
        if not line and taken:
            break
        taken.append(line)
    return " ".join(taken)
