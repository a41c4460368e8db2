"""The definitions of a crate, as its files under specs/ have them, each with the words above it."""

import re
from pathlib import Path
from typing import Iterator, List, NamedTuple, Tuple

DEFINED = re.compile(
    r"^(?P<indent> *)(?:(?:abbrev|unfoldable) )?pub (?:(?:abbrev|unfoldable|data|record) )?(?P<name>[^\s:(){}]+)"
)


class Module(NamedTuple):
    """A file of definitions: its name, the words at its head, and its definitions with their words."""

    name: str
    head: str
    definitions: List[Tuple[str, str]]


def modules_of(crate: Path) -> Iterator[Module]:
    """The files of a crate's definitions, in the order in which one uses the other."""
    lib = crate / "specs" / "Lib.antt"
    if lib.is_file():
        for name in re.findall(r"(?m)^pub mod (\S+)$", lib.read_text(encoding="utf-8")):
            yield read(crate / "specs" / f"{name}.antt")


def read(path: Path) -> Module:
    head: List[str] = []
    definitions: List[Tuple[str, str]] = []
    words: List[str] = []
    fields_at = -1
    is_head = True
    for line in path.read_text(encoding="utf-8").splitlines():
        text, indent = line.strip(), len(line) - len(line.lstrip())
        if fields_at >= 0 and text and indent > fields_at:
            words = []
            continue
        fields_at = -1 if text else fields_at
        if text.startswith("--"):
            (head if is_head else words).append(text[2:].strip())
            continue
        is_head = False
        if re.match(r"(abbrev )?mutual$|infix", text):
            continue
        defined = DEFINED.match(line) if is_declaration(line) else None
        if defined:
            definitions.append((defined["name"], " ".join(words)))
            if re.match(r" *pub (record|data) ", line):
                fields_at = indent
        words = []
    return Module(path.stem, " ".join(head), definitions)


def is_declaration(line: str) -> bool:
    """Whether a line begins a public definition; a field of a record is none."""
    return bool(DEFINED.match(line)) and not line.startswith("pub mod")
