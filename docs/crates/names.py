"""The names of the protocol, as functions of the crates list them: clients/wqclient/names.py has them for clients."""

import re
from pathlib import Path
from typing import List, NamedTuple

HEAD = '"""The names of the protocol. docs/crates/generate writes this file from the sources of the crates."""\n\n'
TEXT = re.compile(r'"([^"]+)"')
# The most columns of a line.
COLUMNS = 120


class Table(NamedTuple):
    """A list of names, and the functions that have them in their bodies, each in quotes: as `FILE FUNCTION`."""

    name: str
    places: List[str]


TABLES = [
    Table("COMMANDS", ["wq_ask/src/command.rt named"]),
    Table(
        "QUERY_KEYS",
        ["wq_query/src/query.rt read", "wq_query/src/options.rt read", "wq_query/src/key.rt has_left_out_key"],
    ),
    Table("FIELDS", ["wq_query/src/field.rt named"]),
    Table("TERMS", ["wq_term/src/head.rt named"]),
    Table("KINDS", ["wq_term/src/parser/word.rt kind_named"]),
    Table("SCOPES", ["wq_term/src/parser/word.rt scope_named"]),
    Table("RELATIONS", ["wq_term/src/parser/word.rt relation_named"]),
    Table("FIELDS_OF_SINCE", ["wq_term/src/parser/word.rt field_named"]),
    Table("FLAGS_OF_MATCH", ["wq_term/src/parser/pattern.rt is_flag"]),
]


# A case of the table that names the commands, and one of the table that gives the function of each.
NAMED = re.compile(r'"([^"]+)" => Some\(Command::(\w+)\)')
ASKED = re.compile(r"((?:Command::\w+(?: \| )?)+) => (ask_\w+)\(")
# The call by which such a function names a root.
NAMES_A_ROOT = "RootText::named("


def names(crates: Path) -> str:
    """The text of the file of names."""
    listed = "".join(list_of(table.name, names_of(crates, table)) for table in TABLES)
    return HEAD + listed + list_of("COMMANDS_OF_A_ROOT", commands_of_a_root(crates / "wq_ask" / "src"))


def names_of(crates: Path, table: Table) -> List[str]:
    """The names of a table, each once."""
    places = [place.split(" ") for place in table.places]
    return list(dict.fromkeys(name for file, function in places for name in names_in(crates / file, function)))


def names_in(file: Path, function: str) -> List[str]:
    found = TEXT.findall(body_of(file.read_text(encoding="utf-8"), function))
    if not found:
        raise ValueError(f"{file}: {function} lists no names")
    return found


def body_of(text: str, function: str) -> str:
    """What is between the head of a function and its end."""
    begin = re.search(rf"^( *)(?:pub(?:\(\w+\))? )?fn {function}\(", text, re.MULTILINE)
    if begin is None:
        raise ValueError(f"there is no function {function}")
    return text[begin.end() : text.index(f"\n{begin[1]}}}", begin.end())]


def commands_of_a_root(source: Path) -> List[str]:
    """The commands whose first argument is a root: the function of each names it."""
    table = (source / "command.rt").read_text(encoding="utf-8")
    text = "\n".join(path.read_text(encoding="utf-8") for path in sorted((source / "command").glob("*.rt")))
    asked = [
        (kind.strip()[len("Command::") :], function)
        for kinds, function in ASKED.findall(table)
        for kind in kinds.split("|")
    ]
    of_a_root = {kind for kind, function in asked if NAMES_A_ROOT in body_of(text, function)}
    return [name for name, kind in NAMED.findall(table) if kind in of_a_root]


def list_of(called: str, names: List[str]) -> str:
    """An assignment, laid out as by black: in one line if it fits, or else with a line for each name."""
    line = f"{called} = [" + ", ".join(f'"{name}"' for name in names) + "]\n"
    if len(line) <= COLUMNS + 1:
        return line
    return f"{called} = [\n" + "".join(f'    "{name}",\n' for name in names) + "]\n"
