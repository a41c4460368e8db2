"""The dear lines that one client can send to the server, and the lines that have to come before them."""

import base64
import functools
import json
from typing import Callable, Dict, List, NamedTuple

from wqclient.names import FIELDS
from wqprogram.instructions import BY_NAME
from wqprogram.program_file import Operation, Program, written

LONGEST_LINE = 1_048_576
NAMES: Dict[str, object] = {"fields": ["name"]}
ATOMS = 255
# Nearly as many patterns as the program of one expression holds, and as many as a program of a client's own does.
PATTERNS = 1_000
# A file of version 1 has room for so many matches, and one of version 2 for more.
MATCHES = 1_365
MORE_MATCHES = 20_000
# A pattern that is looked for at each place of a name.
MARKS = "*" + "?" * (ATOMS - 1)
PROGRAMS = 256
CURSORS = 256
# A session may have so many subscriptions, and a root so many triggers.
FOLLOWS = 64
TEXTS = 256
LINES = 100_000
MOST_ENTRIES = 65_535


class Case(NamedTuple):
    """The lines of a client, which reads all replies, none before it has sent all lines, or none at all. What they make
    the server keep begins with other lines."""

    lines: List[bytes]
    before: List[bytes] = []
    reads: str = "always"


Makes = Callable[[], Case]


def line(*command: object) -> bytes:
    return json.dumps(list(command), separators=(",", ":")).encode() + b"\n"


def query(root: str, **asked: object) -> bytes:
    keys: Dict[str, object] = {"sync_timeout": 0, **NAMES, **asked}
    return line("query", root, keys)


def filled(begin: str, part: str, end: str) -> bytes:
    """A line as long as a line may be, with as many of these parts as it holds."""
    count = (LONGEST_LINE - len(begin) - len(end)) // len(part)
    return (begin + (part * count)[:-1] + end).encode() + b"\n"


def nots(root: str) -> bytes:
    expression: object = "exists"
    for _ in range(63):
        expression = ["not", expression]
    return query(root, expression=expression)


def texts(count: int, letters: int) -> List[str]:
    return [f"{number:0{letters}x}" for number in range(count)]


def patterns(root: str, count: int, first: int = 0, **asked: object) -> bytes:
    numbers = range(first, first + count)
    terms = [["match", f"{number:0>{ATOMS - 1}}?", "wholename"] for number in numbers]
    return query(root, expression=["anyof", *terms], **asked)


def stars(root: str, count: int) -> bytes:
    terms = [["match", "*a" * 127 + str(number % 10), "wholename"] for number in range(count)]
    return query(root, expression=["anyof", *terms])


def marks(root: str, count: int) -> bytes:
    return query(root, expression=["anyof", *[["match", MARKS]] * count])


def matching(name: str, pattern: str, count: int) -> str:
    """A program that looks so many times whether a name fits a pattern."""
    code = [Operation(BY_NAME[word], 0, 0) for word in [name, "match", "drop"] * (count - 1) + [name, "match", "ret"]]
    return base64.b64encode(written(Program([], [], [], [(0, pattern.encode())], [], code))).decode()


def dear_program() -> str:
    """The program of version 1 with the greatest budget, or about it. A star makes a pattern take longer."""
    return matching("basename", "?" * ATOMS, MATCHES)


def large_program() -> str:
    """A program whose line is about as long as a line may be."""
    code = [Operation(BY_NAME["basename"], 0, 0), Operation(BY_NAME["oneof"], 0, 0), Operation(BY_NAME["ret"], 0, 0)]
    program = Program([], [], [[text.encode() for text in texts(MOST_ENTRIES, 9)]], [], [], code)
    return base64.b64encode(written(program)).decode()


def sets_program() -> str:
    """A program of as many patterns of a byte as a line holds, in sets: open it takes fifty times the bytes of its
    file."""
    code = [Operation(BY_NAME["basename"], 0, 0), Operation(BY_NAME["anymatch"], 0, 0), Operation(BY_NAME["ret"], 0, 0)]
    program = Program([], [], [], [], [[(0, b"a")] * (MOST_ENTRIES - 535)] * 4, code)
    return base64.b64encode(written(program)).decode()


def added(program: str) -> List[bytes]:
    """Lines that add this program under as many names as there may be."""
    return [line("program-add", str(number), program) for number in range(PROGRAMS)]


def long_queries(root: str) -> List[bytes]:
    """Queries without files, each of which has a text of a mebibyte that no other has."""
    long = LONGEST_LINE - 200 - len(root)
    return [query(root, path=["x"], **{"x": f"{number:0>{long}}"}) for number in range(TEXTS)]


def long_expressions(root: str) -> List[bytes]:
    """Queries without files, each of which has an expression of a mebibyte that no other has."""
    return [query(root, path=["x"], expression=long_names(number)) for number in range(TEXTS)]


def short_expressions(root: str, names: int) -> List[bytes]:
    """Queries without files, each of which has a term for so many names, in an order that no other has."""
    terms = [["name", f"{number:x}"] for number in range(names)]
    return [query(root, path=["x"], expression=["anyof", ["name", str(number)], *terms]) for number in range(TEXTS)]


def long_names(number: int) -> object:
    """An expression of some 60,000 names that no other number has: nearly a mebibyte."""
    return ["name", [f"{number}", *texts(60_000, 13)]]


def subscriptions(root: str) -> List[bytes]:
    """As many subscriptions as a session may have, each of a mebibyte."""
    return [
        line("subscribe", root, f"s{number}", {**NAMES, "expression": long_names(number)}) for number in range(FOLLOWS)
    ]


def triggers(roots: List[str]) -> List[bytes]:
    """As many triggers as these roots may have, each of a mebibyte."""
    return [
        line("trigger", root, {"name": f"t{number}", "command": ["true"], "expression": long_names(number)})
        for root in roots
        for number in range(FOLLOWS)
    ]


def cursors(roots: List[str]) -> List[bytes]:
    names = [f"{number:0>250}" for number in range(CURSORS)]
    return [query(root, since=f"n:{name}", path=[]) for root in roots for name in names]


def pipelined(root: str) -> Dict[str, bytes]:
    """A line of each kind, the replies to which are short."""
    return {
        "version": line("version"),
        "clock": line("clock", root),
        "watch-list": line("watch-list"),
        "watch": line("watch", root),
        "trigger-list": line("trigger-list", root),
        "program-list": line("program-list"),
        "query": query(root, path=["x"]),
        "no JSON": b"[\n",
    }


def cases(root: str, roots: List[str], paths: int) -> Dict[str, Makes]:
    """Each case by its name."""
    found = {**of_a_line(root, paths), **of_programs(root), **of_many_lines(root, roots)}
    for name, one in pipelined(root).items():
        for reads in ("late", "never"):
            found[f"100,000 lines: {name}, read {reads}"] = functools.partial(Case, [one * LINES], reads=reads)
    return found


def of_a_line(root: str, paths: int) -> Dict[str, Makes]:
    """The cases in which one line is dear."""
    begin = f'["query","{root}",'
    return {
        "1 MiB of 0,": lambda: Case([filled('["x",', "0,", "]")]),
        '1 MiB of {"":0},': lambda: Case([filled('["x",', '{"":0},', "]")]),
        "1 MiB of [": lambda: Case([b"[" * LONGEST_LINE + b"\n"]),
        "63 not": lambda: Case([nots(root)]),
        "a name list of 65,535 entries": lambda: Case([query(root, expression=["name", texts(MOST_ENTRIES, 12)])]),
        "a name list of 262,000 entries": lambda: Case([filled(begin + '{"expression":["name",[', '"a",', "]]}]")]),
        "1,000 patterns of 255 atoms": lambda: Case([patterns(root, PATTERNS)]),
        "1,000 patterns of 127 stars": lambda: Case([stars(root, PATTERNS)]),
        "1,000 patterns of a star and 254 marks": lambda: Case([marks(root, PATTERNS)]),
        f"{paths:,} empty paths": lambda: Case([query(root, path=[""] * paths, expression="false")]),
        "262,000 suffixes": lambda: Case([filled(begin + '{"sync_timeout":0,"suffix":[', '"a",', "]}]")]),
        "all files with all fields": lambda: Case([query(root, fields=FIELDS)]),
    }


def of_programs(root: str) -> Dict[str, Makes]:
    """The cases of programs that a client adds."""
    asked = [query(root, program="p")]
    return {
        "a program of 1,365 patterns": lambda: Case(asked, before=[line("program-add", "p", dear_program())]),
        "20,000 matches of a star and 254 marks": lambda: Case(
            asked, before=[line("program-add", "p", matching("wholename", MARKS, MORE_MATCHES))]
        ),
        "256 programs of 1,365 patterns": lambda: Case(added(dear_program())),
        "256 programs of a mebibyte": lambda: Case(added(large_program())),
        "256 programs of a mebibyte of sets": lambda: Case(added(sets_program())),
    }


def of_many_lines(root: str, roots: List[str]) -> Dict[str, Makes]:
    """The cases in which the server keeps something of each line."""
    watches = [line("watch", other) for other in roots]
    return {
        "256 queries of a mebibyte": lambda: Case(long_queries(root)),
        "256 expressions of a mebibyte": lambda: Case(long_expressions(root)),
        "256 expressions of 300 names": lambda: Case(short_expressions(root, 300)),
        "256 expressions of 1,000 names": lambda: Case(short_expressions(root, 1_000)),
        "64 subscriptions of a mebibyte": lambda: Case(subscriptions(root)),
        "64 triggers of a mebibyte": lambda: Case(triggers([root])),
        "64 triggers of a mebibyte at 16 roots": lambda: Case(triggers(roots), before=watches),
        "16 expressions of 1,000 patterns": lambda: Case([patterns(root, PATTERNS, n, path=["x"]) for n in range(16)]),
        "256 cursors at 16 roots": lambda: Case(cursors(roots), before=watches),
    }
