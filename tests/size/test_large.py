"""Replays a tree of 100,000 files in the built program: every field, and expressions at their limits.

The plain program says what each reply has to be. Where it would take too long, a simple rule of the same meaning
stands for the expression, and says so.
"""

import json
from typing import Dict, List, NamedTuple, Optional, Set


import built
from case import Case
from queries import FIELDS, read_query, reply_to
from replay import read_line
from views import History, Row, View, pass_of
from wqprogram.errors import PROGRAM_TOO_LARGE
from wqprogram.json_values import compact_text
from wqprogram.limits import MAX_ROWS
from wqprogram.records import Record
from wqprogram.terms import Test

FILES = 100_000
CHANGES = 1_000
DIRECTORIES = 317
LETTERS = "ffffffdlbcpsD?"


class Asked(NamedTuple):
    """A query, and the test that stands for its expression where the plain program's own would take too long."""

    name: str
    asked: Dict[str, object]
    test: Optional[Test] = None


class Large(Case):
    def test_queries(self) -> None:
        first, second = [row(number) for number in range(FILES)], changed_rows()
        view = view_of([first, second])
        cases = [*field_cases(), *expression_cases(), *generator_cases()]
        script = pass_text(first, 100) + pass_text(second, 101)
        script += b"".join(b'ask 1 ["query","/r",%s]\n' % compact_text(case.asked).encode() for case in cases)
        ended = built.replay(script)
        self.check("the script ends well", (ended.errors, ended.status) == (b"", 0), [built.excerpt(ended.errors)])
        replies = ended.output.split(b"\n")
        self.check("every query has a reply", len(replies) == len(cases) + 1 and replies[-1] == b"", [])
        for case, reply in zip(cases, replies):
            expected = b"1 " + compact_text(expected_reply(case, view)).encode()
            self.check(case.name, reply == expected, [f"expected: {built.excerpt(expected)}", built.excerpt(reply)])

    def test_programs(self) -> None:
        longest = ["allof", *["true"] * 21_844, ["not", ["not", "true"]]]
        asked = [
            ("an allof of 21,845 terms", ["allof", *["true"] * 21_845], True),
            ("a program of 65,536 instructions", longest, True),
            ("a program of 65,537 instructions", ["not", longest], False),
            ("an allof of 21,846 terms", ["allof", *["true"] * 21_846], False),
            ("a name list of 65,536 texts", ["name", ["a"] * 65_536], True),
            ("a name list of 65,537 texts", ["name", ["a"] * 65_537], False),
            ("a suffix list of 65,537 texts, one of them empty", ["suffix", ["", *["c"] * 65_536]], True),
            ("a suffix list of 65,537 texts", ["suffix", ["c"] * 65_537], False),
        ]
        script = b"".join(b'ask 1 ["query","/r",%s]\n' % compact_text({"expression": e}).encode() for _, e, _ in asked)
        replies = built.replay(script).output.split(b"\n")
        listed = b'1 {"clock":"c:7:9:1:0","files":[],"is_fresh_instance":true,"version":"wq-1"}'
        refused = b'1 {"error":"%s","version":"wq-1"}' % PROGRAM_TOO_LARGE.encode()
        for (name, _, has_program), reply in zip(asked, replies):
            self.check(name, reply == (listed if has_program else refused), [built.excerpt(reply)])

    def test_patterns(self) -> None:
        fitting = [
            ("*.c", 0),
            ("**/*.c", 25_000),
            ("src/**/test_*.[ch]", 10_000),
            ("**/test_*", 20_000),
            ("docs/**", 25_000),
            ("**", FILES),
            ("*a" * 127 + "*", 0),
        ]
        script = pass_text([b"f 1 1 " + source_path(number) for number in range(FILES)], 1)
        for pattern, _ in fitting:
            asked = {"expression": ["match", pattern, "wholename"], "fields": ["name"]}
            script += b'ask 1 ["query","/r",%s]\n' % compact_text(asked).encode()
        replies = built.replay(script).output.split(b"\n")
        for (pattern, count), reply in zip(fitting, replies):
            listed = len(json.loads(reply[2:]).get("files", ["none"])) if reply.startswith(b"1 {") else None
            self.check(f"paths that fit {pattern[:20]}", listed == count, [f"{listed}", built.excerpt(reply)])

    def test_most_rows(self) -> None:
        rows = b"".join(b"f 1 1 %d\n" % number for number in range(MAX_ROWS))
        question = b'ask 1 ["query","/r",{"expression":["name",["0","999999","1000000"]],"fields":["name"]}]\n'
        ended = built.replay(b"pass 1\n" + rows + b"end\n" + question)
        reply = b'1 {"clock":"c:7:9:1:1","files":["0","999999"],"is_fresh_instance":true,"version":"wq-1"}\n'
        self.check("a million rows", ended == built.Ended(reply, b"", 0), [str(ended)])
        ended = built.replay(b"pass 1\n" + rows + b"f 1 1 more\nend\n" + question)
        expected = built.Ended(b"", b"script line %d\n" % (MAX_ROWS + 3), 1)
        self.check("a row over a million", ended == expected, [str(ended)])


def row(number: int) -> bytes:
    """Each 500th name has from 120 to 134 letters a, and each 1,000th a dot before them."""
    letters = b"a" * (120 + number // 500 % 15) if number % 500 == 0 else b"banana" * (number % 4)
    dot = b"." if number % 1000 == 0 else b""
    letter = LETTERS[number % len(LETTERS)].encode()
    name = b"d%03d/%s%s%06d.c" % (number % DIRECTORIES, dot, letters, number)
    return b"%s %d %d %s" % (letter, number * 7919 % 10_007, number * 104_729 % 5_000_011 - 2_500_000, name)


def changed_rows() -> List[bytes]:
    """The second pass: of each hundred files one goes, one has another size, and some come."""
    rows = []
    for number in range(FILES):
        if number % 100 == 7:
            continue
        rows.append(b"f 1 1 " + row(number).split(b" ", 3)[3] if number % 100 == 9 else row(number))
    return rows + [row(FILES + number) for number in range(CHANGES)]


def pass_text(rows: List[bytes], second: int) -> bytes:
    return b"pass %d\n%s\nend\n" % (second, b"\n".join(rows))


def view_of(passes: List[List[bytes]]) -> View:
    history = History()
    for second, rows in enumerate(passes, 100):
        said = [one for one in map(read_line, rows) if isinstance(one, Row)]
        history.add(pass_of(second, said))
    return history.view()


def field_cases() -> List[Asked]:
    every = [Asked(f"field {field}", {"fields": [field]}) for field in FIELDS]
    return every + [
        Asked("all fields", {"fields": list(FIELDS)}),
        Asked("the default fields", {}),
        Asked("all fields since a tick", {"fields": list(FIELDS), "since": "c:7:9:1:1"}),
        Asked("all fields since a second", {"fields": list(FIELDS), "since": 101}),
        Asked("all records", {"fields": ["name", "exists"], "since": "c:7:9:1:0"}),
    ]


def expression_cases() -> List[Asked]:
    names = [b"%06d.c" % number for number in range(0, FILES, 100)]
    is_named = name_test(set(names[:800]))
    hundreds = ["allof", *(["not", ["name", name.decode()]] for name in names[:800]), "exists"]
    many = [f"{number:06}.c" for number in range(0, 40_000, 4)]
    stars = "*a" * 127 + "*"
    folded_stars = "*A" * 127 + "*"
    nested: object = ["type", "d"]
    for _ in range(63):
        nested = ["not", nested]
    return [
        expression_case(
            "allof of eight hundred terms", hundreds, lambda record: record.exists and not is_named(record)
        ),
        expression_case("name of ten thousand", ["name", many]),
        expression_case("iname of ten thousand", ["iname", [name.upper() for name in many]]),
        expression_case("a pattern of 255 atoms", ["match", stars], fits_stars),
        expression_case("imatch of 255 atoms", ["imatch", folded_stars], fits_stars),
        expression_case("not 63 deep", nested),
        expression_case("suffix", ["suffix", ["C", "h"]]),
        expression_case("dirname", ["dirname", "d007", ["depth", "eq", 0]]),
        expression_case("size and since", ["allof", ["size", "ge", 5000], ["since", 1000, "mtime"]]),
    ]


def generator_cases() -> List[Asked]:
    paths = [row(number).split(b" ", 3)[3] for number in range(0, FILES, 5)]
    named = set(paths)
    suffixes = [f"s{number}" for number in range(999)] + ["C"]
    return [
        Asked("a suffix list of a thousand", {"suffix": suffixes, "fields": ["name"]}),
        Asked(
            "a path list of twenty thousand",
            {"path": [path.decode() for path in paths], "fields": ["name"]},
            lambda record: record.name in named and record.kind != "d",
        ),
        Asked("a path and a tick", {"path": ["d007/"], "since": "c:7:9:1:1", "fields": ["name", "exists"]}),
    ]


def expression_case(name: str, expression: object, test: Optional[Test] = None) -> Asked:
    return Asked(name, {"expression": expression, "fields": ["name"]}, test)


def name_test(names: Set[bytes]) -> Test:
    """Of hundreds of names that are excluded one by one, a set says the same at once."""
    return lambda record: record.basename in names


def fits_stars(record: Record) -> bool:
    """`*a*a..*` with 127 letters fits the basenames with as many, where no star would have to take a leading dot."""
    return record.basename.count(b"a") >= 127 and not record.basename.startswith(b".")


def expected_reply(case: Asked, view: View) -> Dict[str, object]:
    if case.test is None:
        return reply_to(read_query(case.asked), view)
    return reply_to(read_query({"fields": case.asked["fields"]})._replace(matches=case.test), view)


def source_path(number: int) -> bytes:
    """Of four paths three lie below `src`, and one ends in `.c`; of five one is a test."""
    top = "docs" if number % 4 == 3 else "src"
    stem = "test_" if number % 5 == 0 else ""
    end = ["c", "h", "rs", "md"][number % 4]
    return f"{top}/group{number // 1000}/part{number // 100 % 10}/{stem}file{number}.{end}".encode()
