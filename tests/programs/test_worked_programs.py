"""Texts, explanations and runs that were worked out by hand."""

from pathlib import Path
from typing import NamedTuple, Tuple

from case import Case
from notation import file_of
from rows import tables
from wqprogram.assembler import assembled
from wqprogram.command import LONGEST_FILE, LONGEST_TEXT
from wqprogram.disassembler import disassembled
from wqprogram.explainer import explained
from wqprogram.faults import fault_sentence, file_fault_sentence
from wqprogram.program_file import FileFault, read, version_of, written
from wqprogram.records import Clocks, record_of_row
from wqprogram.source import TextFault
from wqprogram.tracer import traced
from wqprogram.verifier import looked_at, said


ROWS = tables(Path(__file__).with_name("programs.rows"))


class Worked(NamedTuple):
    """A text, and the same program in the notation of tests/check."""

    name: str
    text: str
    code: str
    constants: Tuple[str, ...] = ()

    def file(self, version: int = 1) -> bytes:
        tables = dict(zip(("numbers", "texts", "lists", "patterns", "sets"), self.constants))
        return file_of(self.code, version=version, **tables)


ONE_OF_EACH = 'nums\n1\ntexts\n"a"\nlists\n["a"]\npatterns\n"a"\nsets\n["a"]\ncode\n'

EACH = (
    "flag 0; flag 1; num 0; text 0; wholename; basename; suffix; size; mtime; oclock; cclock; osec; csec; kind; "
    "exists; "
    "cmp eq; cmp ne; cmp lt; cmp le; cmp gt; cmp ge; eq; eq fold; depth; depth fold; oneof 0; oneof 0 fold; match 0; "
    "anymatch 0; not; and; or; drop; jump 40; jf 40; jt 40; ret"
)

WORKED = [
    Worked("the smallest program", "code\nflag 1\nret\n", "flag 1; ret"),
    Worked("no end of the last line, other ends of lines", "code\r\n\tflag 0\r\n\r\n  ret  # no", "flag 0; ret"),
    Worked("no instruction", "version 1\ncode\n", ""),
    Worked("code before tables", 'code\ntext a\nret\ntexts\na: "x"\n', "text 0; ret", ("", '"x"', "", "")),
    Worked(
        "labels: on a line of their own, two at a place, named as instructions and tables",
        "code\nexists\njf not\njump code\nnot:\ncode: not\nret\n",
        "exists; jf 3; jump 3; not; ret",
    ),
    Worked(
        "places and constants by their numbers",
        "code\nexists\njf 0\njt 9\nnum 65535\nret\n",
        "exists; jf 0; jt 9; num 65535; ret",
    ),
    Worked(
        "numbers",
        "nums\n9223372036854775807\nleast: -9223372036854775808\n-0\n007\ncode\nnum least\nret\n",
        "num 1; ret",
        ("9223372036854775807, -9223372036854775808, 0, 7", "", "", ""),
    ),
    Worked(
        "escapes and letters",
        'texts\n"\\"\\\\\\n\\t\\x00\\xfFü#"\ncode\n',
        "",
        ("", r'"\"\\\n\t\u0000\u00ff\u00c3\u00bc#"', "", ""),
    ),
    Worked(
        "lists on one line and on several",
        'lists\n[]\nc: ["c", "h",]\n[  # two\n  "a",\n  ""\n]\ncode\nsuffix\noneof c fold\nret\n',
        "suffix; oneof 1 fold; ret",
        ("", "", '[], ["c","h"], ["a",""]', ""),
    ),
    Worked(
        "patterns",
        'patterns\n"a"\n"b" fold wholename\n"c" wholename dotfiles noescape fold\ncode\n',
        "",
        ("", "", "", '[0,"a"], [9,"b"], [15,"c"]'),
    ),
    Worked(
        "sets on one line and on several",
        'sets\n[]\nc: ["*.c" fold, "*.h"]\n[  # one\n  "a" wholename dotfiles,\n]\ncode\nbasename\nanymatch c\nret\n',
        "basename; anymatch 1; ret",
        ("", "", "", "", '[], [[8,"*.c"],[0,"*.h"]], [[3,"a"]]'),
    ),
    Worked(
        "each instruction",
        ONE_OF_EACH + EACH.replace("; ", "\n") + "\n",
        EACH,
        ("1", '"a"', '["a"]', '[0,"a"]', '[[0,"a"]]'),
    ),
]

# A text as it is written of a program: labels for places ahead, numbers for others, comments for constants.
WRITTEN = Worked(
    "a text that is written",
    r"""version 1

nums
    5

texts
    "a\n\xff\xe2\x80\xae"

lists
    ["c", ""]

patterns
    "*.c" wholename fold

code
    num 0               # 5
    jf at3
    jt 0
at3:
    jump 9
    match 0             # "*.c" wholename fold
    oneof 0 fold        # ["c", ""]
    num 1
    cmp ge
""",
    "num 0; jf 3; jt 0; jump 9; match 0; oneof 0 fold; num 1; cmp ge",
    ("5", r'"a\n\u00ff\u00e2\u0080\u00ae"', '["c",""]', '[9,"*.c"]'),
)

# The same of a program in a file of version 2.
WRITTEN_SETS = Worked(
    "a text with sets that is written",
    r"""version 2

sets
    ["*.c" wholename fold, "a\n"]
    []

code
    basename
    anymatch 0          # ["*.c" wholename fold, "a\n"]
    jf at5
    drop
    anymatch 7
at5:
    ret
""",
    "basename; anymatch 0; jf 5; drop; anymatch 7; ret",
    ("", "", "", "", r'[[9,"*.c"],[0,"a\n"]], []'),
)

LARGE = file_of("exists; jf 6; drop; size; num 0; cmp gt; ret", numbers="5")

EXPLAINED = """\
place  instruction  cost  goes on at  stack before it, top last
    0  exists          1  1           empty
    1  jf 6            1  2 or 6      flag
    2  drop            1  3           flag
    3  size            1  4           empty
    4  num 0  # 5      1  5           number
    5  cmp gt          1  6           number, number
    6  ret             1  the end     flag
the sum is 7: no run on a name of up to 4,096 bytes costs more
ok 7 7
"""

TRACED = """\
place  instruction  cost so far  stack after it, top last
    0  exists                 1  yes
    1  jf 6                   2  yes
    2  drop                   3
    3  size                   4  6
    4  num 0                  5  6, 5
    5  cmp gt                 6  yes
    6  ret                    7
yes at a cost of 7, of at most 7
"""

# The words for a pattern, and for a program with a fault before its end.
MATCHED = """\
place  instruction        cost  goes on at  stack before it, top last
    0  basename              1  1           empty
    1  match 0  # "*.c"  16389  2           text
"""

REFUSED = """\
place  instruction  cost  goes on at  stack before it, top last
    0  exists          1  1           empty
    1  num 3           ?  2           flag
       ^ Y4: "num 3" names row 3 of "nums", which has 0; add a row, and take 0
    2  jf 4            1  3 or 4      ?
    3  ret             1  the end     ?
refused Y4 at 1
"""

# A program of which many instructions try one long set, and what it costs on names of 4,096 bytes: each of them one
# step, two for each byte and the end and pattern, and two for the instructions beside it.
TRIES, PATTERNS = 5_000, 20_000

LONG_SETS = file_of(
    f"{{{{basename; anymatch 0; drop; *{TRIES}}}}}exists; ret", sets=f'[[0,"*"]{{{{,[15,"b"]*{PATTERNS - 1}}}}}]'
)

LONG_SETS_SAY = f"ok {3 * TRIES + 2} {TRIES * (3 + 2 * PATTERNS * 4_097) + 2}"

LONG_SETS_RUN = f"yes at a cost of {TRIES * (3 + 2 * PATTERNS * 2) + 2}, of at most {LONG_SETS_SAY.split()[2]}"


class WorkedPrograms(Case):
    def test_bad_texts(self) -> None:
        many = "nums\n" + "".join(f"n{place}: 1\n" for place in range(4_000)) + "code\nnum zzz\n"
        labels = 'as "n0", "n1", "n2", "n3", "n4", "n5", "n6", "n7" or one of 3,992 others'
        rows = [(row.value(), row.expected) for row in ROWS["bad texts"]]
        for text, expected in [
            *rows,
            (many, f'4003:5: no such label: found "zzz", expected a label of "nums", {labels}'),
        ]:
            try:
                assembled(text.encode("utf-8", "surrogateescape"))
                error = "none"
            except TextFault as fault:
                error = str(fault)
            self.same(f"bad text {text[:80]!r}", error, expected)

    def test_worked(self) -> None:
        for worked in [*WORKED, WRITTEN, WRITTEN_SETS]:
            found = assembled(worked.text.encode("utf-8"))
            file = worked.file(found.version.number)
            self.same(worked.name, written(found.program, found.version), file)
        for worked in (WRITTEN, WRITTEN_SETS):
            file = worked.file()
            self.same(worked.name, disassembled(read(file), version_of(file)), worked.text)
        self.same("explain", explained(read(LARGE)), EXPLAINED)
        record = record_of_row(b"f 6 1000 a", Clocks(1, 1, 1, 1), exists=True)
        self.same("run", traced(read(LARGE), record), TRACED)
        matched = explained(read(file_of("basename; match 0; ret", patterns='[0,"*.c"]')))
        self.same("explain with a pattern", matched.splitlines()[:3], MATCHED.splitlines())
        self.same("explain with a fault", explained(read(file_of("exists; num 3; jf 4; ret"))), REFUSED)
        odd = record_of_row("f 0 0 ü.\t".encode(), Clocks(1, 1, 2, 1), exists=False)
        texts = traced(read(file_of("wholename; suffix; eq; ret")), odd)
        self.same("texts on the stack", texts.splitlines()[2].split(None, 3)[3], '"ü.\\t", "\\t"')

    def test_long_sets(self) -> None:
        """A set is counted once, however many instructions try it. A text of many flags is as long as one may be."""
        program = read(LONG_SETS)
        self.same("explain of long sets", explained(program).splitlines()[-1], LONG_SETS_SAY)
        record = record_of_row(b"f 6 1000 a", Clocks(1, 1, 1, 1), exists=True)
        self.same("run of long sets", traced(program, record).splitlines()[-1], LONG_SETS_RUN)
        file = file_of("", sets=f'[{{{{[15,""],*{PATTERNS}}}}}]')
        text = disassembled(read(file), version_of(file)).encode("utf-8")
        self.same("there and back with long sets", written(assembled(text).program), file)
        longest = len(file) * LONGEST_TEXT // LONGEST_FILE
        self.check("the text of long sets may be read", len(text) <= longest, [f"{len(text)} bytes, over {longest}"])

    def test_sentences(self) -> None:
        """Each fault of a program and of a file is named, with its place and what to change."""
        seen = set()
        files = [
            *((code, file_of(code, texts='"a", "b"'), sentence) for code, sentence in ROWS["sentences"]),
            *((code, file_of(code, sets='[[0,"a"]]'), sentence) for code, sentence in ROWS["sentences of sets"]),
        ]
        for code, file, sentence in files:
            program = read(file)
            looked = looked_at(program)
            self.same(f"the sentence of {code!r}", fault_sentence(program, looked), sentence)
            lines = explained(program).splitlines()
            marked = [line for line in lines if sentence in line]
            self.same(
                f"the mark in {code!r}", [lines.index(line) for line in marked], [looked.place + 2 if code else 1]
            )
            self.same(f"the line of {code!r}", lines[-1], said(file))
            seen.add(looked.fault or 0)
        self.same("the faults of programs", sorted(seen), list(range(1, 11)))
        for digits, line in ROWS["faults of files"]:
            self.same(f"the file {digits}", file_sentence(digits).split(":")[0], line)
        for digits, sentence in ROWS["sentences of files"]:
            self.same(f"the sentence of the file {digits}", file_sentence(digits), sentence)


def file_sentence(digits: str) -> str:
    """What is said of these bytes, which are no program file."""
    try:
        read(bytes.fromhex(digits))
        return "none"
    except FileFault as fault:
        return file_fault_sentence(fault)
