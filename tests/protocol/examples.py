"""How each kind of block and table of the user's reference is run: as scripts, with what they have to write."""

import json
import re
from typing import Any, Callable, Iterator, List, NamedTuple, Optional, Tuple

from document import Cell, Page, Table
from pages import Element
from notation import file_of
from shell import commands_of
from wqprogram.instructions import BY_NAME


class Example(NamedTuple):
    """A script, what it has to write in words, the test of what it wrote, and what it has to write on standard error.
    Or a program file that is checked, or what was written by something that was run already."""

    name: str
    script: str
    expected: str
    is_right: Callable[[str], bool]
    file: Optional[bytes] = None
    errors: str = ""
    written: Optional[str] = None


Examples = Iterator[Example]


def writes(name: str, script: str, output: str) -> Example:
    return Example(name, script, output, lambda written: written == output)


def is_refused(name: str, script: str, words: str, page: Page) -> Example:
    """The script's one question is refused with these words, behind the number that the page gives them."""
    return writes(name, script, f"1 {error_reply(page.errors[words])}\n")


def error_reply(error: str) -> str:
    return text_of({"error": error, "version": "wq-1"})


def is_taken(name: str, script: str) -> Example:
    return Example(name, script, "an answer", lambda written: "files" in json.loads(written[2:]))


def ask(line: str) -> str:
    return f"ask 1 {line}\n"


def query(members: str) -> str:
    return ask(f'["query","/r",{members}]')


def by_expression(expression: str, since: str = "") -> str:
    return query(f'{{{since}"expression":{expression},"fields":["name"]}}')


def text_of(value: Any) -> str:
    return json.dumps(value, ensure_ascii=False, separators=(",", ":"))


def reply(tick: int, files: str, is_fresh: bool) -> str:
    fresh = "true" if is_fresh else "false"
    return f'1 {{"clock":"c:7:9:1:{tick}","files":{files},"is_fresh_instance":{fresh},"version":"wq-1"}}\n'


def script_named(element: Element, page: Page) -> Tuple[str, int]:
    """The script whose name ends the mark, and the number of its passes, of which each changes something."""
    lines = page.scripts[element.mark.rsplit(" ", 1)[1]]
    return "".join(line + "\n" for line in lines), sum(line.startswith("pass ") for line in lines)


# Blocks.


def keep_script(element: Element, page: Page) -> Examples:
    """`script NAME` only gives the block a name."""
    page.scripts[element.mark.rsplit(" ", 1)[1]] = element.lines
    return iter(())


def output_of(element: Element, page: Page) -> Examples:
    """`output of NAME`: what the script writes."""
    yield writes("the script before it", script_named(element, page)[0], "\n".join(element.lines) + "\n")


def line_with_answer(element: Element, page: Page) -> Examples:
    """`line`: what a client sends, and is answered."""
    for line in element.lines:
        yield is_taken(line, ask(line))


def reply_to_line(element: Element, page: Page) -> Examples:
    """`reply to LINE`: what this line is answered."""
    line = element.mark.split("reply to ", 1)[1]
    yield writes(line, ask(line), f"1 {element.lines[0]}\n")


def malformed_lines(element: Element, page: Page) -> Examples:
    """`malformed lines`: each of the lines in the first column is malformed, as the first of a script."""
    for row in Table(element.lines).examples():
        for line in row["line"].codes():
            yield writes(line, line, "")._replace(errors="script line 1\n")


# Tables of queries.


def queries_after(element: Element, page: Page) -> Examples:
    """`queries after NAME`: the files of a reply, and whether it is fresh (which it is without a column for it)."""
    script, passes = script_named(element, page)
    for row in Table(element.lines).examples():
        is_fresh = "fresh" not in row or row["fresh"].shown == "yes"
        for asked in row["query"].examples():
            yield writes(asked, script + query(asked), reply(passes, row["files"].codes()[0], is_fresh))


# Tables of expressions.


def names_in(cell: Cell) -> str:
    assert bool(cell.codes()) != (cell.shown == "none"), f"neither names nor `none`: {cell.shown}"
    return text_of(cell.codes())


def expressions_after(element: Element, page: Page) -> Examples:
    """`expressions after NAME`: the files that a fresh answer lists."""
    script, passes = script_named(element, page)
    for row in Table(element.lines).examples():
        for expression in row["expression"].examples():
            yield writes(expression, script + by_expression(expression), reply(passes, names_in(row["matches"]), True))


def records_after(element: Element, page: Page) -> Examples:
    """`records after NAME`: the records that match, those of deleted files too, as all changed after tick 0."""
    script, passes = script_named(element, page)
    for row in Table(element.lines).examples():
        for expression in row["expression"].examples():
            asked = by_expression(expression, since='"since":"c:7:9:1:0",')
            yield writes(expression, script + asked, reply(passes, names_in(row["matches"]), False))


def expressions_on_files(element: Element, page: Page) -> Examples:
    """`expressions on files`: each row tells the files that exist, or that they are the same."""
    script = ""
    for row in Table(element.lines).examples():
        if row["files that exist"].shown != "the same":
            script = pass_of(row["files that exist"].shown)
        for expression in row["expression"].examples():
            yield writes(expression, script + by_expression(expression), reply(1, names_in(row["matches"]), True))


def pass_of(shown: str) -> str:
    """The pass that sees the files in code, a directory where these words follow, changed when the cell says."""
    changed = re.search(r"changed at ([0-9,]+) milliseconds", shown)
    mtime_ms = changed.group(1).replace(",", "") if changed else "0"
    found = re.findall(r"`([^`]+)`( \(a directory\))?", shown)
    return listing(("d" if directory else "f", mtime_ms, name) for name, directory in found)


def listing(rows) -> str:
    return "pass 1\n" + "".join(f"{letter} 1 {mtime_ms} {name}\n" for letter, mtime_ms, name in rows) + "end\n"


# Tables of patterns.


def patterns_on_basenames(element: Element, page: Page) -> Examples:
    return patterns_on(element, lambda pattern: text_of(["match", pattern]))


def patterns_on_whole_names(element: Element, page: Page) -> Examples:
    return patterns_on(element, lambda pattern: text_of(["match", pattern, "wholename"]))


def terms_on_names(element: Element, page: Page) -> Examples:
    return patterns_on(element, lambda term: term)


def patterns_on(element: Element, expression_of: Callable[[str], str]) -> Examples:
    """In a tree of all names of a row, a pattern fits those of the column `fits` alone."""
    for row in Table(element.lines).examples():
        fitting, other = row["fits"].codes(), row["does not fit"].codes()
        assert fitting or other, "a pattern without a name"
        script = listing(("f", 0, name) for name in fitting + other)
        files = text_of(sorted(fitting, key=str.encode))
        for pattern in next(iter(row.values())).codes():
            yield writes(pattern, script + by_expression(expression_of(pattern)), reply(1, files, True))


# Tables of clock specs.

THREE_PASSES = "".join(
    f"pass {number}\n" + "".join(f"f 1 1 {name}\n" for name in "abc"[:number]) + "end\n" for number in (1, 2, 3)
)


def clock_specs(element: Element, page: Page) -> Examples:
    """`clock specs`: what a text is in the key and in the term, at passes of which each sees one more of a, b, c."""
    for row in Table(element.lines).examples():
        for text in row["text"].examples():
            spec = text_of(text)
            in_key = THREE_PASSES + query(f'{{"since":{spec},"fields":["name"]}}')
            in_term = THREE_PASSES + by_expression(f'["since",{spec}]')
            yield from clock_spec(text, row["is"].shown, in_key, in_term, page)


def clock_spec(text: str, meaning: str, in_key: str, in_term: str, page: Page) -> Examples:
    if meaning.startswith("tick "):
        bound = int(meaning[5:].replace("2^62", str(2**62)))
        after = text_of([name for tick, name in enumerate("abc", 1) if tick > bound])
        yield writes(f"{text}, in the key", in_key, reply(3, after, False))
        yield writes(f"{text}, in the term", in_term, reply(3, after, True))
    elif meaning.startswith("fresh"):
        yield writes(f"{text}, in the key", in_key, reply(3, '["a","b","c"]', True))
        yield writes(f"{text}, in the term", in_term, reply(3, '["a","b","c"]', True))
    elif meaning.startswith("the cursor"):
        yield writes(f"{text}, in the key for the first time", in_key, reply(3, '["a","b","c"]', True))
        yield is_refused(f"{text}, in the term", in_term, "cursor in a term", page)
    else:
        assert meaning.startswith("refused"), meaning
        yield is_refused(f"{text}, in the key", in_key, "bad clockspec", page)
        yield is_refused(f"{text}, in the term", in_term, "bad clockspec", page)


# Sessions of a shell, and texts of programs.


def keep_file(element: Element, page: Page) -> Examples:
    """`file NAME`: the block is this file in the directory of the commands of the page."""
    page.room.shell.write(element.mark.rsplit(" ", 1)[1], element.lines)
    return iter(())


def session(element: Element, page: Page) -> Examples:
    """`session`: commands, each followed by what it writes."""
    for command in commands_of(element.lines):
        output = "".join(f"{line}\n" for line in command.output)
        yield writes(command.line, "", output)._replace(written=page.room.run(command.line))


# Tables of program files.


def says(name: str, file: bytes, line: str) -> Example:
    return Example(name, "", line, lambda written: written == line + "\n", file)


def checks_of_programs(element: Element, page: Page) -> Examples:
    """`checks of programs`: a program in its notation, its constants, and the line."""
    for row in Table(element.lines).examples():
        tables = dict(code.split(": ", 1) for code in row["constants"].codes())
        for program in row["program"].examples():
            for version in (1, 2):
                yield says(program, file_of(program, **tables, version=version), row["line"].codes()[0])


def parts_of_file(element: Element, page: Page) -> Examples:
    """`parts of a file that says LINE`: the bytes of all rows are one file. Without its last byte it is cut short."""
    line = element.mark.split(" says ", 1)[1]
    file = bytes.fromhex("".join("".join(row["bytes"].codes()) for row in Table(element.lines).examples()))
    yield says("the whole file", file, line)
    yield says("the file without its last byte", file[:-1], "refused F3")


# Instructions that put a cell of a kind on the stack, and that make a flag of one.
PUTS = {"flag": "exists", "number": "size", "text": "basename"}
# What an operand names that has to be there.
NAMED = {"number", "text", "list", "pattern", "set", "place"}
MAKES_FLAG = {"flag": "not", "number": "size; cmp eq", "text": "basename; eq"}


def instructions(element: Element, page: Page) -> Examples:
    """`instructions`: the table of instructions. Each takes its cells and none other, and leaves what it leaves."""
    for row in Table(element.lines).examples():
        (byte, name), operands = row["instruction"].codes(), row["operands"].shown.split(", ")
        takes, leaves = row["takes"].shown, row["leaves"].shown
        assert BY_NAME[name].byte == int(byte, 16), f"another byte: {name}"
        for kinds in [[kind] for kind in PUTS] if takes == "any" else [takes.split(", ") if takes else []]:
            before = [PUTS[kind] for kind in kinds]
            operand = len(before) + 1 if "place" in operands else 0
            after = MAKES_FLAG[leaves] if leaves else "exists"
            code = before + [f"{name} {operand}" if NAMED.intersection(operands) else name]
            whole = "; ".join(code if name == "ret" else code + [after, "ret"])
            yield Example(whole, "", "ok", lambda written: written.startswith("ok "), file_with_constants(whole))
            if kinds and name != "ret":
                fewer = "; ".join(code[1:] + ["ret"])
                yield says(fewer, file_with_constants(fewer), f"refused Y2 at {len(before) - 1}")
            if kinds and takes != "any":
                other = "; ".join(["exists" if kinds[0] != "flag" else "size", *code[1:], "ret"])
                fault = "Y10" if name == "ret" else "Y3"
                yield says(other, file_with_constants(other), f"refused {fault} at {len(before)}")


def file_with_constants(code: str) -> bytes:
    return file_of(code, numbers="0", texts='"a"', lists='["a"]', patterns='[0,"a"]', sets='[[0,"a"]]')


RULES: List[Tuple[str, Callable[[Element, Page], Examples]]] = [
    ("script ", keep_script),
    ("output of ", output_of),
    ("malformed lines", malformed_lines),
    ("reply to ", reply_to_line),
    ("queries after ", queries_after),
    ("line", line_with_answer),
    ("expressions after ", expressions_after),
    ("expressions on files", expressions_on_files),
    ("records after ", records_after),
    ("patterns on basenames", patterns_on_basenames),
    ("patterns on whole names", patterns_on_whole_names),
    ("terms on names", terms_on_names),
    ("clock specs", clock_specs),
    ("file ", keep_file),
    ("session", session),
    ("checks of programs", checks_of_programs),
    ("parts of a file that says ", parts_of_file),
    ("instructions", instructions),
]
