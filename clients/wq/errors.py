"""The line after an error of the server: the words of the error are fixed, so this names the culprit."""

import os
import re
import shlex
from typing import Any, Callable, Dict, Iterator, List

from wqprogram.compiler import LONGEST_CODE
from wqprogram.limits import (
    MAX_CURSORS,
    MAX_JSON_DEPTH,
    MAX_LINE,
    MAX_PROGRAM_NAME,
    MAX_PROGRAMS,
    MAX_ROOT,
    MAX_ROWS,
    MAX_SUBSCRIPTIONS,
    MAX_TRIGGERS,
)

from .faults import sentences
from .questions import Look
from .vocabulary import COMMANDS, kind_of, meant, quoted

NUMBER = re.compile(r"E([0-9]+):")


def culprits(error: str, command: Any, look: Look) -> List[str]:
    """Sentences on what is wrong with a command, one or more if there is something to be said."""
    found = NUMBER.match(error)
    number = int(found[1]) if found else 0
    # A value of a kind that nobody foresaw makes no second error of the first.
    try:
        if number in OF_OBJECTS:
            return sentences(error, command, look)
        return list(OF_ERRORS[number](command, look)) if number in OF_ERRORS else []
    except (KeyError, IndexError, TypeError, AttributeError):
        return []


def object_of(command: List[Any]) -> Dict[str, Any]:
    return command[-1] if isinstance(command[-1], dict) else {}


# Lines and commands.


def long_line(command: Any, look: Look) -> Iterator[str]:
    yield f"a line may have {MAX_LINE:,} bytes; ask in several"


def no_json(command: Any, look: Look) -> Iterator[str]:
    """A text that Python takes for JSON, and the server does not."""
    yield f"values may be {MAX_JSON_DEPTH} deep inside one another, and a number has to fit a float of 64 bits"


def no_command(command: Any, look: Look) -> Iterator[str]:
    shape = 'a line is a list that begins with the name of a command, such as ["watch-list"]'
    yield f"{shape}, and this is {kind_of(command)}"


def unknown_command(command: Any, look: Look) -> Iterator[str]:
    name = command[0]
    yield f"{quoted(name)} is no command{meant(name, COMMANDS) or '; there are ' + ', '.join(COMMANDS)}"


def wrong_arguments(command: Any, look: Look) -> Iterator[str]:
    name, arguments = command[0], command[1:]
    shape = COMMANDS[name]
    counts = sorted({shape.fewest, len(shape.kinds)})
    takes = " or ".join(str(count) for count in counts)
    if len(arguments) not in range(shape.fewest, len(shape.kinds) + 1):
        noun = "argument" if counts == [1] else "arguments"
        kinds = ", ".join(shape.kinds) or "none"
        yield f'"{name}" takes {takes} {noun} ({kinds}), and there are {len(arguments)}: {shape.example}'
        return
    for number, (kind, value) in enumerate(zip(shape.kinds, arguments), 1):
        wanted = dict if kind == "object" else str
        if not isinstance(value, wanted):
            word = "an object" if kind == "object" else "a text"
            yield f'argument {number} of "{name}" is the {kind}, {word}, and not {kind_of(value)}: {shape.example}'
            return


# Roots.


def not_absolute(command: Any, look: Look) -> Iterator[str]:
    root = command[1]
    if "\0" in root:
        yield f"{quoted(root)} has a byte 0, which no path has"
    elif len(root.encode()) > MAX_ROOT:
        yield f"the path has {len(root.encode()):,} bytes, and at most {MAX_ROOT:,} may be"
    else:
        hint = f"; from here it would be {quoted(os.path.abspath(root))}" if root else ""
        yield f"{quoted(root)} does not begin with a slash{hint}"


def unreadable(command: Any, look: Look) -> Iterator[str]:
    """The reason from a look of its own: the server tells none."""
    root = command[1]
    try:
        os.listdir(root)
    except OSError as error:
        yield f"{root}: {error.strerror}"
    else:
        went = "it went during the walk, or no file handle was left (ulimit -n)"
        if not os.path.ismount(root):
            went = f"what was mounted there is not any more (then `wq unwatch {shlex.quote(root)}` forgets it), {went}"
        yield f"{root} can be read now; perhaps {went}"


def many_files(command: Any, look: Look) -> Iterator[str]:
    parts = f"{command[1]} has over {MAX_ROWS:,} files and directories"
    yield f"{parts}; `wq watch --root DIR` makes a directory below it a root of its own"


def many_roots(command: Any, look: Look) -> Iterator[str]:
    roots = look("watch-list").get("roots", [])
    yield f"{len(roots)} roots are watched, and more may not be; `wq unwatch DIR` gives the place of one back:"
    yield from (f"  {root}" for root in roots)


def not_watched(command: Any, look: Look) -> Iterator[str]:
    root, roots = command[1], look("watch-list").get("roots", [])
    hint = meant(root, roots) or (f"; watched are {', '.join(roots)}" if roots else "; no root is")
    yield f'{quoted(root)} is not watched{hint}. ["watch",{quoted(root)}] watches it'


# Expressions, names and programs.


def expression_and_program(command: Any, look: Look) -> Iterator[str]:
    yield '"expression" and "program" are both there, and a program takes the place of the expression: take one out'


def large_program(command: Any, look: Look) -> Iterator[str]:
    most = f"the program of an expression has at most {LONGEST_CODE:,} instructions, and a list of it as many texts"
    yield f'{most}; name many files by one list: ["name",[..]]'


def no_program(command: Any, look: Look) -> Iterator[str]:
    name, names = object_of(command).get("program"), look("program-list").get("programs", [])
    none = "; none is stored, and `wqasm add NAME FILE` stores one"
    others = f"; there are {', '.join(map(quoted, names))}" if names else none
    yield f"no program is stored as {quoted(name)}{meant(name, names) or others}"


def bad_name(command: Any, look: Look) -> Iterator[str]:
    name = object_of(command).get("name") if command[0] == "trigger" else command[1 if "program" in command[0] else 2]
    length = len(name.encode())
    if length:
        yield f"the name has {length:,} bytes, and at most {MAX_PROGRAM_NAME} may be: {quoted(name)}"
    else:
        yield f"the name is empty, and has 1 to {MAX_PROGRAM_NAME} bytes"


def full_shelf(command: Any, look: Look) -> Iterator[str]:
    if command[0] == "program-add":
        yield f'{MAX_PROGRAMS} programs are stored; ["program-del",NAME] takes one out'
    else:
        yield f"the root has {MAX_CURSORS} cursors; they go with its watch: `wq unwatch DIR`"


def many_subscriptions(command: Any, look: Look) -> Iterator[str]:
    yield f'this connection has {MAX_SUBSCRIPTIONS} subscriptions; ["unsubscribe",ROOT,NAME] ends one'


def many_triggers(command: Any, look: Look) -> Iterator[str]:
    yield f"the root has {MAX_TRIGGERS} triggers; `wq untrigger NAME DIR` removes one"


def many_sessions(command: Any, look: Look) -> Iterator[str]:
    yield "32 clients are connected; try again when one has gone"


def base64_fault(command: Any, look: Look) -> Iterator[str]:
    yield "the text of a program is base64 with = at its end; `wqasm add NAME FILE` writes it"


def program_fault(command: Any, look: Look) -> Iterator[str]:
    yield "`wqasm explain FILE` says what is wrong with a program file, and where"


# The requests about whose parts the server is asked.
OF_OBJECTS = (20, 21, 22, 23, 24, 25, 26, 27, 28, 37, 43)
OF_ERRORS: Dict[int, Callable[[Any, Look], Iterator[str]]] = {
    1: long_line,
    2: no_json,
    3: no_command,
    4: unknown_command,
    5: wrong_arguments,
    10: not_absolute,
    11: unreadable,
    12: many_files,
    13: many_roots,
    14: not_watched,
    17: many_sessions,
    29: expression_and_program,
    30: large_program,
    31: base64_fault,
    32: program_fault,
    33: program_fault,
    34: no_program,
    35: full_shelf,
    36: bad_name,
    41: many_subscriptions,
    42: many_triggers,
}
