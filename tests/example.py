"""An example: a script and what it writes, in one file of parts.

    == input
    pass 100
    f 12 1000 a
    end
    ask 1 ["query","/r",{"fields":["name"]}]
    == output
    1 {"clock":"c:7:9:1:1","files":["a"],"is_fresh_instance":true,"version":"wq-1"}

A script that is refused has two parts more: `== standard error`, and the line `== status 1`. Without them nothing is
written there, and the status is 0. A script that does not end with a newline has the headline
`== input without a last newline`. Each part goes up to the next line that begins with `== `, so no script and no reply
has such a line. The file is read as bytes, since a script may have any.

A file may have several examples of one kind. Then each begins with a headline that has its name:

    == example malformed-comment
    == input
    # a comment
    == output
    == standard error
    script line 1
    == status 1
"""

import re
from pathlib import Path
from typing import Dict, List, NamedTuple, Optional

from built import Ended

ENDING = ".example"
# The headlines in their order. The last two may be left out, and the status has its number in the headline.
HEADLINES = re.compile(
    rb"== input(?P<is_cut> without a last newline)?\n(?P<input>.*?)"
    rb"^== output\n(?P<output>.*?)"
    rb"(?:^== standard error\n(?P<errors>.*?))?"
    rb"(?:^== status (?P<status>[1-9][0-9]*)\n)?",
    re.M | re.S,
)
HEADLINE = re.compile(rb"^== ", re.M)
NAMED = re.compile(rb"^== example ([a-z0-9-]+)\n", re.M)


class Example(NamedTuple):
    """A script, and what it has to write."""

    name: str
    script: bytes
    expected: Ended


class BadExample(Exception):
    """A file that is no example, and why."""


def read(path: Path) -> List[Example]:
    """The examples of a file."""
    first, *named = NAMED.split(path.read_bytes())
    if not named:
        return [one(path.stem, first)]
    if first:
        raise BadExample("something is before its first headline")
    return [one(name.decode(), text) for name, text in zip(named[::2], named[1::2])]


def one(name: str, text: bytes) -> Example:
    found = HEADLINES.fullmatch(text)
    if found is None:
        raise BadExample(f"the parts of {name} are not input, output, and if there are any, standard error and status")
    parts: Dict[str, bytes] = {key: part or b"" for key, part in found.groupdict().items()}
    if any(HEADLINE.search(part) for part in parts.values()):
        raise BadExample(f"a line of {name} that begins with `== ` is no headline, or it is not in its place")
    script = parts["input"][:-1] if parts["is_cut"] else parts["input"]
    return Example(name, script, Ended(parts["output"], parts["errors"], int(parts["status"] or b"0")))


def find(directory: Path, name: str) -> Optional[Example]:
    """The example of this name, which is in a file of its own or in one with others."""
    own = directory / f"{name}{ENDING}"
    files = [own] if own.exists() else paths(directory)
    return next((it for path in files for it in read(path) if it.name == name), None)


def paths(directory: Path) -> List[Path]:
    """The files of the examples of a directory."""
    return sorted(directory.glob(f"*{ENDING}"))
