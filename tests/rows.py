"""Tables of rows in a file beside a test, with what is given and what comes of it:

    == records that are wrong
    # a comment
    "f 12 1000" => a record is a letter, a size, a time and a name

A line `== NAME` begins a table. In both halves `{{TEXT*N}}` is the text, N times, and `NAME` another text if the test
gives one for it, such as a directory. A row without `=>` expects nothing.
"""

import json
import re
import shlex
from pathlib import Path
from typing import Any, Dict, List, NamedTuple
from urllib.parse import unquote_to_bytes

REPEATED = re.compile(r"\{\{(.*?)\*([0-9]+)\}\}", re.DOTALL)
HEADLINE, ARROW = "== ", " => "


class Row(NamedTuple):
    given: str
    expected: str

    def data(self) -> bytes:
        """The bytes that are given, of which `%ff` is one."""
        return unquote_to_bytes(self.given)

    def text(self) -> str:
        return self.data().decode()

    def words(self) -> List[str]:
        """The words of a command line that is given."""
        return shlex.split(self.given)

    def value(self) -> Any:
        """What is given, which is JSON."""
        return json.loads(self.given)


def expand(text: str) -> str:
    return REPEATED.sub(lambda found: found.group(1) * int(found.group(2)), text)


def tables(path: Path, **texts: str) -> Dict[str, List[Row]]:
    """The rows of each table of a file."""
    found: Dict[str, List[Row]] = {}
    for line in path.read_text(encoding="utf-8").splitlines():
        for name, text in texts.items():
            line = line.replace(name, text)
        if line.startswith(HEADLINE):
            rows = found[line[len(HEADLINE) :]] = []
        elif line and not line.startswith("#"):
            given, _, expected = line.partition(ARROW)
            rows.append(Row(expand(given), expand(expected)))
    return found
