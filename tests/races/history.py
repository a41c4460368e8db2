"""Requests about programs that are kept and about a cursor, with the times between which they were answered."""

import base64
import json
from typing import Any, Dict, List, NamedTuple, Optional

from wqprogram.compiler import compiled
from wqprogram.program_file import Program, written

CURSOR = "n:k"
# The program of a version finds its own file, and those that come during a round.
VERSIONS = 24
NEW = "new-"


def own_file(version: int) -> str:
    return f"v{version:02}"


def program_of(version: int) -> Program:
    return compiled(["anyof", ["name", own_file(version)], ["match", f"{NEW}*"]])


TEXTS = [base64.b64encode(written(program_of(version))).decode() for version in range(VERSIONS)]
INSTRUCTIONS = len(program_of(0).code)


class Asked(NamedTuple):
    """A client asks to `add`, `delete` or `list` programs, or for files by a `query`. A query may name a program, use
    the cursor, and have the server scan first."""

    kind: str
    name: Optional[str] = None
    version: int = 0
    has_cursor: bool = False
    scans: bool = False

    def command(self, root: str) -> List[Any]:
        if self.kind == "add":
            return ["program-add", self.name, TEXTS[self.version]]
        if self.kind == "delete":
            return ["program-del", self.name]
        return ["program-list"] if self.kind == "list" else ["query", root, self.query()]

    def query(self) -> Dict[str, Any]:
        query: Dict[str, Any] = {"fields": ["name"]}
        if self.name is not None:
            query["program"] = self.name
        if self.has_cursor:
            query["since"] = CURSOR
        return query if self.scans else {**query, "sync_timeout": 0}

    def is_read(self) -> bool:
        """Whether it changes nothing, whatever it is answered."""
        return self.kind == "list" or (self.kind == "query" and not self.has_cursor)

    def words(self) -> str:
        if self.kind == "add":
            return f"add {self.name}, version {self.version}"
        if self.kind != "query":
            return " ".join(filter(None, (self.kind, self.name)))
        return f"query {json.dumps(self.query())}"


class Request(NamedTuple):
    """A request and its reply, and the nanoseconds at which the client began to send the one and had the whole of the
    other. If the request is open, its reply was not there yet when the history ends."""

    client: int
    asked: Asked
    sent: int
    received: int
    reply: Dict[str, Any]
    is_open: bool = False

    def tick(self) -> Optional[int]:
        """The tick of the view in which the server looked, if the reply has a clock."""
        clock = self.reply.get("clock")
        return None if clock is None else int(clock.rsplit(":", 1)[1])

    def words(self, start: int) -> str:
        times = f"{(self.sent - start) / 1000:8.0f} .. {(self.received - start) / 1000:8.0f} us"
        reply = "(no reply yet)" if self.is_open else json.dumps(self.reply)
        return f"client {self.client}, {times}: {self.asked.words()} -> {reply}"


class Coming(NamedTuple):
    """A file that came during a round, and the nanoseconds at which it was there."""

    name: str
    made: int
