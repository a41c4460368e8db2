"""The plain program: reads a script on standard input and writes what each client is sent.

    python3 tests/plain/replay.py < SCRIPT

It follows docs/PROTOCOL.md, docs/SCRIPTS.md and docs/crates in words, and takes no care to be fast.
"""

import re
import sys
from pathlib import Path
from typing import Dict, Iterator, List, NamedTuple, Optional, Tuple, Union

sys.path.insert(0, str(Path(__file__).resolve().parents[2] / "clients"))

from commands import answer, text_of
from followers import Session, Told
from queries import Query
from servers import Server
from triggers import Round, end_run, fire
from views import ListingFault, Row, Sight, View, pass_of
from wqprogram.limits import MAX_SCRIPT, MAX_SCRIPT_LINE

LETTERS = [b"f", b"d", b"l", b"b", b"c", b"p", b"s", b"D", b"?"]
NUMBER = re.compile(rb"0|-?[1-9][0-9]{0,18}")
MAX_CLIENT = 32


class ListingBegins(NamedTuple):
    second: int
    crawls: bool


class ListingEnds(NamedTuple):
    pass


class Ask(NamedTuple):
    client: int
    line: bytes


class Leave(NamedTuple):
    client: int


class Idle(NamedTuple):
    client: int


class Fire(NamedTuple):
    succeeds: bool


class Done(NamedTuple):
    trigger: bytes


class Turn(NamedTuple):
    """A client's line, or an idle moment without one, and the view that it met; the reply, if there is one, the query
    that this answers, if it does, and the lists that are sent then."""

    client: int
    line: Optional[bytes]
    view: View
    reply: Optional[bytes]
    query: Optional[Query]
    told: List[Told]

    def lines(self) -> List[bytes]:
        replies = [] if self.reply is None else [self.reply]
        return [b"%d %s" % (self.client, line) for line in replies + [text_of(told.line) for told in self.told]]


class EndOfRun(NamedTuple):
    """That the command of a trigger has ended, and whether it ran."""

    ran: bool

    def lines(self) -> List[bytes]:
        return []


Said = Union[ListingBegins, Row, ListingEnds, Ask, Leave, Idle, Fire, Done]
Played = Union[Turn, Round, EndOfRun]


class Malformed(Exception):
    """The script ends at this line, counted from 1."""

    def __init__(self, number: int, reason: str) -> None:
        super().__init__(f"script line {number}")
        self.number = number
        self.reason = reason


class TooLong(Exception):
    """The script cannot be read further."""


class NotALine(Exception):
    """No line of a script is written so."""


def replay(script: bytes) -> Tuple[bytes, bytes, int]:
    """What a script writes to standard output and to standard error, and the status that it ends with."""
    written: List[bytes] = []
    try:
        for turn in turns(script):
            written += [line + b"\n" for line in turn.lines()]
    except Malformed as malformed:
        return b"".join(written), b"script line %d\n" % malformed.number, 1
    except TooLong:
        return b"".join(written), b"replay failed\n", 1
    return b"".join(written), b"", 0


def turns(script: bytes) -> Iterator[Played]:
    """Plays the script, and gives each client's line with its reply, each idle moment with its lists, and each round
    with its starts."""
    server = Server()
    sessions: Dict[int, Session] = {}
    begun = ListingBegins(0, False)
    rows: List[Row] = []
    is_inside = False
    for number, line in lines_of(script):
        said = line_said(number, line)
        if is_inside != isinstance(said, (Row, ListingEnds)):
            raise Malformed(number, "in a pass" if is_inside else "outside of a pass")
        if isinstance(said, ListingBegins):
            begun, rows, is_inside = said, [], True
        elif isinstance(said, Row):
            rows.append(said)
        elif isinstance(said, ListingEnds):
            end_listing(number, server, begun, rows)
            is_inside = False
        elif isinstance(said, Ask):
            answered = answer(said.line, sessions.setdefault(said.client, Session()), server)
            told = [] if answered.told is None else [answered.told]
            yield Turn(said.client, said.line, server.view, answered.reply, answered.query, told)
            if answered.shuts:
                return
            if answered.ends:
                del sessions[said.client]
        elif isinstance(said, Leave):
            sessions.pop(said.client, None)
        elif isinstance(said, Idle):
            told = sessions.setdefault(said.client, Session()).idle(server)
            yield Turn(said.client, None, server.view, None, None, told)
        elif isinstance(said, Fire):
            yield fire(said.succeeds, server)
        elif isinstance(said, Done):
            yield EndOfRun(end_run(said.trigger, server))


def end_listing(number: int, server: Server, begun: ListingBegins, rows: List[Row]) -> None:
    try:
        server.tree = pass_of(begun.second, rows)
    except ListingFault as fault:
        raise Malformed(number, str(fault)) from None
    if begun.crawls:
        server.crawl()


def lines_of(script: bytes) -> Iterator[Tuple[int, bytes]]:
    """The lines with their numbers. The last one may have no newline."""
    start = 0
    number = 1
    while start < len(script):
        newline = script.find(b"\n", start)
        end = newline if newline >= 0 else len(script)
        if min(end + 1, len(script)) > MAX_SCRIPT:
            raise TooLong
        yield number, script[start:end]
        start = end + 1
        number += 1


def line_said(number: int, line: bytes) -> Said:
    if len(line) > MAX_SCRIPT_LINE:
        raise Malformed(number, "line too long")
    try:
        return read_line(line)
    except NotALine:
        raise Malformed(number, "not a line") from None


def read_line(line: bytes) -> Said:
    """What a line says. One space separates two words. The last word of a row, of an ask and of `done` is the rest."""
    if line == b"end":
        return ListingEnds()
    word, rest = split_word(line)
    if word in (b"pass", b"tree"):
        return ListingBegins(number_of(rest), crawls=word == b"pass")
    if word == b"leave":
        return Leave(client_of(rest))
    if word == b"idle":
        return Idle(client_of(rest))
    if word == b"fire" and rest in (b"ok", b"fail"):
        return Fire(rest == b"ok")
    if word == b"done":
        return Done(rest)
    if word == b"ask":
        client, asked = split_word(rest)
        return Ask(client_of(client), asked)
    if word in LETTERS:
        size, rest = split_word(rest)
        mtime_ms, name = split_word(rest)
        return Row(name, Sight(word.decode(), number_of(size), number_of(mtime_ms)))
    raise NotALine


def split_word(line: bytes) -> Tuple[bytes, bytes]:
    word, space, rest = line.partition(b" ")
    if not space:
        raise NotALine
    return word, rest


def client_of(word: bytes) -> int:
    number = number_of(word)
    if not 1 <= number <= MAX_CLIENT:
        raise NotALine
    return number


def number_of(word: bytes) -> int:
    """A number from -2^63 to 2^63 - 1, which is written in one way."""
    if NUMBER.fullmatch(word) is None or not -(2**63) <= int(word) < 2**63:
        raise NotALine
    return int(word)


def main() -> None:
    output, errors, status = replay(sys.stdin.buffer.read())
    sys.stdout.buffer.write(output)
    sys.stderr.buffer.write(errors)
    sys.exit(status)


if __name__ == "__main__":
    main()
