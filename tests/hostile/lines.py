"""Drawn lines of a client about a root that a server watches, and lines that were damaged."""

from typing import Callable, List

from draws import Draws, array, json_object, json_text
from generate import ANY_VALUES, BAD_LINES, command, query, subscribing
from generate_terms import World
from generate_triggers import trigger_command

# The bytes that replace one of a damaged line: some have a meaning in JSON or UTF-8, and some are refused there.
BYTES = b'"\\[]{},:0123456789-+.eE \t\r\n\x00\x1f\x7f\x80\xbf\xc0\xc3\xe2\xed\xf0\xff/utn'
# Of these a damaged line could watch another directory, or add another program than the plain program knows.
KEPT_WHOLE = (b"watch", b"program-add")


def drawn_line(draws: Draws, root: str, world: World) -> bytes:
    """A line about this root, which may have newlines in it if it was damaged."""
    if draws.one_in(12):
        return draws.pick(BAD_LINES)
    line = asked_line(draws, root, world).encode()
    if draws.one_in(2) and not any(word in line for word in KEPT_WHOLE):
        line = damaged(draws, line)
    return line


def asked_line(draws: Draws, root: str, world: World) -> str:
    """A line that is a command, which may be refused for its arguments."""
    kind = draws.below(20)
    if kind < 11:
        return array(draws, ['"query"', root_text(draws, root), query(draws, world)])
    if kind < 13:
        options = json_object(draws, [("sync_timeout", draws.pick(ANY_VALUES + ["0", "5000"]))])
        return array(draws, ['"clock"', root_text(draws, root)] + draws.pick([[], [options]]))
    if kind < 15:
        return command(draws)
    if kind < 17:
        return at_root(subscribing(draws, world), draws, root)
    if kind < 18:
        return trigger_command(draws, world, root_text(draws, root))
    return array(
        draws,
        draws.pick(
            [
                ['"watch"', root_text(draws, root)],
                ['"watch-project"', root_text(draws, root)],
                ['"watch-list"'],
                ['"watch"', '"r"'],
                ['"watch"', '""'],
                ['"watch"', "7"],
                ['"watch-del"', '"/there/is/nothing"'],
            ]
        ),
    )


def at_root(line: str, draws: Draws, root: str) -> str:
    """A drawn line about the root of scripts, said of this root."""
    for text in ('"/r"', '"/r/"', '"/r///"', '"\\u002fr"'):
        line = line.replace(text, root_text(draws, root))
    return line


def root_text(draws: Draws, root: str) -> str:
    """The root in JSON, in one of its spellings."""
    return json_text(draws, root + draws.pick(["", "", "", "/", "///"]))


def damaged(draws: Draws, line: bytes) -> bytes:
    """The line with bytes changed, cut, doubled or joined to others, once to three times."""
    for _ in range(draws.between(1, 3)):
        line = draws.pick(DAMAGES)(draws, line)
    return line


def part_of(draws: Draws, line: bytes) -> slice:
    begin = draws.below(len(line) + 1)
    return slice(begin, begin + draws.pick([1, 1, 2, 3, 8, 40]))


def change(draws: Draws, line: bytes) -> bytes:
    place = draws.below(len(line) + 1)
    return line[:place] + bytes([draws.pick(BYTES)]) + line[place + 1 :]


def insert(draws: Draws, line: bytes) -> bytes:
    place = draws.below(len(line) + 1)
    return line[:place] + bytes([draws.pick(BYTES)]) + line[place:]


def cut(draws: Draws, line: bytes) -> bytes:
    part = part_of(draws, line)
    return line[: part.start] + line[part.stop :]


def end_early(draws: Draws, line: bytes) -> bytes:
    return line[: draws.below(len(line) + 1)]


def double(draws: Draws, line: bytes) -> bytes:
    part = part_of(draws, line)
    return line[: part.stop] + line[part.start :]


def join(draws: Draws, line: bytes) -> bytes:
    return line + draws.pick([b"", b" ", b",", b"\n"]) + line


DAMAGES: List[Callable[[Draws, bytes], bytes]] = [change, change, insert, cut, cut, end_early, double, join]


def drawn_bytes(draws: Draws) -> bytes:
    """Bytes that are no line of anybody: of all values, of those of JSON, of letters and digits, or of UTF-8's longer
    forms."""
    alphabet = draws.pick(
        [bytes(range(256)), BYTES, b'[]{},:"', b"0123456789.eE-+,", bytes(range(128, 256)), b'\\u"d8c[]']
    )
    return bytes(draws.pick(alphabet) for _ in range(draws.pick([1, 3, 20, 200, 2000])))
