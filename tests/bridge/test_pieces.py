"""Drawn lists of the server in pieces of all lengths, as the bridge tells them to clients of each encoding."""

import json
import random
import socket
from typing import Dict, List, cast

from bridged import VERSION, codec
from case import Case

from bridge.encodings import JSON, Encoding, Writer
from bridge.fields import KEPT, Lister, fields_of
from bridge.listing import Listed, Passing, list_for

DRAWS = 1_500
# Names are drawn of these: all that has a meaning in a list, and letters.
LETTERS = [
    *',"[]{}:\\',
    "\n",
    "\x01",
    "a",
    "b",
    "name",
    "ü",
    "€",
    ' "',
    '","',
    ',{"exists":',
    "files",
    '],"is_fresh_instance":',
]
ABOVE = ["", "", "d", ",", "[", "ü/€", "name", 'd"e', ",{", "}", "a\\b", '"', "size", "e\x01"]
ENCODINGS = [JSON, Encoding(1, 0), Encoding(2, 0)]


class Receiver:
    """A client that keeps what it is sent."""

    def __init__(self) -> None:
        self.data = b""

    def sendall(self, data: bytes) -> None:
        self.data += bytes(data)


class Drawn:
    """A line of the server, and the value that the client has to be told."""

    def __init__(self, draw: random.Random, encoding: Encoding) -> None:
        self.encoding = encoding
        is_fresh = draw.random() < 0.5
        wanted = draw.sample(KEPT, draw.randrange(0, len(KEPT)))
        above = draw.choice(ABOVE)
        self.lister = Lister(fields_of(wanted, encoding == JSON, is_fresh), "/r", above)
        names = sorted({drawn_name(draw) for _ in range(draw.choice([0, 1, 2, 5, 40]))})
        rows = [drawn_row(draw, name, is_fresh) for name in names]
        asked = self.lister.fields.asked
        files = [told(row, asked, above) for row in rows]
        value: Dict[str, object] = {
            "clock": "c:7:9:1:1",
            "files": files,
            "is_fresh_instance": is_fresh,
            "version": "wq-1",
        }
        self.comes_by_itself = draw.random() < 0.2
        if self.comes_by_itself:
            value.update(root='/r,"d', subscription='],"is_fresh_instance":', unilateral=True)
        self.line = json.dumps(value, sort_keys=True, separators=(",", ":"), ensure_ascii=False).encode()
        self.expected: Dict[str, object] = {
            **value,
            "version": VERSION,
            "files": [told(row, wanted, "") for row in rows],
        }


def drawn_name(draw: random.Random) -> str:
    return "".join(draw.choice(LETTERS) for _ in range(draw.choice([1, 1, 2, 5, 70])))


def drawn_row(draw: random.Random, name: str, is_fresh: bool) -> Dict[str, object]:
    return {
        "name": name,
        "exists": is_fresh or draw.random() < 0.5,
        "new": is_fresh or draw.random() < 0.5,
        "size": draw.choice([0, 7, 300, 70_000, 2**40]),
        "type": draw.choice("fdl"),
        "cclock": "c:7:9:1:1",
        "oclock": "c:7:9:1:2",
        "mtime": draw.choice([0, -1, 1_700_000_000]),
        "mtime_ms": draw.choice([-1, 1_700_000_000_123]),
    }


def told(row: Dict[str, object], fields: List[str], above: str) -> object:
    """A file with these fields: one alone is its value."""
    full = {**row, "name": f"{above}/{row['name']}" if above else row["name"]}
    return full[fields[0]] if len(fields) == 1 else {field: full[field] for field in fields}


class Pieces(Case):
    def test_pieces(self) -> None:
        """Each list is the drawn one, in whatever pieces its line comes. A list of a subscription is taken whole."""
        bser = codec()
        draw = random.Random(11)
        wrong: List[str] = []
        passed = 0
        for _number in range(DRAWS):
            encoding = draw.choice(ENCODINGS if bser else ENCODINGS[:1])
            drawn = Drawn(draw, encoding)
            receiver = Receiver()
            listed: Listed = list_for(drawn.lister, Writer(bser), encoding, cast(socket.socket, receiver))
            passed += isinstance(listed, Passing)
            listed.end(drawn.line if drawn.comes_by_itself else all_but_the_last(draw, drawn.line, listed))
            listed.tell()
            assert bser is not None or encoding == JSON
            found = (
                bser.loads(receiver.data, value_encoding="utf-8")
                if bser and encoding != JSON
                else json.loads(receiver.data)
            )
            if found != drawn.expected:
                wrong.append(f"{encoding}: {drawn.line!r}: {receiver.data!r} and not {drawn.expected}")
        self.check(f"{DRAWS} lists in pieces", not wrong, wrong[:3])
        self.check("many lists pass as they come", passed > DRAWS / 20, [f"{passed}"])


def all_but_the_last(draw: random.Random, line: bytes, listed: Listed) -> bytes:
    """Hands over the line in pieces, and gives the last."""
    most = draw.choice([1, 3, 20, 200, 100_000])
    while len(line) > most and draw.random() < 0.99:
        length = draw.randint(1, most)
        listed.add(line[:length])
        line = line[length:]
    return line
