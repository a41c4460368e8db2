"""Groups of hostile bytes, each of which the server answers as the plain program does."""

from pathlib import Path
from typing import Iterator, List

import built
from draws import Draws, array, json_object
from generate_terms import World
from lines import drawn_bytes, drawn_line
from rows import tables
from stage import NAMES, SEED, StageCase
from wqprogram.json_values import compact_text

LINES = 3_000
LINES_OF_A_CLIENT = 30
CLIENTS_OF_BYTES = 60

LONGEST_LINE = 1_048_576
MAX = 2**62
ROWS = tables(Path(__file__).with_name("groups.rows"))
POWERS = (2**31, 2**32, 2**53, MAX, 2**63, 2**64)
NUMBERS = [row.text() for row in ROWS["numbers"]]
NUMBERS += [str(sign * (power + more)) for power in POWERS for more in (-1, 0, 1) for sign in (1, -1)]

SESSION, TEXTS = ([row.data() for row in ROWS[name]] for name in ("session", "texts"))


class Groups(StageCase):
    def test_drawn_bytes(self) -> None:
        """Bytes that are no lines. What is left without a newline is not answered."""
        draws = Draws(SEED)
        for number in range(CLIENTS_OF_BYTES):
            data = b"".join(drawn_bytes(draws) + draws.pick([b"\n", b""]) for _ in range(5))
            self.compare(f"drawn bytes of client {number}", data, pieces_of(draws, data))

    def test_drawn_lines(self) -> None:
        """Lines, half of them damaged."""
        draws = Draws(SEED)
        root = str(self.stage.root)
        for number in range(0, LINES, LINES_OF_A_CLIENT):
            world = World(NAMES, self.stage.plain.view.tick, [0, 10, 1000], self.stage.plain.last_root)
            lines = [drawn_line(draws, root, world) for _ in range(LINES_OF_A_CLIENT)]
            if draws.one_in(10):
                lines[10:10] = [
                    array(draws, [f'"{word}"', compact_text(root)]).encode() for word in ("watch-del", "watch")
                ]
            data = b"".join(line + b"\n" for line in lines)
            self.compare(f"drawn lines from {number}", data, pieces_of(draws, data))

    def test_pieces(self) -> None:
        """The same bytes in pieces of each length. A piece is sent when the one before has been taken."""
        root = compact_text(str(self.stage.root)).encode()
        data = b'["version"]\n\n["clock",%s]\n["frob","\xc3\xbc"]\n\xff\n' % root
        data += b'["query",%s,{"expression":["name","\\ud83d\\ude00.txt"],"fields":["name"]}]\n7\n["version"' % root
        for length in range(1, len(data) + 1):
            self.compare(f"pieces of {length}", data, cut_in(data, length))

    def test_sessions_in_pieces(self) -> None:
        """A session, up to a line that ends it, is answered alike in pieces of each length."""
        root = compact_text(str(self.stage.root)).encode()
        data = b"".join(line.replace(b"ROOT", root) + b"\n" for line in SESSION)
        for length in (1, 7, 65_536):
            self.compare(f"a session in pieces of {length}", data, cut_in(data, length))

    def test_newlines(self) -> None:
        refusal = self.stage.plain_replies(b"\n")
        for count in (1, 2, 8, 9, 1000, 65_537):
            found = self.stage.replies(b"\n" * count)
            self.check(
                f"{count} newlines", found == refusal * count, [f"{len(found)} bytes", built.excerpt(found[-100:])]
            )
        for end in (b"\r\n", b" \n", b"\n\r", b"\x0b\n", b"\x85\n", "\u2028\n".encode()):
            self.compare(f"ends of lines {end!r}", end * 20 + b'["version"]' + end)

    def test_byte_0(self) -> None:
        """Byte 0 at each place of a line. As the first byte of a line it ends the session, without a newline too."""
        line = b'["clock",%s,{"sync_timeout":0}]' % compact_text(str(self.stage.root)).encode()
        within = [line[:place] + b"\0" + line[place:] for place in range(1, len(line) + 1)]
        self.compare("byte 0 within lines", b"".join(one + b"\n" for one in within))
        for data in (
            b"\0",
            b"\0\n",
            line + b"\n\0",
            b"\n\0" + line + b"\n",
            b"\0" * 70_000,
            b"\0" + b"x" * (LONGEST_LINE + 1),
        ):
            self.compare(f"byte 0 first, in {len(data)} bytes", data)

    def test_long_lines(self) -> None:
        """Lines as long as they may be, and longer by a byte."""
        for length in (LONGEST_LINE - 1, LONGEST_LINE, LONGEST_LINE + 1):
            for byte in b' ["0,{\\\xff':
                data = bytes([byte]) * length
                self.compare(f"{length} times {bytes([byte])!r}", data + b'\n["version"]\n')
                self.compare(f"{length} times {bytes([byte])!r} without an end", data)

    def test_numbers(self) -> None:
        """Numbers around each limit, wherever a line has one."""
        root = compact_text(str(self.stage.root))
        for number in NUMBERS:
            draws = Draws(0)
            queries = [
                [("since", number)],
                [("sync_timeout", number)],
                [("x", number)],
                [("path", f'[{{"path":"src","depth":{number}}}]')],
                [("expression", f'["size","eq",{number}]')],
                [("expression", f'["since",{number},"mtime"]')],
                [("expression", f'["dirname","src",["depth","le",{number}]]')],
                [("since", f'"c:7:9:1:{number}"')],
                [("since", f'"c:{number}:9:1:1"')],
            ]
            lines = [array(draws, ['"query"', root, json_object(draws, members)]) for members in queries]
            lines += [number, f'["frob",{number}]', f"[{number}]", f'["clock",{root},{{"sync_timeout":{number}}}]']
            lines.append(f'["trigger",{root},{{"name":"t","command":["true"],"max_files_stdin":{number}}}]')
            self.compare(f"the number {number[:40]}", "".join(line + "\n" for line in lines).encode())

    def test_texts(self) -> None:
        """Texts that are none, and texts of the longest characters, wherever a line has one."""
        root = compact_text(str(self.stage.root)).encode()
        places = [
            b'"%s"',
            b'["%s"]',
            b'["version","%s"]',
            b'["frob%s"]',
            b'["clock","/%s"]',
            b'["watch","q%s"]',
            b'["program-del","%s"]',
            b'["unsubscribe",' + root + b',"%s"]',
            b'["query",' + root + b',{"since":"n:%s","fields":["name"]}]',
            b'["query",' + root + b',{"%s":1,"fields":["name"]}]',
            b'["query",' + root + b',{"suffix":"%s","fields":["name"]}]',
            b'["query",' + root + b',{"expression":["name","%s","wholename"]}]',
            b'["query",' + root + b',{"expression":["match","%s"]}]',
            b'["subscribe",' + root + b',"s%s",{"expression":"false","fields":["name"]}]',
        ]
        for text in TEXTS:
            # A text within which a line ends is tried as two lines, as any reader of lines would read it.
            self.compare(f"the text {text!r}", b"".join(place.replace(b"%s", text) + b"\n" for place in places))


def pieces_of(draws: Draws, data: bytes) -> List[bytes]:
    """The bytes in pieces of a drawn length, or in one piece."""
    length = (
        draws.pick([1, 7, 64, 4096, 65_536, len(data)])
        if len(data) < 1000
        else draws.pick([64, 4096, 65_536, len(data)])
    )
    return list(cut_in(data, max(length, 1)))


def cut_in(data: bytes, length: int) -> Iterator[bytes]:
    for begin in range(0, len(data), length):
        yield data[begin : begin + length]
