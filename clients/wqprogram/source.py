"""Reads the words of a text that says a program: names, numbers, texts in quotes and marks, each with its line and
column.

A `#` and what follows it on the line is a comment. Blanks separate words and say nothing else.
"""

import difflib
import re
from typing import Iterable, Iterator, NamedTuple, Optional, Tuple

BLANKS = re.compile(r"[ \t\r]+|#[^\n]*")
# A word of a program: whatever is up to a blank, a mark, a quote or a comment.
WORD = re.compile(r'[^\s:\[\],"#]+')
NAME = re.compile(r"[A-Za-z_][A-Za-z0-9_-]*")
NUMBER = re.compile(r"-?[0-9]+")
MARKS = ":[],"
PLAIN = re.compile(r'[^"\\\n]+')
BYTE = re.compile(r"x([0-9A-Fa-f]{2})")
ESCAPES = {'"': b'"', "\\": b"\\", "n": b"\n", "t": b"\t"}
# Longer words are cut in messages.
LONGEST_SHOWN = 40
# So many of the words that may be in a place are shown.
MOST_SHOWN = 8
# No number of so many digits is in any range.
MOST_DIGITS = 40


class TextFault(Exception):
    """The text says no program: at this line and column, both counted from 1, is a word with a fault that has a name,
    and something else was expected."""

    def __init__(self, name: str, line: int, column: int, found: str, expected: str) -> None:
        super().__init__(f"{line}:{column}: {name}: found {found}, expected {expected}")
        self.name = name
        self.line = line
        self.column = column


class Token(NamedTuple):
    """A word of the text. The kind is `name`, `number`, `text`, a mark, `line` for the end of a line, `end` for that of
    the text, `other` for what is no word of a program, or `fault`. A text has its bytes in `data`, and a fault its
    error."""

    kind: str
    word: str
    line: int
    column: int
    number: int = 0
    data: bytes = b""
    error: Optional[TextFault] = None

    def fault(self, name: str, expected: str) -> TextFault:
        return TextFault(name, self.line, self.column, self.shown(), expected)

    def shown(self) -> str:
        if self.kind == "line":
            return "the end of the line"
        if self.kind == "end":
            return "the end of the text"
        word = cut(self.word)
        shown = word if word.isprintable() else word.encode("unicode_escape").decode()
        return shown if self.kind == "text" else f'"{shown}"'


def one_of(words: Iterable[str], word: str = "") -> str:
    """The words that may be in the place of this one: the one that it may have been meant for, or all, of which some
    are shown."""
    choices = list(words)
    near = difflib.get_close_matches(word, choices, 1)
    shown = [f'"{cut(choice)}"' for choice in near or choices[:MOST_SHOWN]]
    if not near and len(choices) > MOST_SHOWN:
        shown.append(f"one of {len(choices) - MOST_SHOWN:,} others")
    return ", ".join(shown[:-1]) + (" or " if shown[1:] else "") + shown[-1]


def cut(word: str) -> str:
    """The word as a message has it."""
    return word if len(word) <= LONGEST_SHOWN else word[:LONGEST_SHOWN] + ".."


def text_of(data: bytes) -> str:
    """The text of a file, which is in UTF-8."""
    try:
        return data.decode("utf-8")
    except UnicodeDecodeError as error:
        before = data[: error.start].decode("utf-8")
        line, column = before.count("\n") + 1, len(before) - before.rfind("\n")
        raise TextFault("not UTF-8", line, column, f"the byte {data[error.start]:02x}", "a text in UTF-8") from None


def tokens_of(text: str) -> Iterator[Token]:
    """The words of the text, with a `line` at the end of each line that has some, and an `end`. A fault of a word is a
    token too, the last one."""
    before = "line"
    try:
        for token in Scanner(text).tokens():
            if token.kind != "line" or before != "line":
                yield token
            before = token.kind
    except TextFault as fault:
        yield Token("fault", "", fault.line, fault.column, error=fault)


class Scanner:
    """Goes through a text from left to right."""

    def __init__(self, text: str) -> None:
        self.text = text
        self.place = 0
        self.line = 1
        self.line_start = 0

    def tokens(self) -> Iterator[Token]:
        while True:
            blanks = BLANKS.match(self.text, self.place)
            if blanks is not None:
                self.place = blanks.end()
                continue
            token = self.token()
            if token.kind == "end":
                yield token._replace(kind="line")
                yield token
                return
            yield token

    def token(self) -> Token:
        start = self.place
        here = self.text[start : start + 1]
        if not here:
            return self.token_to(start, "end")
        if here == "\n":
            token = self.token_to(start + 1, "line")
            self.line, self.line_start = self.line + 1, start + 1
            return token
        if here in MARKS:
            return self.token_to(start + 1, here)
        if here == '"':
            return self.quoted()
        word = WORD.match(self.text, start)
        end = start + 1 if word is None else word.end()
        return self.token_to(end, kind_of(self.text[start:end]))

    def token_to(self, end: int, kind: str, data: bytes = b"") -> Token:
        word, column = self.text[self.place : end], self.place - self.line_start + 1
        self.place = end
        return Token(kind, word, self.line, column, number_of(word) if kind == "number" else 0, data)

    def quoted(self) -> Token:
        """A text in quotes, and its bytes: those of its letters in UTF-8, and of its escapes."""
        place, parts = self.place + 1, []
        while self.text[place : place + 1] != '"':
            plain = PLAIN.match(self.text, place)
            if plain is not None:
                parts.append(plain.group().encode("utf-8"))
                place = plain.end()
            elif self.text[place : place + 1] == "\\":
                place, data = self.escape(place + 1)
                parts.append(data)
            else:
                raise self.token_to(place, "text").fault("text without end", "a quote at its end, on the same line")
        return self.token_to(place + 1, "text", b"".join(parts))

    def escape(self, place: int) -> Tuple[int, bytes]:
        """The place after an escape, and its bytes."""
        letter = self.text[place : place + 1]
        if letter in ESCAPES:
            return place + 1, ESCAPES[letter]
        byte = BYTE.match(self.text, place)
        if byte is not None:
            return byte.end(), bytes([int(byte.group(1), 16)])
        self.place = place - 1
        found = self.token_to(place + len(letter.strip("\n")), "other")
        raise found.fault("unknown escape", r"\", \\, \n, \t, or \x and two digits of a byte")


def number_of(word: str) -> int:
    """The number that a word says. One of very many digits is another that is out of range too."""
    digits = word.lstrip("-0")[:MOST_DIGITS] or "0"
    return -int(digits) if word.startswith("-") else int(digits)


def kind_of(word: str) -> str:
    if NUMBER.fullmatch(word):
        return "number"
    return "name" if NAME.fullmatch(word) else "other"


class Words:
    """The tokens of a text, taken one by one. No more of them are kept than two, since a text may be very long."""

    def __init__(self, tokens: Iterator[Token]) -> None:
        self.tokens = tokens
        self.first = next(tokens)
        self.second = next(tokens, None)

    @property
    def next(self) -> Token:
        """The next token. A fault is raised when it is reached, so what is wrong before it counts first."""
        if self.first.error is not None:
            raise self.first.error
        return self.first

    @property
    def after_next(self) -> Optional[Token]:
        return self.second

    def take(self) -> Token:
        token = self.next
        if self.second is not None:
            self.first, self.second = self.second, next(self.tokens, None)
        return token

    def take_if(self, kind: str) -> Optional[Token]:
        return self.take() if self.next.kind == kind else None

    def skip_lines(self) -> None:
        while self.next.kind == "line":
            self.take()

    def require(self, kind: str, expected: str) -> Token:
        if self.next.kind != kind:
            raise self.next.fault(fault_of(self.next), expected)
        return self.take()

    def end_line(self) -> None:
        self.require("line", "the end of the line")


def fault_of(token: Token) -> str:
    """The name of the fault of a token that is of another kind than what was expected."""
    return "missing word" if token.kind in ("line", "end") else "unexpected word"
