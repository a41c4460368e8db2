"""The words of a source in Rattle, and a reader that goes over them."""

import re
from typing import List, Sequence

TOKEN = re.compile(
    r"""(?P<blank>\s+|//[^\n]*)
    |(?P<token>b?r\#".*?"\#|b?r?"(?:\\.|[^"\\])*"|b?'(?:\\(?:x[0-9a-fA-F]{2}|u\{[^}]*\}|.)|[^'\\\n])'
    |'[a-z_]\w*|[A-Za-z_]\w*|\d\w*(?:\.\d\w*)?|::|->|=>|\.\.=|\.\.|&&|\|\||==|!=|<=|>=|[-+*/%^&|]=|.)""",
    re.X | re.S,
)
CLOSING = {"(": ")", "[": "]", "{": "}"}


class Unread(Exception):
    """A text that is not as the reader knows the language."""


def tokens(text: str) -> List[str]:
    return [found["token"] for found in TOKEN.finditer(text) if found["token"]]


def is_name(token: str) -> bool:
    return token[:1].isalpha() or token[:1] == "_"


class Reader:
    """Tokens, and a place in them. What is behind the last one is the empty token."""

    def __init__(self, words: Sequence[str]) -> None:
        self.words = words
        self.place = 0

    def peek(self, ahead: int = 0) -> str:
        place = self.place + ahead
        return self.words[place] if place < len(self.words) else ""

    def next(self) -> str:
        self.place += 1
        return self.words[self.place - 1] if self.place <= len(self.words) else ""

    def take(self, *tokens: str) -> bool:
        """Goes over one of these tokens, if it is next."""
        is_next = self.peek() in tokens and self.peek() != ""
        self.place += is_next
        return is_next

    def need(self, token: str) -> None:
        if not self.take(token):
            raise Unread(f"{token} is not in {' '.join(self.words[max(self.place - 8, 0):self.place + 4])}")

    def skip(self) -> None:
        """Goes over a token, and if it opens something, over all that is inside."""
        closing = CLOSING.get(self.next())
        while closing and self.peek() and not self.take(closing):
            self.skip()

    def skip_angles(self) -> None:
        """Goes over what is between `<` and its `>`, if that is next."""
        if self.take("<"):
            while self.peek() and not self.take(">"):
                if self.peek() == "<":
                    self.skip_angles()
                else:
                    self.skip()
