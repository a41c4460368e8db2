"""Draws that a counter fixes, and JSON texts made of them."""

from typing import Any, List, Sequence, Tuple

from wqprogram.json_values import compact_text

MASK = 2**64 - 1


class Draws:
    """The generator splitmix64. The same counter always gives the same draws."""

    def __init__(self, counter: int) -> None:
        self.state = counter * 0xD1342543DE82EF95 & MASK

    def next(self) -> int:
        self.state = (self.state + 0x9E3779B97F4A7C15) & MASK
        mixed = self.state
        mixed = (mixed ^ mixed >> 30) * 0xBF58476D1CE4E5B9 & MASK
        mixed = (mixed ^ mixed >> 27) * 0x94D049BB133111EB & MASK
        return mixed ^ mixed >> 31

    def below(self, count: int) -> int:
        """A number from 0 to `count` - 1."""
        return self.next() % count

    def between(self, first: int, last: int) -> int:
        return first + self.below(last - first + 1)

    def one_in(self, count: int) -> bool:
        return self.below(count) == 0

    def pick(self, choices: Sequence[Any]) -> Any:
        return choices[self.below(len(choices))]

    def some(self, choices: Sequence[Any], most: int) -> List[Any]:
        """Up to `most` of the choices, some maybe twice."""
        return [self.pick(choices) for _ in range(self.below(most + 1))]


def json_text(draws: Draws, text: str) -> str:
    """The text in JSON, in one of its spellings."""
    if draws.one_in(12):
        return '"' + "".join(escapes_of(character) for character in text) + '"'
    return compact_text(text)


def escapes_of(character: str) -> str:
    """The character as one escape, or as two where it has two code units."""
    units = character.encode("utf-16-be")
    return "".join("\\u%02X%02x" % (units[place], units[place + 1]) for place in range(0, len(units), 2))


def array(draws: Draws, parts: Sequence[str]) -> str:
    comma = draws.pick([",", ",", ",", ", ", " ,\t"])
    return "[" + comma.join(parts) + "]"


def json_object(draws: Draws, members: Sequence[Tuple[str, str]]) -> str:
    colon = draws.pick([":", ":", ":", " : "])
    return "{" + ",".join(f"{json_text(draws, key)}{colon}{value}" for key, value in members) + "}"
