"""Numbers and times as words of the command line, which argparse has read."""

import argparse
from typing import Callable, Optional


def milliseconds(word: str) -> int:
    """A number of milliseconds. `500ms` and `2s` are understood too."""
    found = seconds_in(word)
    if found is None and not (word.isascii() and word.isdigit()):
        hint = f"; {word}s is seconds" if number_of(word) is not None else ""
        raise argparse.ArgumentTypeError(f"{word} is no number of milliseconds from 0 on{hint}")
    return int(word) if found is None else round(found * 1000)


def seconds(word: str) -> float:
    """A number of seconds. `500ms`, `2s` and `1min` are understood too."""
    found = number_of(word) if seconds_in(word) is None else seconds_in(word)
    if found is None:
        raise argparse.ArgumentTypeError(f"{word} is no number of seconds from 0 on")
    return found


def seconds_in(word: str) -> Optional[float]:
    """The seconds of a time with a unit; none if it is no such."""
    for unit, factor in (("ms", 0.001), ("s", 1.0), ("min", 60.0), ("m", 60.0), ("h", 3600.0)):
        if word.endswith(unit):
            number = number_of(word[: -len(unit)])
            return None if number is None else number * factor
    return None


def number_of(word: str) -> Optional[float]:
    """A number from 0 on that is written in digits, perhaps with a dot."""
    is_number = word.isascii() and word.replace(".", "", 1).isdigit()
    return float(word) if is_number else None


def whole(word: str, first: int = 0) -> int:
    if not (word.isascii() and word.isdigit()):
        raise argparse.ArgumentTypeError(f"{word} is no whole number from {first} on")
    return int(word)


def within(first: int, last: int, *others: str) -> Callable[[str], str]:
    """A number of the server's, as it is typed: one that the server refuses would be met when the last one has gone."""

    def number(word: str) -> str:
        if word not in others and not (word.isascii() and word.isdigit() and first <= int(word) <= last):
            more = "".join(f" or {other}" for other in others)
            raise argparse.ArgumentTypeError(f"it takes a number from {first:,} to {last:,}{more}, and not {word}")
        return word

    return number


def level(word: str) -> int:
    return whole(word, 1)
