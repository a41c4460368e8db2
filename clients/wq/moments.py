"""Moments that a person names: an age, such as `2h`, or a date."""

import re
import time

from .trouble import WrongWords
from .vocabulary import quoted

AGE = re.compile(r"([0-9]+(?:\.[0-9]+)?) ?([a-z]+)")
SECONDS = {"s": 1, "m": 60, "h": 3_600, "d": 86_400, "w": 604_800, "month": 2_629_746, "y": 31_556_952}
UNITS = {"sec": "s", "second": "s", "min": "m", "minute": "m", "hour": "h", "day": "d", "week": "w", "year": "y"}


def second_of(word: str, option: str) -> int:
    """The second of the Unix epoch that an option's value names."""
    found = AGE.fullmatch(word)
    unit = found[2] if found else ""
    unit = unit if unit in SECONDS else unit.rstrip("s")
    length = SECONDS.get(UNITS.get(unit, unit))
    second = time.time() - float(found[1]) * length if found and length else date_of(word, option)
    if second < 0:
        raise WrongWords(f"{option} takes a time since 1970, and not {quoted(word)}")
    return int(second)


def date_of(word: str, option: str) -> float:
    """A date, perhaps with a time of day and a zone; without a zone it is of here."""
    from datetime import datetime

    try:
        if word.startswith("@"):
            return float(word[1:])
        return datetime.fromisoformat(word[:-1] + "+00:00" if word.endswith("Z") else word).timestamp()
    except (ValueError, OverflowError):
        takes = "an age, such as 30s, 10min, 2h, 3d or 1w, or a date, such as 2026-11-28 or '2026-11-28 10:00'"
        raise WrongWords(f"{option} takes {takes}, and not {quoted(word)}") from None
