"""Words that name files outside of the directories that are asked about. They would be nothing without a word, since
each glob is for what lies below a directory."""

import os
import shlex
from typing import List, Sequence, Tuple

from .braces import has_braces
from .roots import Place, is_pattern
from .trouble import WrongWords

ABOVE = ".."


def parted(word: str) -> Tuple[str, str]:
    """A word as a directory and what lies below that: no part of the directory is a pattern."""
    parts = word.split("/")
    ends = [place for place, part in enumerate(parts) if is_pattern(part) or has_braces(part)]
    place = min(ends, default=len(parts) - 1)
    return "/".join(parts[:place]), "/".join(parts[place:])


def require_none_above(word: str) -> None:
    """Refuses a word with `..` in it, which is no directory."""
    if ABOVE not in word.split("/"):
        return
    directory, rest = parted(word)
    is_meant = is_pattern(rest) or has_braces(rest) or os.path.lexists(word)
    if is_meant and rest and ABOVE not in rest.split("/") and os.path.isdir(directory):
        raise WrongWords(in_two_words(word, directory, rest))
    raise WrongWords(f"{word} is no directory here, and no name below a directory has '..' in it")


def require_below(words: Sequence[str], places: List[Place]) -> None:
    """Refuses a path from `/` on which is below none of the directories. A slash at the front of another word says that
    its file is directly in a directory."""
    for word in words:
        directory, rest = parted(word)
        if os.path.isabs(word) and directory.strip("/") and os.path.isdir(directory):
            is_there = any(os.path.lexists(place.path() + directory) for place in places)
            is_below = any(f"{directory}/".startswith(f"{place.path().rstrip('/')}/") for place in places)
            if not is_there and not is_below and (is_pattern(rest) or has_braces(rest) or os.path.lexists(word)):
                raise WrongWords(in_two_words(word, directory, rest))


def in_two_words(word: str, directory: str, rest: str) -> str:
    """Without a slash the rest would be for names however deep."""
    words = shlex.join([directory, rest if "/" in rest else f"./{rest}"])
    return f"{word} is outside of the directories that are asked about; write: {words}"
