"""Braces in a glob, `*.{c,h}`, which stand for several globs as in a shell. The patterns of the server know none."""

import os
from typing import List

from .trouble import WrongWords

MOST = 1_000


def has_braces(word: str) -> bool:
    """Whether a word has alternatives in braces, and is no name that is there."""
    return "{" in word and len(expanded(word)) > 1 and not os.path.lexists(word)


def all_expanded(words: List[str]) -> List[str]:
    found = [one for word in words for one in (expanded(word) if has_braces(word) else [word])]
    if len(found) > MOST:
        raise WrongWords(f"the braces are short for {len(found):,} globs, and at most {MOST:,} may be")
    return found


def expanded(word: str) -> List[str]:
    """The words that a word is short for. A backslash takes the meaning of what comes after it."""
    place = 0
    while place < len(word):
        if word[place] == "\\":
            place += 1
        elif word[place] == "{":
            cuts = cuts_of(word, place)
            if len(cuts) > 2:
                choices = [word[begin + 1 : end] for begin, end in zip(cuts, cuts[1:])]
                rest = expanded(word[cuts[-1] + 1 :])
                return [word[:place] + inner + end for choice in choices for inner in expanded(choice) for end in rest]
        place += 1
    return [word]


def cuts_of(word: str, begin: int) -> List[int]:
    """The places of a brace, its commas and its end; nothing if it has no end."""
    cuts, depth, place = [begin], 0, begin + 1
    while place < len(word):
        letter = word[place]
        if letter == "\\":
            place += 1
        elif letter == "{":
            depth += 1
        elif letter == "}" and depth:
            depth -= 1
        elif letter in ",}" and not depth:
            cuts.append(place)
            if letter == "}":
                return cuts
        place += 1
    return []
