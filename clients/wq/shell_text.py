"""A text for a shell, in which `{}` is for names. The shell takes them from its own words, since a name could have
letters that the shell obeys."""

from typing import List

from .trouble import WrongWords

PLACE, NAMES = "{}", '"$@"'
QUOTES = ("'", '"')
# Within these no words of the shell's own begin.
HINDER = (*QUOTES, "\\")


def with_names(text: str) -> str:
    """The text with the shell's own words for each `{}`."""
    found, place = "", 0
    while place < len(text):
        form = form_at(text, place)
        found += NAMES if form else text[place]
        place += len(form) or 1
    return found


def form_at(text: str, place: int) -> str:
    """The `{}` that begins at a place of a text, with quotes if they are around it alone: two more would end those, and
    then a name with a space would be two words."""
    if text.startswith(PLACE, place):
        if open_at(text, place) in HINDER:
            raise WrongWords("in a text for a shell {} is the names, as words of their own: take it out of the quotes")
        return PLACE
    forms = (quote + PLACE + quote for quote in QUOTES if open_at(text, place) not in HINDER)
    return next((form for form in forms if text.startswith(form, place)), "") if text[place] in QUOTES else ""


def open_at(text: str, end: int) -> str:
    """The sign that ends what is open in a text at some place, such as a quote; a backslash if one comes just before;
    else nothing."""
    ends: List[str] = [""]
    place = 0
    while place < end:
        letter, inner = text[place], ends[-1]
        if inner == "'":
            if letter == "'":
                ends.pop()
        elif letter == "\\":
            place += 1
        elif letter == inner:
            ends.pop()
        elif letter in '"`' or letter == "'" and inner != '"':
            ends.append(letter)
        elif letter == "(" and (inner != '"' or text[place - 1 : place] == "$"):
            ends.append(")")
        place += 1
    return ends[-1] if place == end else "\\"
