"""Wildmatch patterns: a pattern is a row of atoms, and fits a text that can be cut into one part for each."""

from functools import lru_cache
from typing import AbstractSet, FrozenSet, List, NamedTuple, Optional, Set, Tuple

SLASH, DOT, STAR, QUESTION, BACKSLASH, DASH = b"/.*?\\-"
OPEN, CLOSE = b"[]"

SMALL = bytes(range(256)).lower()
CAPITAL = bytes(range(256)).upper()
UPPER = range(ord("A"), ord("Z") + 1)
LOWER = range(ord("a"), ord("z") + 1)
DIGIT = range(ord("0"), ord("9") + 1)
ALNUM = {*UPPER, *LOWER, *DIGIT}
GRAPH = range(33, 127)
NAMED_CLASSES = {
    b"upper": UPPER,
    b"lower": LOWER,
    b"alpha": {*UPPER, *LOWER},
    b"digit": DIGIT,
    b"alnum": ALNUM,
    b"xdigit": set(b"0123456789ABCDEFabcdef"),
    b"blank": set(b" \t"),
    b"space": {ord(" "), *range(9, 14)},
    b"print": range(32, 127),
    b"graph": GRAPH,
    b"punct": set(GRAPH) - ALNUM,
    b"cntrl": {*range(32), 127},
}


class Flags(NamedTuple):
    """`wholename`: the text is a whole name. `dotfiles`: a leading dot is a byte as any other. `noescape`: so is a
    backslash. `fold`: A to Z count as a to z."""

    wholename: bool = False
    dotfiles: bool = False
    noescape: bool = False
    fold: bool = False


class Atom(NamedTuple):
    """`literal` and `class` take one of `members`, `one` any one byte, `star` a run of bytes, `directories` what
    `**/` takes, `rest` what a last `**` takes. `nothing` fits nothing."""

    kind: str
    members: FrozenSet[int] = frozenset()


NOTHING = Atom("nothing")
# The atoms that take no part of more than one byte.
OF_ONE_BYTE = ("literal", "one", "class")


class NoEnd(Exception):
    """The class has no closing bracket."""


def fits(atoms: List[Atom], flags: Flags, text: bytes) -> bool:
    """Tries every cut of the text: `ends` are the places where the parts of the atoms so far can end."""
    ends = {0}
    for atom in atoms:
        longest = 1 if atom.kind in OF_ONE_BYTE else len(text)
        ends = {
            end
            for start in ends
            for end in range(start, min(start + longest, len(text)) + 1)
            if takes(atom, flags, text, start, end)
        }
    return len(text) in ends


def takes(atom: Atom, flags: Flags, text: bytes, start: int, end: int) -> bool:
    """Whether the part of the text from `start` to `end` is one that the atom takes."""
    part = text[start:end]
    if atom.kind == "literal":
        return len(part) == 1 and part[0] in atom.members
    if not flags.dotfiles and has_leading_dot(text, start, end):
        return False
    if atom.kind == "directories":
        return part == b"" or part.endswith(b"/")
    if atom.kind == "rest":
        return True
    if flags.wholename and SLASH in part:
        return False
    if atom.kind == "star":
        return True
    if atom.kind == "one":
        return len(part) == 1
    return atom.kind == "class" and len(part) == 1 and part[0] in atom.members


def has_leading_dot(text: bytes, start: int, end: int) -> bool:
    """Whether a dot of this part is the first byte of the text or comes after a slash."""
    return start < end and is_leading_dot(text, start) or text.find(b"/.", start, end) >= 0


def is_leading_dot(text: bytes, place: int) -> bool:
    return text[place] == DOT and (place == 0 or text[place - 1] == SLASH)


@lru_cache(maxsize=1_000)
def atoms_of(pattern: bytes, flags: Flags) -> List[Atom]:
    atoms: List[Atom] = []
    place = 0
    while place < len(pattern):
        atom, place = atom_at(pattern, place, flags, is_start(atoms))
        atoms.append(atom)
    return atoms


def is_start(atoms: List[Atom]) -> bool:
    """A start is the beginning of the pattern, and what follows a literal slash or a `**/`."""
    return not atoms or atoms[-1] == Atom("literal", frozenset({SLASH})) or atoms[-1].kind == "directories"


def atom_at(pattern: bytes, place: int, flags: Flags, at_start: bool) -> Tuple[Atom, int]:
    """The atom at this place, and the place behind it."""
    byte = pattern[place]
    if byte == STAR:
        return stars_at(pattern, place, flags.wholename and at_start)
    if byte == QUESTION:
        return Atom("one"), place + 1
    if byte == OPEN:
        return class_at(pattern, place + 1, flags)
    if byte == BACKSLASH and not flags.noescape:
        if place + 1 == len(pattern):
            return NOTHING, place + 1
        return literal(pattern[place + 1], flags), place + 2
    return literal(byte, flags), place + 1


def literal(byte: int, flags: Flags) -> Atom:
    return Atom("literal", in_either_case({byte}) if flags.fold else frozenset({byte}))


def stars_at(pattern: bytes, place: int, may_cross: bool) -> Tuple[Atom, int]:
    """The atom of the longest run of stars at this place."""
    end = place
    while end < len(pattern) and pattern[end] == STAR:
        end += 1
    if may_cross and end - place >= 2:
        if end == len(pattern):
            return Atom("rest"), end
        if pattern[end] == SLASH:
            return Atom("directories"), end + 1
    return Atom("star"), end


def class_at(pattern: bytes, place: int, flags: Flags) -> Tuple[Atom, int]:
    """The class whose opening bracket stands before this place."""
    is_negated = pattern[place : place + 1] in (b"!", b"^")
    try:
        members, end = class_members(pattern, place + 1 if is_negated else place, flags)
    except NoEnd:
        return NOTHING, len(pattern)
    if members is None:
        return NOTHING, end
    if flags.fold:
        members = in_either_case(members)
    return Atom("class", frozenset(range(256)) - members if is_negated else members), end


def class_members(pattern: bytes, place: int, flags: Flags) -> Tuple[Optional[FrozenSet[int]], int]:
    """The bytes of the items up to the closing bracket, or None where one has an unknown name."""
    members: Set[int] = set()
    has_unknown_name = False
    is_first = True
    while is_first or byte_at(pattern, place) != CLOSE:
        item, place = item_at(pattern, place, flags)
        has_unknown_name = has_unknown_name or item is None
        members.update(item or ())
        is_first = False
    return None if has_unknown_name else frozenset(members), place + 1


def item_at(pattern: bytes, place: int, flags: Flags) -> Tuple[Optional[FrozenSet[int]], int]:
    """The bytes of the item at this place: a named class, a range or a byte."""
    if pattern.startswith(b"[:", place):
        close = pattern.find(b"]", place + 2)
        if close > place + 2 and pattern[close - 1] == ord(":"):
            members = NAMED_CLASSES.get(pattern[place + 2 : close - 1])
            return None if members is None else frozenset(members), close + 1
    first, place = class_byte_at(pattern, place, flags)
    if byte_at(pattern, place) == DASH and byte_at(pattern, place + 1) != CLOSE:
        last, place = class_byte_at(pattern, place + 1, flags)
        return frozenset({first, *range(first, last + 1)}), place
    return frozenset({first}), place


def class_byte_at(pattern: bytes, place: int, flags: Flags) -> Tuple[int, int]:
    """The byte at this place of a class, or the one behind its backslash."""
    if byte_at(pattern, place) == BACKSLASH and not flags.noescape:
        place += 1
    return byte_at(pattern, place), place + 1


def byte_at(pattern: bytes, place: int) -> int:
    if place >= len(pattern):
        raise NoEnd
    return pattern[place]


def in_either_case(members: AbstractSet[int]) -> FrozenSet[int]:
    """The bytes that are one of these, or whose small or capital letter is."""
    return frozenset(byte for byte in range(256) if {byte, SMALL[byte], CAPITAL[byte]} & members)
