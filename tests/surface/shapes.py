"""The shapes of public types, traits and calls: as the sources of the crates have them, and as a text names them."""

import re
import sys
from functools import lru_cache
from pathlib import Path
from typing import Dict, Iterator, List, NamedTuple, Tuple

import built

sys.path[:0] = [str(built.TOP / "docs" / "crates")]

from contracts import CALL, EXPORT, contract_from, places, read

CRATES = built.TOP / "crates"
DECLARED = re.compile(r"(?:(?:struct|enum|trait) )?(?:(?P<crate>wqd|wq_\w+)::)?(?P<name>\w+(?:::\w+)*)(?P<shape>.*)")
TYPE = re.compile(r"(?m)^pub (?P<kind>struct|enum|trait) (?P<name>\w+)[^;{]*(?:;|(?P<body>\{(?:\}|.*?\n\})))", re.S)
NOTE = re.compile(r"//[^\n]*|#\[[^\n]*\]")
LIFETIME = re.compile(r"(?<=&)'\w+ |<'\w+(?:, '\w+)*>|'\w+, ")
# What each opening bracket is closed by; the arrow of a result closes nothing.
CLOSED = {"(": ")", "<": ">", "[": "]", "{": "}"}


class Declared(NamedTuple):
    """A name with its shape: the public fields of a type, or its variants, or what a call takes and gives. The crate
    and the shape may be left out."""

    crate: str
    name: str
    shape: str

    def is_as(self, found: str) -> bool:
        """Whether the shape that was found is this one."""
        if not self.shape.startswith("{"):
            return not self.shape or is_like(self.shape, found)
        wanted, has = parts(inside(self.shape)), parts(inside(found))
        return len(wanted) == len(has) and all(any(is_member(part, other) for other in has) for part in wanted)


def declared(text: str) -> Declared:
    """What a text such as `View::len(&self) -> usize` declares."""
    found = DECLARED.fullmatch(text.strip())
    return Declared(found["crate"] or "", found["name"], found["shape"].strip()) if found else Declared("", text, "")


def is_like(wanted: str, found: str) -> bool:
    return bool(re.fullmatch(re.escape(wanted).replace(r"\.\.", ".*"), found))


def is_member(wanted: str, found: str) -> bool:
    """Whether a field or variant is the one that is wanted, which may leave out what it holds."""
    return is_like(wanted, found) or wanted == head_of(found)


def head_of(member: str) -> str:
    return re.split(r"\W", member)[0]


@lru_cache(maxsize=None)
def shapes_of(crate: str) -> Dict[str, str]:
    """The public names of a crate with their shapes, also of what it hands on."""
    shapes: Dict[str, str] = {}
    library = CRATES / crate / "src" / "lib.rt"
    for found in EXPORT.finditer(library.read_text(encoding="utf-8") if library.is_file() else ""):
        names = {name.strip() for name in (found["names"] or found["name"]).split(",")}
        is_of_other = (CRATES / found["module"]).is_dir()
        source = shapes_of(found["module"]) if is_of_other else own_shapes(crate)
        shapes.update({name: shape for name, shape in source.items() if name.split("::")[0] in names})
    return shapes


@lru_cache(maxsize=None)
def own_shapes(crate: str) -> Dict[str, str]:
    paths = sorted((CRATES / crate / "src").rglob("*.rt"))
    return {name: shape for path in paths for found in (types_in(path), calls_in(path)) for name, shape in found}


def types_in(path: Path) -> Iterator[Tuple[str, str]]:
    for found in TYPE.finditer(NOTE.sub("", path.read_text(encoding="utf-8"))):
        yield found["name"], shape_of_type(found["kind"], found["body"] or "")


def shape_of_type(kind: str, body: str) -> str:
    if kind == "trait":
        return ""
    if kind == "struct":
        return f"{{ {', '.join(plain(field) for field in re.findall(r'(?m)^    pub (.+),$', body))} }}"
    return f"{{ {', '.join(plain(variant) for variant in parts(inside(body)))} }}"


def calls_in(path: Path) -> Iterator[Tuple[str, str]]:
    source = read(path)
    for at, owner in places(source.lines):
        name = CALL.match(source.lines[at].strip())["name"]
        yield (f"{owner}::{name}" if owner else name), shape_of_call(contract_from(source.lines, at))


def shape_of_call(text: str) -> str:
    """What a call takes and gives, of its text up to its body. An allocator counts only beside a `self`, which should
    have one."""
    begin = CALL.search(text).end()
    if text[begin] == "<":
        begin = end_of(text, begin)
    end = end_of(text, begin)
    arguments = [re.sub(r"^(?:mut )?\w+: ", "", plain(part)) for part in parts(text[begin + 1 : end - 1])]
    has_self = bool(arguments) and arguments[0].endswith("self")
    taken = ", ".join(argument for argument in arguments if has_self or argument != "Global")
    given = re.match(r" -> (.+?)(?: \{\}?|;)?$", text[end:], re.M)
    return f"({taken})" + (f" -> {plain(given[1])}" if given else "")


def plain(text: str) -> str:
    """A type without lifetimes, on one line."""
    return LIFETIME.sub("", " ".join(text.split())).replace("{ ", "{").replace(" }", "}").replace(",}", "}")


def inside(text: str) -> str:
    return text.strip()[1:-1]


def parts(text: str) -> List[str]:
    """What the commas outside of all brackets part."""
    ends = [at for at, letter in letters(text) if letter == ","]
    cut = [text[begin + 1 : end].strip() for begin, end in zip([-1, *ends], [*ends, len(text)])]
    return [part for part in cut if part]


def end_of(text: str, begin: int) -> int:
    """The place behind the bracket that closes the one at the given place."""
    return next(at for at, _ in letters(text[begin + 1 :]) if text[begin + 1 + at] == CLOSED[text[begin]]) + begin + 2


def letters(text: str) -> Iterator[Tuple[int, str]]:
    """The letters outside of all brackets, with their places."""
    open_ones: List[str] = []
    for at, letter in enumerate(text):
        is_arrow = letter == ">" and text[at - 1 : at] == "-"
        if not open_ones and not is_arrow:
            yield at, letter
        if letter in CLOSED:
            open_ones.append(CLOSED[letter])
        elif open_ones and letter == open_ones[-1] and not is_arrow:
            open_ones.pop()
