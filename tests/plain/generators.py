"""Generators: which files of a view a query starts from. Several give their union; without one all files are it."""

from typing import Any, List, NamedTuple, Optional

from wqprogram.clocks import Bound
from wqprogram.errors import BAD_GENERATOR, PATTERN_TOO_LONG, Refused
from wqprogram.json_values import is_whole_number
from wqprogram.limits import MAX_PATTERN
from wqprogram.patterns import Flags, atoms_of, fits
from wqprogram.records import Record
from wqprogram.terms import Test, is_short_text

ANY_DEPTH = -1


class Path(NamedTuple):
    """A file, and what lies below it; the depth counts the slashes of what follows it."""

    name: bytes
    depth: int


class Generators(NamedTuple):
    suffixes: Optional[List[bytes]] = None
    paths: Optional[List[Path]] = None
    globs: Optional[List[bytes]] = None
    takes_dots: bool = False


def read_generators(asked: Any) -> Generators:
    suffixes = read_suffixes(asked["suffix"]) if "suffix" in asked else None
    paths = read_paths(asked["path"]) if "path" in asked else None
    globs = read_globs(asked["glob"]) if "glob" in asked else None
    return Generators(suffixes, paths, globs, asked.get("glob_includedotfiles") is True)


def require(is_right: bool) -> None:
    if not is_right:
        raise Refused(BAD_GENERATOR)


def read_suffixes(value: Any) -> List[bytes]:
    texts = value if isinstance(value, list) else [value]
    require(all(is_short_text(text) for text in texts))
    return [text.encode() for text in texts]


def read_paths(value: Any) -> List[Path]:
    require(isinstance(value, list))
    return [read_path(item) for item in value]


def read_path(value: Any) -> Path:
    text: Any = value
    depth: Any = ANY_DEPTH
    if isinstance(value, dict):
        text, depth = value.get("path"), value.get("depth")
    require(is_short_text(text) and is_whole_number(depth) and depth >= ANY_DEPTH)
    return Path(text.encode().rstrip(b"/"), depth)


def read_globs(value: Any) -> List[bytes]:
    require(isinstance(value, list) and all(isinstance(text, str) for text in value))
    patterns = [text.encode() for text in value]
    if any(len(pattern) > MAX_PATTERN for pattern in patterns):
        raise Refused(PATTERN_TOO_LONG)
    return patterns


def candidate_test(bound: Bound, generators: Generators) -> Test:
    """Whether a record is one that the query starts from. `bytes.lower` changes A to Z alone."""
    tests = []
    if bound.kind == "tick":
        tests.append(lambda record: record.otick > bound.number)
    if bound.kind == "second":
        tests.append(lambda record: record.osec >= bound.number)
    if generators.suffixes is not None:
        folded = {suffix.lower() for suffix in generators.suffixes} - {b""}
        tests.append(lambda record: record.suffix is not None and record.suffix.lower() in folded)
    paths = generators.paths
    if paths is not None:
        tests.append(lambda record: any(is_at(record, path) for path in paths or ()))
    if generators.globs is not None:
        flags = Flags(wholename=True, dotfiles=generators.takes_dots)
        rows = [atoms_of(pattern, flags) for pattern in generators.globs]
        tests.append(lambda record: record.exists and any(fits(atoms, flags, record.name) for atoms in rows))
    return lambda record: not tests or any(test(record) for test in tests)


def is_at(record: Record, path: Path) -> bool:
    if record.name == path.name:
        return record.kind != "d"
    start = path.name + b"/" if path.name else b""
    depth = record.name[len(start) :].count(b"/")
    return record.name.startswith(start) and (path.depth == ANY_DEPTH or depth <= path.depth)
