"""The expression of what a command line asks for: the directory, globs, kinds, suffixes, sizes, times, and what is left
out."""

import argparse
import functools
import re
from typing import Any, Iterator, List, Sequence

from wqclient.names import KINDS

from .braces import all_expanded
from .git import is_installed, top_of
from .moments import second_of
from .roots import Place
from .terminal import say
from .trouble import WrongWords
from .values import read
from .vocabulary import quoted
from .warnings import of_glob, of_term

# People seldom mean these directories; --hidden brings them back. In a repository git says what of it is left out,
# but for what it keeps itself.
LEFT_OUT = (".git", ".hg", "node_modules", "target")
LEFT_OUT_BY_GIT = (".git", ".hg")
WITH_DOTS = {"includedotfiles": True}
SPECIAL = "*?[\\"
NAMES_OF_KINDS = {
    "file": "f",
    "dir": "d",
    "directory": "d",
    "link": "l",
    "symlink": "l",
    "block-device": "b",
    "char-device": "c",
    "pipe": "p",
    "fifo": "p",
    "socket": "s",
    "executable": "x",
    "empty": "e",
}
# These are no kinds to the server: a file that this user may run, and one without a byte.
EXECUTABLE, EMPTY = "x", "e"
FILE, LINK = "f", "l"
SIZE = re.compile(r"([+-]?)([0-9]+)([bkKmMgGtT]?)(i[bB]?|[bB])?")
LETTERS = "f (file), d (directory), l (link), x (executable), e (empty), b, c, p, s or D"
UNITS = {"": 0, "b": 0, "k": 1, "m": 2, "g": 3, "t": 4}


def expression_of(place: Place, globs: List[str], options: argparse.Namespace) -> Any:
    """The expression; `true` if all files are asked for. The one that the user wrote comes last."""
    parts: List[Any] = [*depth_terms(place, options)]
    if place.below and not parts:
        parts.append(["dirname", place.below])
    if globs:
        terms = [glob_terms(glob, place, options.ignore_case) for glob in all_expanded(globs)]
        parts.append(any_of([term for several in terms for term in several]))
    if options.type:
        parts += kind_terms([*kinds_of(options.type), *([LINK] if are_links_told(options) else [])])
    if options.ext:
        parts.append(["suffix", suffixes_of(options.ext)])
    if getattr(options, "size", None):
        require_files(options)
        parts += [["type", FILE], size_term(options.size)]
    if getattr(options, "newer", None):
        parts.append(["since", second_of(options.newer, "--newer"), "mtime"])
    if getattr(options, "older", None):
        parts.append(["not", ["since", second_of(options.older, "--older"), "mtime"]])
    left_out = left_out_terms(place, options)
    if left_out:
        parts.append(["not", any_of(left_out)])
    if getattr(options, "expression", None) is not None:
        parts.append(user_expression(options.expression))
    if not parts:
        return "true"
    return parts[0] if len(parts) == 1 else ["allof", *parts]


def restrictions(globs: List[str], options: argparse.Namespace) -> List[Any]:
    """What restricts a list, in the same form however it was written."""
    kinds = sorted(set(kinds_of(options.type))) if options.type else []
    lists = [sorted(set(found or [])) for found in (all_expanded(globs), kinds, options.ext, options.exclude)]
    return [
        *lists,
        options.hidden,
        options.dirs,
        options.ignore,
        options.gitignore,
        options.ignore_case,
        options.max_depth,
        options.min_depth,
    ]


def any_of(terms: List[Any]) -> Any:
    return terms[0] if len(terms) == 1 else ["anyof", *terms]


def escaped(text: str) -> str:
    """A pattern that fits this text alone."""
    return "".join(f"\\{letter}" if letter in SPECIAL else letter for letter in text)


def front_of(place: Place) -> str:
    """The front of a pattern for whole names below a directory."""
    return f"{escaped(place.below)}/" if place.below else ""


def depth_terms(place: Place, options: argparse.Namespace) -> Iterator[Any]:
    """Terms for how deep below the directory a file lies: 1 is directly in it."""
    for name, depth, relation in (("--max-depth", options.max_depth, "le"), ("--min-depth", options.min_depth, "ge")):
        if depth is not None:
            if depth < 1:
                raise WrongWords(f"{name} takes a number from 1 on, which is what lies directly in the directory")
            yield ["dirname", place.below, ["depth", relation, depth - 1]]


def glob_terms(glob: str, place: Place, ignores_case: bool = False) -> List[Any]:
    """The terms for a glob. Names such as `[id].tsx` have brackets, so each bracket is taken as it is too."""
    globs = [glob] if "[" not in glob or "\\" in glob else [glob, glob.replace("[", "\\[")]
    return [glob_term(one, place, ignores_case) for one in globs]


def glob_term(glob: str, place: Place, ignores_case: bool = False) -> Any:
    """A glob without a slash is for the last part of a name, however deep. One with a slash is for the name below the
    directory; a slash or `./` at its front says no more than that."""
    directory = f"{place.path().rstrip('/')}/"
    match = "imatch" if ignores_case else "match"
    if glob.startswith("./"):
        glob = glob[1:]
    elif glob.startswith(directory) and len(glob) > len(directory):
        glob = "/" + glob[len(directory) :]
    if "/" not in glob:
        warn(of_glob(glob, "the glob", False, False, True))
        return [match, glob, "basename", WITH_DOTS]
    glob = glob[1:] if glob.startswith("/") else glob
    warn(of_glob(glob, "the glob", True, False, True))
    return [match, front_of(place) + glob, "wholename", WITH_DOTS]


def warn(sentences: Any) -> None:
    for sentence in sentences:
        note(sentence.replace("at the glob: ", "the glob ", 1))


@functools.lru_cache(maxsize=None)
def note(text: str) -> None:
    """A warning. It comes once, however many directories there are."""
    say(text, "yellow")


def kinds_of(words: List[str]) -> List[str]:
    """The letters of kinds, of which each may have its name."""
    parts = [part for word in words for part in word.split(",") if part]
    letters = [letter for part in parts for letter in NAMES_OF_KINDS.get(part, part)]
    for letter in letters:
        if letter not in (*KINDS, EXECUTABLE, EMPTY):
            raise WrongWords(f"-t takes {LETTERS}, and not {quoted(letter)}")
    if not letters:
        raise WrongWords(f"-t takes a letter of {LETTERS}")
    return letters


def kind_terms(letters: List[str]) -> Iterator[Any]:
    """Terms for the kinds of files. Only a file is executable or empty."""
    kinds = [letter for letter in letters if letter in KINDS]
    yield any_of([["type", letter] for letter in kinds or ["f"]])
    if EMPTY in letters:
        yield ["empty"]


def are_links_told(options: argparse.Namespace) -> bool:
    """Whether changes of files are asked for, and those of links are not: a file that became a link is gone then."""
    kinds = kinds_of(options.type) if options.type and hasattr(options, "dirs") else []
    return FILE in kinds and not {LINK, EXECUTABLE, EMPTY} & set(kinds)


def is_executable_meant(options: argparse.Namespace) -> bool:
    return EXECUTABLE in kinds_of(options.type) if options.type else False


def suffixes_of(words: List[str]) -> List[str]:
    if not all(word.strip(",") for word in words):
        raise WrongWords("-e takes suffixes, such as c,h; it is empty, as of a variable that is not set")
    return [suffix_of(part) for word in words for part in word.split(",")]


def suffix_of(word: str) -> str:
    if word.startswith("."):
        note(f"a suffix has no dot at its front: {quoted(word)} is taken as {quoted(word[1:])}")
        word = word[1:]
    if "." in word or "/" in word:
        note(
            f"the suffix {quoted(word)} can match nothing: it is what follows the last dot; "
            f"the glob {quoted('*.' + word)} finds such names"
        )
    return word


def require_files(options: argparse.Namespace) -> None:
    """Only files have a size of their own."""
    if options.type and not {FILE, EXECUTABLE, EMPTY} & set(kinds_of(options.type)):
        raise WrongWords(f"--size is for files, and -t {','.join(options.type)} lists none: take one out")


def size_term(word: str) -> List[Any]:
    """`+1M` is at least so much, `-1M` at most. As GNU's tools have it, `k`, `ki` and `KiB` are 1,024 bytes, and `kB`
    is 1,000. One without a sign could mean three things."""
    found = SIZE.fullmatch(word)
    if not found:
        raise WrongWords(f"--size takes +1M (at least) or -10k (at most), and not {quoted(word)}")
    sign, digits, unit, ending = found.groups()
    if not sign:
        raise WrongWords(f"--size takes +{word} for at least so much, or -{word} for at most")
    number = int(digits) * (1_000 if ending in ("b", "B") else 1_024) ** UNITS[unit.lower()]
    if number > 2**62:
        raise WrongWords(f"--size takes a number up to 2^62 bytes, and not {quoted(word)}")
    return ["size", {"+": "ge", "-": "le"}[sign], number]


def left_out_terms(place: Place, options: argparse.Namespace) -> List[Any]:
    """Terms of files to leave out: directories that people seldom mean, globs of --exclude, and all below them."""
    front = front_of(place)
    terms = terms_of_left_out(place, left_out_names(place, options))
    for glob in all_expanded(options.exclude or []):
        glob = glob.rstrip("/") or glob
        if "/" in glob:
            whole = front + (glob[2:] if glob.startswith("./") else glob[1:] if glob.startswith("/") else glob)
            terms += [["match", whole, "wholename", WITH_DOTS], ["match", f"{whole}/**", "wholename", WITH_DOTS]]
        else:
            terms += [["match", glob, "basename", WITH_DOTS], ["match", f"{front}**/{glob}/**", "wholename", WITH_DOTS]]
    return terms


def left_out_names(place: Place, options: argparse.Namespace) -> Sequence[str]:
    """The names of directories to leave out. Git is not asked for a trigger."""
    if options.hidden:
        return ()
    is_by_git = hasattr(options, "ignore") and top_of(place.root) is not None and is_installed()
    return LEFT_OUT_BY_GIT if is_by_git else LEFT_OUT


def terms_of_left_out(place: Place, names: Sequence[str]) -> List[Any]:
    if not names:
        return []
    # The directory itself may lie in one of them, and is asked for then.
    before = front_of(place) if set(place.below.split("/")) & set(names) else ""
    return [["name", list(names)], *(["match", f"{before}**/{name}/**", "wholename", WITH_DOTS] for name in names)]


def is_left_out(name: str, names: Sequence[str]) -> bool:
    """Whether a name is of what is left out, or below it."""
    return any(part in names for part in name.split("/"))


def user_expression(text: str) -> Any:
    """The expression that the user wrote, which the server reads."""
    value = read(text, "--expression")
    for sentence in of_term(value, "expression"):
        note(sentence)
    return value
