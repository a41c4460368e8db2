"""`wq find -x` and `-X`: a command for each name that was found, or for all of them at once, with the places of fd."""

import os
import subprocess
from concurrent.futures import ThreadPoolExecutor
from typing import Callable, Dict, Iterator, List, Optional

from .commands_run import CANNOT_START, NOT_FOUND, missing
from .names_handed import as_argument
from .terminal import write
from .trouble import COMMAND_FAILED, FOUND, NOTHING, Trouble

# What takes the place of each: the name; its last part; its directory; both without what follows the last dot.
PLACES: Dict[str, Callable[[str], str]] = {
    "{}": as_argument,
    "{/}": os.path.basename,
    "{//}": lambda name: os.path.dirname(name) or ".",
    "{.}": lambda name: as_argument(os.path.splitext(name)[0]),
    "{/.}": lambda name: os.path.splitext(os.path.basename(name))[0],
}
# So many bytes of names one command gets at most.
MOST_BYTES = 100_000


def run_for_each(command: List[str], names: List[str]) -> int:
    """Runs the command for each name, several at a time, and prints what each wrote in the order of the names."""
    if not names:
        return NOTHING
    commands = [[argument(word, name) for word in with_place(command)] for name in names]
    if len(commands) == 1:
        return status_of([started(commands[0], None).returncode])
    codes = []
    with ThreadPoolExecutor(os.cpu_count() or 1) as pool:
        for ended in pool.map(lambda words: started(words, subprocess.PIPE), commands):
            write(ended.stdout)
            codes.append(ended.returncode)
    return status_of(codes)


def run_for_all(command: List[str], names: List[str]) -> int:
    """Runs the command with all names, or several times if they are too long for one."""
    if not names:
        return NOTHING
    codes = []
    for some in pieces(names):
        words = [
            one
            for word in with_place(command)
            for one in ([argument(word, name) for name in some] if has_place(word) else [word])
        ]
        codes.append(started(words, None).returncode)
    return status_of(codes)


def with_place(command: List[str]) -> List[str]:
    return command if any(map(has_place, command)) else [*command, "{}"]


def has_place(word: str) -> bool:
    return any(place in word for place in PLACES)


def argument(word: str, name: str) -> str:
    """A word with what the name puts in its places. A part of a name at its front is no option: `-x`, `+x` and `@x`."""
    text = filled(word, name)
    return as_argument(text) if word.startswith(tuple(PLACES)) and text.startswith(("-", "+", "@")) else text


def filled(word: str, name: str) -> str:
    """A word with what the name puts in its places. A text that a name brings in is not looked at again."""
    for place in range(len(word)):
        for text, value in PLACES.items():
            if word.startswith(text, place):
                return word[:place] + value(name) + filled(word[place + len(text) :], name)
    return word


def pieces(names: List[str]) -> Iterator[List[str]]:
    found: List[str] = []
    size = 0
    for name in names:
        size += len(os.fsencode(name)) + 3
        if found and size > MOST_BYTES:
            yield found
            found, size = [], len(os.fsencode(name)) + 3
        found.append(name)
    if found:
        yield found


def started(words: List[str], output: Optional[int]) -> "subprocess.CompletedProcess[bytes]":
    try:
        return subprocess.run(words, stdin=subprocess.DEVNULL if output else None, stdout=output)
    except OSError as error:
        is_missing = isinstance(error, FileNotFoundError)
        reason = missing(words[0]) if is_missing else error.strerror
        raise Trouble(f"{words[0]}: {reason}", status=NOT_FOUND if is_missing else CANNOT_START) from None


def status_of(codes: List[int]) -> int:
    """The status after commands that ended so. Their own could be those of wq, which mean other things."""
    return COMMAND_FAILED if any(codes) else FOUND
