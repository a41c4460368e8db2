"""`python3 -m wqd_watchdog`: runs a tool with the observer in place of watchdog's."""

import os
import runpy
import sys
from typing import List

from .replacing import put_in_place, put_in_place_of_children
from .scripts import is_this_python, python_of, script_of
from .trouble import Unserved, say

USAGE = """\
Runs a tool that watches files by Python's watchdog, and has wqd watch them.

    python3 -m wqd_watchdog COMMAND [WORD..]      a command such as mkdocs, or a file
    python3 -m wqd_watchdog -m MODULE [WORD..]    a module, by its name

COMMAND is run by the Python that its first line names; with --here before it, by this one.
WqdObserver takes the place of PollingObserver, and of Observer."""
HERE, MODULE = "--here", "-m"
WRONG_WORDS = 2


def main(words: List[str]) -> int:
    if words[:1] in (["--help"], ["-h"]):
        print(USAGE)
        return 0
    is_here = words[:1] == [HERE]
    words = words[is_here:]
    is_module = words[:1] == [MODULE]
    words = words[is_module:]
    if not words or words[0].startswith("-"):
        print(USAGE, file=sys.stderr)
        return WRONG_WORDS
    try:
        if is_module:
            run_module(words)
        else:
            run_script(script_of(words[0]), words[1:], is_here)
    except Unserved as reason:
        say(str(reason))
        return 1
    return 0


def run_module(words: List[str]) -> None:
    put_in_place()
    put_in_place_of_children()
    sys.argv = words
    put_first(os.getcwd())
    runpy.run_module(words[0], run_name="__main__", alter_sys=True)


def run_script(script: str, words: List[str], is_here: bool) -> None:
    python = [sys.executable] if is_here else python_of(script)
    if not is_this_python(python[0]):
        package = os.path.dirname(os.path.abspath(__file__))
        os.execv(python[0], [*python, package, HERE, script, *words])
    put_in_place()
    put_in_place_of_children()
    sys.argv = [script, *words]
    put_first(os.path.dirname(os.path.realpath(script)))
    runpy.run_path(script, run_name="__main__")


def put_first(directory: str) -> None:
    """The directory of what is run is first on the path, unless this Python is to have no such."""
    if not is_isolated():
        sys.path.insert(0, directory)


def is_isolated() -> bool:
    return bool(sys.flags.isolated or getattr(sys.flags, "safe_path", False))
