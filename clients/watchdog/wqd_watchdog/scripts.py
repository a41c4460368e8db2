"""Commands that are written in Python: where one is, and which Python its first line names."""

import os
import re
import shlex
import shutil
import sys
from typing import List, Optional

from .trouble import Unserved

# The first line of a file has at most this number of bytes.
LONGEST = 1_024
# pip's first lines if the path of a Python is too long for one.
BY_SHELL = re.compile(r"^'''exec' (.+) \"\$0\" \"\$@\"$", re.M)


def script_of(word: str) -> str:
    """The file of a command: one on the PATH, or one that is named by its path."""
    found = shutil.which(word)
    if found is None and os.path.isfile(word) and (os.sep in word or word.endswith(".py")):
        found = word
    if found is None:
        raise Unserved(f"there is no command {word}")
    return os.path.abspath(found)


def python_of(script: str) -> List[str]:
    """The Python that runs a script, with its options: the one of its first line, or this one if it has none."""
    try:
        with open(script, "rb") as file:
            head = file.read(LONGEST).decode("utf-8", "replace")
    except OSError as error:
        raise Unserved(f"{script}: {error.strerror}") from None
    words = words_of(head)
    if words is None and script.endswith(".py"):
        return [sys.executable]
    if not words or "python" not in os.path.basename(words[0]):
        raise Unserved(f"{script} is not written in Python")
    found = words[0] if os.sep in words[0] else shutil.which(words[0])
    if found is None:
        raise Unserved(f"{script}: there is no {words[0]}")
    return [found, *words[1:]]


def words_of(head: str) -> Optional[List[str]]:
    """The words of a first line, without `env`; nothing if a file has no such line."""
    by_shell = BY_SHELL.search(head)
    if by_shell:
        return shlex.split(by_shell[1])
    first = head.split("\n", 1)[0]
    if not first.startswith("#!"):
        return None
    words = first[2:].split()
    if words and os.path.basename(words[0]) == "env":
        words = [word for word in words[1:] if word != "-S"]
    return words


def is_this_python(path: str) -> bool:
    """Whether a path names the Python that runs this: the same file by the same directory, since an environment links
    to a Python that has other packages."""

    def place(each: str) -> str:
        return os.path.realpath(os.path.dirname(os.path.abspath(each)))

    return place(path) == place(sys.executable) and os.path.realpath(path) == os.path.realpath(sys.executable)
