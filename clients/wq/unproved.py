"""A server that runs without proof, from a clone in which nothing is built: which process it is, and what a person
hears of it."""

import contextlib
import os

from wqclient.client import Client
from wqclient.files import opened_as_own

NOT_PROVED = (
    "not proved, and some 40 times slower a file, since it checks each access; " "./wqd --build proves and builds it"
)


def note_of(sockname: str) -> str:
    """The file that says which process listens without proof."""
    return f"{sockname}.unproved"


def is_noted(sockname: str, process: int) -> bool:
    """Whether the process that listens is one that was compiled without proof."""
    try:
        with open(note_of(sockname), opener=opened_as_own) as note:
            return note.read().strip() == str(process)
    except OSError:
        return False


def forget(sockname: str) -> None:
    with contextlib.suppress(OSError):
        os.unlink(note_of(sockname))


def note(sockname: str) -> None:
    """Notes that the process that listens now is one without proof."""
    with Client(sockname) as client, open(note_of(sockname), "w", opener=opened_as_own) as file:
        file.truncate()
        file.write(str(client.peer().process))
