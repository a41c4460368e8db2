"""The log of a server, as far as it is of roots and triggers: failures, and what scans leave out. The server tells it
nowhere else."""

import contextlib
import json
import os
import re
import time
from typing import Dict, Iterable, Iterator, NamedTuple, Optional, Tuple

from wqclient.files import opened
from wqclient.kept import TRIGGERS, keep, kept, run_of

from . import journal
from .processes import is_of_unit
from .server import Server
from .terminal import say

# How many bytes of a long log are read, the last ones.
MOST = 4 * 1024 * 1024
LISTENS = "listening on "
TRIGGER = "trigger "
ENDED = re.compile(r"ended (with status [0-9]+|by signal [0-9]+)")
UNSTARTED = "could not be started: "
LEFT_OUT = re.compile(r"names that are not UTF-8: ([0-9]+), directories that cannot be read: ([0-9]+)")
# The status of a shell whose command is not there.
NOT_FOUND = "with status 127"


class Failures(NamedTuple):
    """The failures of a trigger since it was registered: how often its command failed, and what was last said of it."""

    times: int = 0
    last: str = ""

    def sentence(self) -> str:
        if not self.last:
            return ""
        hint = ", which shells say of a command that is not there" if self.last.endswith(NOT_FOUND) else ""
        times = f"{self.times:,} time{'' if self.times == 1 else 's'}"
        return f"last failure: {self.last}{hint}" + (f"; failed {times} since it was registered" if self.times else "")


class Log:
    """The lines that a server wrote since it began to listen, if they are in a file or in the journal of systemd."""

    def __init__(self, server: Server) -> None:
        self.server = server
        self.path = path_of(server.peer.process)
        self.is_in_journal = is_in_journal(server.peer.process)
        self.triggers: Dict[Tuple[str, str], Failures] = {}
        # The place in the log at which each trigger was registered.
        self.registered: Dict[Tuple[str, str], int] = {}
        self.left_out: Dict[str, Tuple[int, int]] = {}
        for place, line in self.lines():
            self.take(place, line)

    def lines(self) -> Iterator[Tuple[int, str]]:
        """The lines with their places: in bytes in a file, and in microseconds in the journal."""
        if self.is_in_journal:
            yield from journal.lines_of(self.server.peer.process)
            return
        text, place = text_of(self.server.peer.process)
        for line in text.split(b"\n"):
            yield place, line.decode("utf-8", "replace")
            place += len(line) + 1

    def take(self, place: int, line: str) -> None:
        if line.startswith(LISTENS):
            self.triggers, self.left_out = {}, {}
            return
        root, rest = quoted_of(line)
        found = LEFT_OUT.fullmatch(rest)
        if found:
            self.left_out[root] = (int(found[1]), int(found[2]))
        elif rest.startswith(TRIGGER):
            name, rest = quoted_of(rest[len(TRIGGER) :], " ")
            self.add(root, name, rest, place)

    def add(self, root: str, name: str, said: str, place: int) -> None:
        if (root, name) not in self.registered:
            self.registered[root, name] = registered_at(self.server, root, name)
        if place < self.registered[root, name]:
            return
        before = self.triggers.get((root, name), Failures())
        if ENDED.fullmatch(said):
            self.triggers[root, name] = Failures(before.times + 1, said)
        elif said.startswith(UNSTARTED):
            self.triggers[root, name] = Failures(before.times, said)

    def failures(self, root: str, name: str) -> Failures:
        return self.triggers.get((root, name), Failures())

    def words(self) -> str:
        """The file or the command that shows the log to a person."""
        if self.path:
            return self.path
        other = f"standard error of process {self.server.peer.process}, which is no file"
        return journal.SHOW if self.is_in_journal else other


def tell_left_out(server: Server, roots: Iterable[str]) -> None:
    """Says how many names and directories of roots the server left out, if its log is a file."""
    if not path_of(server.peer.process):
        return
    left_out = Log(server).left_out
    for root in roots:
        names, directories = left_out.get(root, (0, 0))
        if names:
            say(f"{root}: names that are not UTF-8 are left out: {names:,}", "yellow")
        if directories:
            say(f"{root}: directories that cannot be read are left out: {directories:,}", "yellow")


def quoted_of(line: str, separator: str = ": ") -> Tuple[str, str]:
    """The JSON text that begins a line, and what follows it. Nothing if none does."""
    try:
        value, end = json.JSONDecoder().raw_decode(line)
    except ValueError:
        return "", ""
    if not isinstance(value, str) or not line.startswith(separator, end):
        return "", ""
    return value, line[end + len(separator) :]


def text_of(process: int) -> Tuple[bytes, int]:
    """The end of what a process writes to its standard error, if that is a file, and where that begins."""
    try:
        path = f"/proc/{process}/fd/2"
        with open(path, "rb", opener=lambda path, flags: opened(path, flags, follows=True)) as stream:
            size = os.fstat(stream.fileno()).st_size
            place = stream.seek(max(0, size - MOST))
            return stream.read(MOST), place
    except OSError:
        return b"", 0


def is_in_journal(process: int) -> bool:
    """Whether systemd keeps what the process writes: that of the unit, unless its user had it written to a file."""
    return not path_of(process) and is_of_unit(process)


def path_of(process: int) -> str:
    """The file to which a process writes its standard error; nothing if it is no file."""
    try:
        path = os.readlink(f"/proc/{process}/fd/2")
        return path if os.path.isfile(path) else ""
    except OSError:
        return ""


def note_registered(server: Server, root: str, name: str, words: str) -> None:
    """Notes that a trigger begins anew here, for what files: what the log says before is of another one of its name."""
    process = server.peer.process
    with contextlib.suppress(OSError):
        note = {"run": run_of(process), "place": end_of(process), "words": words}
        keep(note, TRIGGERS, server.sockname, root, name)


def words_noted(server: Server, root: str, name: str) -> Optional[str]:
    """The words of the person who registered a trigger, if `wq` did that at this run of the server."""
    note = kept(TRIGGERS, server.sockname, root, name)
    words = note.get("words")
    return words if isinstance(words, str) and note.get("run") == run_of(server.peer.process) else None


def registered_at(server: Server, root: str, name: str) -> int:
    """The place from which on the log is of this trigger, unless the log was cut since."""
    note = kept(TRIGGERS, server.sockname, root, name)
    place = note.get("place")
    if note.get("run") != run_of(server.peer.process) or not isinstance(place, int):
        return 0
    return place if place <= end_of(server.peer.process) else 0


def end_of(process: int) -> int:
    """The place after what a process wrote until now. It is 0 if that is neither in a file nor in the journal."""
    if is_in_journal(process):
        return time.time_ns() // 1_000
    try:
        return os.stat(f"/proc/{process}/fd/2").st_size
    except OSError:
        return 0
