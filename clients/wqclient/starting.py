"""Starts a program that listens on a socket, if none does. Of several that start one at once, one does, and the others
wait."""

import contextlib
import fcntl
import os
import subprocess
import time
from typing import BinaryIO, Callable, Dict, Iterator, List, Optional, Sequence

from .files import is_locked, opened_as_own
from .kept import log_of
from .sockets import is_listened_on

PAUSE = 0.02
PATIENCE = 60.0
SOME_SECONDS = 5.0
# The most threads that a query may use at a server which its user started without a word of that.
MOST_WORKERS = 4
# Of the last line of a log at most so many bytes are told.
LONGEST_LINE = 4_096


class Unstarted(Exception):
    """The program did not start, for this reason."""


def usual() -> Dict[str, str]:
    """How a server works that its user started without a word of that: how much of one processor its rounds may take,
    in percent; how soon it looks again at directories in which something changed lately, in milliseconds; and how many
    threads a query may use."""
    workers = min(MOST_WORKERS, len(os.sched_getaffinity(0)))
    return {"--share": "10", "--interval": "100", "--workers": str(workers)}


def serve_words(sockname: str, given: Sequence[str] = ()) -> List[str]:
    """The words of a server at this socket, which name this second and this process as its run. It works as usual, but
    for the options that are given with their values."""
    numbers = ["--start", str(int(time.time())), "--pid", str(os.getpid())]
    rest = [word for option, value in usual().items() if option not in given for word in (option, value)]
    return ["serve", "--sockname", sockname, *numbers, *rest, *given]


@contextlib.contextmanager
def alone(sockname: str, tell: Callable[[], None] = lambda: None) -> Iterator[None]:
    """Waits until no other command starts a program for this socket. If that takes some seconds, it says so by
    `tell`."""
    try:
        file = open(f"{sockname}.start", "w", opener=opened_as_own)
    except OSError as error:
        # The lock is a matter of wq: a person named the socket, and perhaps a directory that is not there.
        where = os.path.dirname(sockname) if isinstance(error, FileNotFoundError) else f"{sockname}.start"
        raise Unstarted(f"{where}: {error.strerror}") from None
    with file:
        end = time.monotonic() + SOME_SECONDS
        while not is_locked(file):
            if time.monotonic() > end:
                tell()
                fcntl.flock(file, fcntl.LOCK_EX)
                break
            time.sleep(PAUSE)
        yield


def begin(command: List[str], sockname: str, environment: Optional[Dict[str, str]] = None) -> None:
    """Starts a program that outlives this one, and waits until it listens. What it writes goes to a log, which is begun
    anew."""
    log = log_of(sockname)
    try:
        with begun_anew(log) as output:
            process = subprocess.Popen(
                command,
                stdin=subprocess.DEVNULL,
                stdout=output,
                stderr=output,
                cwd="/",
                env=environment,
                start_new_session=True,
            )
    except OSError as error:
        raise Unstarted(f"{error.filename}: {error.strerror}") from None
    end = time.monotonic() + PATIENCE
    while not is_listened_on(sockname):
        if process.poll() is not None or time.monotonic() > end:
            process.kill()
            raise Unstarted(f"{command[0]} does not listen on {sockname}: {said(log)}")
        time.sleep(PAUSE)


@contextlib.contextmanager
def begun_anew(log: str) -> Iterator[BinaryIO]:
    """A log without lines. It is another file than the one before, which a reader of that one can see. What is there
    and no regular file of this user is left as it is."""
    open(log, "ab", opener=opened_as_own).close()
    new = f"{log}.new"
    with contextlib.suppress(FileNotFoundError):
        os.unlink(new)
    with open(new, "xb", opener=opened_as_own) as output:
        os.replace(new, log)
        yield output


def said(log: str) -> str:
    """The last line that a program wrote to its log."""
    with open(log, "rb", opener=opened_as_own) as stream:
        stream.seek(max(0, os.fstat(stream.fileno()).st_size - LONGEST_LINE))
        lines = stream.read(LONGEST_LINE).decode("utf-8", "backslashreplace").strip().splitlines()
    return lines[-1] if lines else "it says nothing"
