"""The end of a server: it is asked, then terminated, then killed."""

import contextlib
import os
import signal
import time
from typing import Callable

from wqclient.kept import STOPS, keep, run_of
from wqclient.sockets import is_listened_on
from wqclient.starting import PAUSE

from .processes import state_of
from .server import Server
from .silence import ENDED, LATE, Silence, is_stopped, server_words
from .terminal import say
from .trouble import Trouble

# A walk that goes on is waited for, so an end that was answered may take a while.
PATIENCE = 60.0


def end(server: Server) -> None:
    """Ends the server, and waits until it is gone. Windows that stay do not start another one then."""
    process = server.peer.process
    is_gone = gone(server)
    with contextlib.suppress(OSError):
        keep({"run": run_of(process)}, STOPS, server.sockname)
    if not asked(server, is_gone):
        for number in (signal.SIGTERM, signal.SIGKILL):
            send(server, number)
            if waits_for(is_gone, LATE):
                break
        else:
            raise Trouble(f"process {process} does not end: state {state_of(process)}; a file system may hang")
    say(f"the server at {server.sockname} has ended")


def gone(server: Server) -> Callable[[], bool]:
    """Whether the process has ended; if its number is unknown, whether nobody listens any more."""
    process = server.peer.process
    if process <= 0:
        return lambda: not is_listened_on(server.sockname)
    run = run_of(process)
    return lambda: run_of(process) != run or state_of(process) in ("", ENDED)


def asked(server: Server, is_gone: Callable[[], bool]) -> bool:
    """Whether the server ended since a client asked it to."""
    silence, began = Silence(server.sockname, server.peer.process), time.monotonic()
    server.checked(["shutdown-server"], server.ask_within(LATE, "shutdown-server"))
    # A server that ends may close the stream before its answer is read.
    has_answered = time.monotonic() - began < LATE
    end = time.monotonic() + (PATIENCE if has_answered else 0.0)
    while time.monotonic() < end and not is_stopped(server.peer.process):
        if waits_for(is_gone, LATE):
            return True
    if is_gone():
        return True
    words = server_words(server.sockname, server.peer.process)
    lacks = "ended" if has_answered else "answered"
    say(f"{words} was asked to end, and has not {lacks}: {silence.reason()}", "yellow")
    return False


def send(server: Server, number: signal.Signals) -> None:
    """Sends a signal to the process, which a stopped one hears as soon as it goes on."""
    process = server.peer.process
    if process <= 0 or server.peer.user != os.getuid():
        raise Trouble(f"the server at {server.sockname} is no process of yours that can be ended")
    say(f"process {process} is sent {number.name}", "yellow")
    with contextlib.suppress(ProcessLookupError):
        os.kill(process, number)
        os.kill(process, signal.SIGCONT)


def waits_for(is_so: Callable[[], bool], seconds: float) -> bool:
    end = time.monotonic() + seconds
    while not is_so():
        if time.monotonic() > end:
            return False
        time.sleep(PAUSE)
    return True
