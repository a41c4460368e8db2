"""The bridge as a program: its words, its socket and its sessions."""

import argparse
import contextlib
import errno
import fcntl
import json
import os
import select
import signal
import socket
import stat
import sys
import threading
import time
from typing import IO, Dict, List, Optional

from bridge.commands import answer
from bridge.encodings import MISSING, find_codec
from bridge.held import MOST_CLIENTS
from bridge.running import Running, opened_lock
from bridge.session import Session
from bridge.shared import Shared
from bridge.version import VERSION
from wqclient.harmless import harmless
from wqclient.lines import SUPERUSER, peer_of
from wqclient.sockets import is_listened_on

GRACE = 1.0
PAUSE = 0.2
WAITING = 128
# A client that has sent nothing for so many seconds is ended if its place is needed.
SILENCE = 1.0


def main(words: List[str]) -> None:
    parser = argparse.ArgumentParser(
        prog="bridge",
        description=("Listens for clients of Watchman, which speak BSER or JSON, and asks a wqd that runs."),
    )
    parser.add_argument("--server", required=True, metavar="PATH", help="the socket of wqd")
    parser.add_argument("--sockname", required=True, metavar="PATH", help="where the bridge listens")
    parser.add_argument(
        "--grace",
        type=seconds,
        default=GRACE,
        metavar="SECONDS",
        help=(f"how long a watched directory may be gone before its place is given back; {GRACE:.0f} if left out"),
    )
    given = parser.parse_args(words)
    try:
        Serving(os.path.abspath(given.sockname), os.path.abspath(given.server), given.grace).run()
    except OSError as error:
        sys.exit(f"bridge: cannot listen on {given.sockname}: {error.strerror or error}")


def seconds(text: str) -> float:
    value = float(text)
    if not 0 < value <= 1_000_000:
        raise ValueError(text)
    return value


def say(text: str) -> None:
    print(f"bridge: {harmless(text)}", file=sys.stderr, flush=True)


class Serving:
    """The socket that clients connect to, and their sessions."""

    def __init__(self, sockname: str, server: str, grace: float) -> None:
        self.lock = locked(sockname)
        self.shared = Shared(sockname, grace, Running(self.lock, server), say)
        self.places = threading.Semaphore(MOST_CLIENTS)
        # The sessions that there are, and when they began.
        self.sessions: Dict[Session, float] = {}
        self.codec = find_codec()
        if self.codec is None:
            say(MISSING + "; JSON alone is served")

    def run(self) -> None:
        shared = self.shared
        for number in (signal.SIGTERM, signal.SIGINT, signal.SIGHUP):
            signal.signal(number, lambda *_: shared.end())
        listener = listening(shared.sockname)
        own = os.stat(shared.sockname)
        say(f"listening on {shared.sockname}")
        while shared.end_seen not in select.select([listener, shared.end_seen], [], [])[0]:
            self.begin(listener)
        listener.close()
        if is_same(shared.sockname, own):
            os.unlink(shared.sockname)
        shared.first_runs.end()
        self.lock.close()
        os._exit(0)  # a session may wait for its client

    def begin(self, listener: socket.socket) -> None:
        """Begins the session of the client that waits, if it is one of the same user and there is a place."""
        try:
            client, _ = listener.accept()
        except OSError as error:
            if error.errno in (errno.EMFILE, errno.ENFILE):
                say(f"a client waits: {error.strerror}")
                time.sleep(PAUSE)
            return
        if peer_of(client).user not in (os.getuid(), SUPERUSER):
            client.close()
        elif self.has_place():
            self.begin_session(client)
        else:
            refuse(client)

    def has_place(self) -> bool:
        """Whether there is a place for one more client. If there is none, a client that never sent anything is ended:
        whoever has something to ask goes before it."""
        if self.places.acquire(blocking=False):
            return True
        now = time.monotonic()
        silent = {each: began for each, began in list(self.sessions.items()) if not each.has_spoken}
        oldest = min(silent, key=lambda each: silent[each], default=None)
        if oldest is None or now - silent[oldest] < SILENCE:
            return False
        with contextlib.suppress(OSError):
            oldest.client.shutdown(socket.SHUT_RDWR)
        return self.places.acquire(timeout=GRACE)

    def begin_session(self, client: socket.socket) -> None:
        session = Session(self.shared, client, self.codec, answer)
        self.sessions[session] = time.monotonic()
        try:
            threading.Thread(target=self.serve, args=(session,), daemon=True).start()
        except RuntimeError as error:
            say(f"a client is not served: {error}")
            session.close()
            self.end_session(session)

    def serve(self, session: Session) -> None:
        try:
            session.run()
        finally:
            self.end_session(session)

    def end_session(self, session: Session) -> None:
        del self.sessions[session]
        self.places.release()


def refuse(client: socket.socket) -> None:
    """Says why a client is not served, in JSON, since it has not said which encoding it speaks."""
    with client, contextlib.suppress(OSError):
        value = {"version": VERSION, "error": f"the bridge serves {MOST_CLIENTS} clients, and no more"}
        client.send(json.dumps(value).encode() + b"\n", socket.MSG_DONTWAIT)


def locked(sockname: str) -> IO[str]:
    """The lock of the socket, which is held as long as the bridge runs, so that no other takes its name."""
    file = opened_lock(sockname, "w")
    try:
        fcntl.flock(file, fcntl.LOCK_EX | fcntl.LOCK_NB)
    except BlockingIOError:
        file.close()
        raise OSError(errno.EADDRINUSE, "a bridge listens there already")
    return file


def listening(sockname: str) -> socket.socket:
    """A socket that only this user can connect to, from its first moment on. One on which nobody listens is
    replaced."""
    if is_listened_on(sockname):
        raise OSError(errno.EADDRINUSE, "somebody listens there already")
    if os.path.lexists(sockname) and is_socket(sockname):
        os.unlink(sockname)
    listener = socket.socket(socket.AF_UNIX, socket.SOCK_STREAM)
    before = os.umask(0o177)
    try:
        listener.bind(sockname)
    finally:
        os.umask(before)
    listener.listen(WAITING)
    return listener


def is_socket(path: str) -> bool:
    return stat.S_ISSOCK(os.lstat(path).st_mode)


def is_same(path: str, own: os.stat_result) -> bool:
    """Whether the path still names this socket, and not that of another."""
    found: Optional[os.stat_result]
    try:
        found = os.stat(path)
    except OSError:
        return False
    return (found.st_dev, found.st_ino) == (own.st_dev, own.st_ino)
