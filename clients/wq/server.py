"""The server that is asked: at the default socket, started if nobody listens there; and its errors, with what they
name."""

import contextlib
import json
import time
from typing import Any, Callable, Dict, Iterator, List, Optional

from wqclient.client import Client, json_of
from wqclient.files import is_gone
from wqclient.kept import STOPS, kept
from wqclient.lines import Ended
from wqclient.root_notes import MOMENT, STAYS, Notes
from wqclient.sockets import default_sockname

from . import unproved
from .home import Home
from .terminal import Progress, say
from .trouble import NOTHING, Trouble

Value = Dict[str, Any]
A_SECOND = 1.0
TOO_MANY_ROOTS = "E13:"
# So long the end of a command waits for a reply, since the server may hang.
MOST_AT_END = 2.0
# From so many roots on each search is noted, since one of 16 may have to make room soon.
MANY_ROOTS = 8


class Went(Trouble):
    """The server has ended the connection. It may have been stopped on purpose."""

    def __init__(self, was_stopped: bool) -> None:
        super().__init__(
            "the server was stopped before it answered; `wq start` starts another one"
            if was_stopped
            else "the server has ended before it answered; `wq log` shows what it said"
        )
        self.was_stopped = was_stopped


def sockname() -> str:
    try:
        return default_sockname()
    except OSError as error:
        raise Trouble(f"{error.filename}: {error.strerror}") from None


class Server:
    """A server that listens, and one connection to it."""

    def __init__(
        self, home: Home, starts: bool = True, tells: bool = True, first: Callable[[], object] = lambda: None
    ) -> None:
        self.sockname = sockname()
        client = self.connected()
        # Whether this call started it.
        self.is_own = False
        if client is None and starts:
            # It may raise an error: to make a server ready takes up to minutes in a clone.
            first()
            self.is_own = home.start(self.sockname, tells=tells)
            client = self.connected()
        if client is None:
            raise Trouble(f"no server listens on {self.sockname}; `wq start` starts one", status=NOTHING)
        self.client: Client = client
        # How many replies have not come yet: a person may end a command while it waits for one.
        self.unanswered = 0
        self.peer = self.client.peer()
        self.notes = Notes(self.sockname, self.peer.process)
        if unproved.is_noted(self.sockname, self.peer.process):
            say(unproved.NOT_PROVED, "grey")

    def connected(self) -> Optional[Client]:
        try:
            return Client(self.sockname)
        except OSError as error:
            if isinstance(error, (ConnectionRefusedError, FileNotFoundError)):
                return None
            raise Trouble(f"{self.sockname}: {error.strerror or error}") from None

    def reply(self, command: Any, crawls: str = "") -> Value:
        """The reply to a command, which may be an error. If a first crawl comes before it, a person is told how long it
        takes."""
        found: Value = json.loads(self.line(json_of(command), crawls))
        return found

    def line(self, line: bytes, crawls: str = "") -> bytes:
        """The line that is replied to a line. Lists of subscriptions are kept."""
        self.unanswered += 1
        # A server that ends the session at a line that is too long has answered it before.
        with contextlib.suppress(BrokenPipeError, ConnectionResetError):
            self.client.send_bytes(line + b"\n")
        progress = Progress(self.notes.look(crawls)) if crawls else None
        try:
            while True:
                found = self.next_line(progress)
                value = json.loads(found) if b'"unilateral":true' in found else {}
                if "unilateral" not in value:
                    self.unanswered -= 1
                    seconds = progress.end() if progress else None
                    if seconds:
                        self.notes.looked(crawls, seconds)
                    return found
                self.client.lists.append(value)
        except Ended:
            raise self.went() from None
        finally:
            if progress:
                progress.clear()

    def next_line(self, progress: Optional[Progress]) -> bytes:
        """The next line. While it does not come, a person is told how a first crawl goes on, or why nothing comes."""
        silence = None
        while True:
            line = self.client.take()
            if line is not None:
                return line
            if self.client.has_line(A_SECOND):
                self.client.receive()
                continue
            if progress:
                progress.tell()
            if silence is None:
                from .silence import Silence  # a reply is seldom late

                silence = Silence(self.sockname, self.peer.process, A_SECOND)
            sentence = silence.sentence(is_at_work=progress is not None)
            if sentence:
                if progress:
                    progress.clear()
                say(sentence, "yellow")

    def line_of_list(self) -> bytes:
        """The first list of a subscription, which comes after its reply at once."""
        try:
            return json_of(self.client.next_list())
        except Ended:
            raise self.went() from None

    def went(self) -> Went:
        """Its process may have gone, so the run that was stopped is known by its number alone."""
        stopped = str(kept(STOPS, self.sockname).get("run", ""))
        return Went(stopped.startswith(f"{self.peer.process}:"))

    def ask(self, *command: Any, crawls: str = "") -> Value:
        """The reply to a command. An error is raised, with the line that names the culprit."""
        return self.checked(list(command), self.reply(list(command), crawls))

    def checked(self, command: List[Any], found: Value) -> Value:
        """A reply that is no error."""
        if "error" in found:
            from .errors import culprits  # what is seldom needed is read only then

            raise Trouble(found["error"], *culprits(found["error"], command, self.look))
        return found

    def ask_within(self, seconds: float, *command: Any) -> Value:
        """A reply, which may be an error; nothing if it does not come within so many seconds. Replies to commands
        before it, for which nobody waits any more, are left out."""
        end = time.monotonic() + seconds
        self.unanswered += 1
        try:
            self.client.send(*command)
            while True:
                line = self.client.take()
                if line is None:
                    if not self.client.has_line(max(0.0, end - time.monotonic())):
                        return {}
                    self.client.receive()
                elif b'"unilateral":true' not in line:
                    self.unanswered -= 1
                    if not self.unanswered:
                        found: Value = json.loads(line)
                        return found
        except (Ended, OSError):
            return {}

    def look(self, *command: Any) -> Value:
        """A reply for a sentence about an error; nothing if it is an error too."""
        try:
            return self.reply(list(command))
        except (Trouble, OSError):
            return {}

    def roots(self) -> List[str]:
        return [str(root) for root in self.ask("watch-list")["roots"]]

    def watch(self, root: str, watched: List[str], purpose: str = STAYS) -> Value:
        """Watches a root, and gives the keys with which a query knows all that there was when this was called. A root
        that was not watched before was just listed, so nothing is crawled for the query. If no more roots may be
        watched, another one that need not stay is dropped for it."""
        is_new = root not in watched
        command, crawls = ["watch", root], root if is_new else ""
        if is_new:
            # Before the reply, which a person may not wait for.
            self.notes.note(root, purpose, is_new)
        found = self.reply(command, crawls)
        while found.get("error", "").startswith(TOO_MANY_ROOTS) and self.drops_one():
            found = self.reply(command, crawls)
        if is_new and "error" in found:
            self.notes.forget(root)
        self.checked(command, found)
        if not is_new and (purpose != MOMENT or len(watched) >= MANY_ROOTS):
            self.notes.note(root, purpose, is_new)
        return {"sync_timeout": 0} if is_new else {}

    def drops_one(self) -> bool:
        """Whether a root could be dropped, so that another one may be watched."""
        root = self.notes.drop_one(self.roots(), self.look)
        if root is not None:
            why = "is gone" if is_gone(root) else "was asked about least lately"
            say(f"{root} {why}, and is watched no longer: 16 roots may be", "yellow")
        return root is not None

    def give_back(self, root: str, is_hurried: bool = False) -> None:
        """Ends the watch of a root that was watched for a moment, unless another command needs it meanwhile."""
        if self.notes.is_for_a_moment(root):
            self.ask_within(0.0 if is_hurried else MOST_AT_END, "watch-del", root)
            self.notes.forget(root)

    def unwatch(self, root: str) -> None:
        self.notes.forget(root)
        self.ask("watch-del", root)

    def close(self) -> None:
        self.client.close()


@contextlib.contextmanager
def reached(home: Home, starts: bool = True, first: Callable[[], object] = lambda: None) -> Iterator[Server]:
    """A server that listens. Before one is started, `first` looks at the words of the command."""
    server = Server(home, starts, first=first)
    try:
        yield server
    finally:
        server.close()
