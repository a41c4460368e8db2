"""The server as all emitters of an observer ask it: its connections, the roots that they need, and its end."""

import contextlib
import functools
import queue
import threading
import time
import weakref
from typing import IO, ClassVar, Dict, List, NamedTuple, Optional, Set, Tuple

from .connection import Connection, Value
from .roots import in_common, lies_in, nearest, outermost, refusal
from .starting import start_server
from .trouble import Lost, Unserved, say
from .wqclient.kept import STOPS, kept, run_of
from .wqclient.own_roots import own_root_of
from .wqclient.root_notes import WINDOW, Notes
from .wqclient.sockets import default_sockname, is_listened_on

# The server takes at most this number of subscriptions of a connection.
MOST = 64
# With so many roots a process watches what its directories have in common, since all tools share the server's 16.
MOST_OWN = 4
NO_ROOT = "E13:"
# In seconds: how long whoever ended the server has to start another one, and how long the end of a watch may take.
OTHERS, AT_END = 3.0, 2.0
# An observer starts at most this number of servers after one that ended.
MOST_STARTS = 5


class Subscription(NamedTuple):
    connection: Connection
    root: str


class Server:
    """One server after the other, if one ends. Its methods may be called by any thread."""

    # Those of this process, one for each observer.
    all: "ClassVar[weakref.WeakSet[Server]]" = weakref.WeakSet()

    def __init__(self) -> None:
        self.all.add(self)
        self.lock = threading.RLock()
        self.sockname = self.run = ""
        self.notes: Optional[Notes] = None
        self.connections: List[Connection] = []
        self.subscriptions: Dict[str, Subscription] = {}
        # The roots that are open here, each with its lock, by which others see that.
        self.open: Dict[str, Optional[IO[str]]] = {}
        # Directories that are about to be watched.
        self.expected: List[str] = []
        self.count = self.starts = 0
        self.lost_since: Optional[float] = None
        # Whether another server was found after one that ended; and the reasons that a person has heard since.
        self.is_another = False
        self.told: Set[str] = set()

    def tell_once(self, reason: Unserved) -> None:
        if reason.reason not in self.told:
            self.told.add(reason.reason)
            say(f"{reason}; watchdog's own polling watches until the server can")

    def serves_again(self) -> None:
        """A directory is watched by the server: what keeps others from that is news again."""
        with self.lock:
            if self.is_another:
                say("the server ended, and another one watches now")
            self.is_another = False
            self.told.clear()

    # Connections.

    def reach(self) -> None:
        """Connects to the server, which is started if none listens."""
        with self.lock:
            if self.has_connection():
                return
            try:
                self.sockname = default_sockname()
                if not is_listened_on(self.sockname):
                    start_server(self.sockname)
                connection = Connection(self.sockname)
                # A server that takes no more clients says so at once.
                found = connection.ask("version")
                if "error" in found:
                    raise refusal("", str(found["error"]))
            except (ConnectionRefusedError, FileNotFoundError):
                # It ended since it was looked for.
                raise Lost from None
            except OSError as error:
                raise Unserved(f"{error.filename or self.sockname}: {error.strerror or error}") from None
            self.notes, self.run = Notes(self.sockname, connection.process), run_of(connection.process)
            self.connections, self.lost_since = [connection], None
            self.subscriptions.clear()
            self.open.clear()

    def has_connection(self) -> bool:
        self.connections = [each for each in self.connections if not each.is_lost]
        return bool(self.connections)

    def reach_again(self) -> bool:
        """Whether a server is there after one that ended. If nobody else starts one, this does, unless the one before
        was stopped on purpose."""
        with self.lock:
            if self.has_connection():
                return True
            now = time.monotonic()
            if self.lost_since is None:
                self.lost_since = now
            if not is_listened_on(self.sockname):
                was_stopped = kept(STOPS, self.sockname).get("run") == self.run
                if was_stopped or now - self.lost_since < OTHERS or self.starts == MOST_STARTS:
                    return False
                self.starts += 1
            run = self.run
            self.reach()
            self.is_another = run not in ("", self.run)
            return True

    def require_soon(self) -> None:
        """An error if no server was there for as long as others have to start one."""
        if self.lost_since is not None and time.monotonic() - self.lost_since > OTHERS:
            raise Unserved(f"no server listens on {self.sockname}")

    def connection(self) -> Connection:
        """A connection with a place for a subscription."""
        if not self.has_connection():
            raise Lost
        found = next((each for each in self.connections if len(each.boxes) < MOST), None)
        if found is None:
            try:
                found = Connection(self.sockname)
            except OSError:
                raise Lost from None
            self.connections.append(found)
        return found

    def ask(self, *command: object, seconds: Optional[float] = None) -> Value:
        if not self.has_connection():
            raise Lost
        return self.connections[0].ask(*command, seconds=seconds)

    # Roots.

    def expect(self, directories: List[str]) -> None:
        """Says which directories are watched next: one of them is the root of those that lie in it."""
        with self.lock:
            self.expected = directories

    def root_of(self, directory: str) -> str:
        """The root that serves a directory. Its last scan began in this call or later."""
        with self.lock:
            made = own_root_of(directory)
            root = nearest(directory, [*self.roots(directory), *([made] if made else [])])
            if root is None or "error" in self.ask("clock", root, {"sync_timeout": 1}):
                root = self.watched(directory)
            if root not in self.open and self.notes:
                self.open[root] = self.notes.opened(root)
            return root

    def watched(self, directory: str) -> str:
        """Has a root watched for a directory: the one that `wq watch --root` made, or the one that it has in common
        with other roots of this process, if these are many and it can be watched."""
        own = {root for server in list(self.all) for root in list(server.open)}
        made = own_root_of(directory)
        common = in_common([*own, directory]) if len(own) >= MOST_OWN and not made else None
        if common:
            with contextlib.suppress(Unserved):
                self.watch(common)
                return common
        root = made or outermost(directory, self.expected)
        self.watch(root)
        return root

    def roots(self, directory: str) -> List[str]:
        found = self.ask("watch-list")
        if "error" in found:
            raise refusal(directory, str(found["error"]))
        return list(found["roots"])

    def watch(self, root: str) -> None:
        """Watches a root. If no more may be, one that need not stay is dropped for it."""
        assert self.notes
        reply = self.ask("watch", root)
        while str(reply.get("error", "")).startswith(NO_ROOT) and self.notes.drop_one(self.roots(root), self.ask):
            reply = self.ask("watch", root)
        if "error" in reply:
            raise refusal(root, str(reply["error"]))
        self.notes.note(root, WINDOW, True)
        for inner in [each for each in self.open if each != root and lies_in(each, root)]:
            # Its watches are ended by the server, and begin again with the outer root.
            self.give_back(inner)

    def give_back(self, root: str) -> None:
        """Ends the watch of a root that this observer began, unless others need it."""
        lock = self.open.pop(root, None)
        if lock:
            lock.close()
        if self.notes:
            self.notes.give_back(root, functools.partial(self.ask, seconds=AT_END))

    # Subscriptions.

    def subscribe(self, root: str, query: Value, box: "queue.Queue[Value]") -> Tuple[str, Value]:
        """Subscribes to a root, and gives the name of the subscription and its first list: the files that match now."""
        with self.lock:
            self.count += 1
            name = f"watchdog {self.count}"
            connection = self.connection()
            found = connection.subscribe(root, name, query, box)
            if "error" in found:
                raise refusal(root, str(found["error"]))
            self.subscriptions[name] = Subscription(connection, root)
            return name, found

    def query(self, name: str, query: Value) -> Value:
        """Asks the root of a subscription, after a scan. Others may ask meanwhile."""
        with self.lock:
            subscription = self.subscriptions.get(name)
        if subscription is None:
            raise Lost
        return subscription.connection.ask("query", subscription.root, query)

    def unsubscribe(self, names: List[str]) -> None:
        """Ends subscriptions, and gives the roots back that no other one needs."""
        with self.lock:
            ended = {name: self.subscriptions.pop(name) for name in names if name in self.subscriptions}
            with contextlib.suppress(Lost):
                for name, (connection, root) in ended.items():
                    connection.boxes.pop(name, None)
                    if not connection.is_lost:
                        connection.ask("unsubscribe", root, name, seconds=AT_END)
                needed = {each.root for each in self.subscriptions.values()}
                for root in {each.root for each in ended.values()} - needed:
                    self.give_back(root)

    def close(self) -> None:
        """Ends all watches, and gives the roots back."""
        with self.lock:
            self.unsubscribe(list(self.subscriptions))
            for each in self.connections:
                each.close()
            for lock in filter(None, self.open.values()):
                lock.close()
            self.open.clear()
