"""The window that `wq follow` and `wq run` keep open: subscriptions that outlive their server, and the roots that were
watched for them."""

import argparse
import os
import select
import sys
import time
from typing import Callable, Dict, List, Optional, Sequence, Set

from wqclient.files import is_gone
from wqclient.kept import STOPS, kept, log_of, run_of
from wqclient.lines import Ended
from wqclient.root_notes import WINDOW
from wqclient.sockets import is_listened_on

from . import journal
from .changes import FIELDS, File
from .home import Home
from .ignored import is_wanted
from .pace import seconds_between_scans, seconds_shown
from .places import Places, is_hurried, require_words
from .processes import is_of_unit, own_processor_seconds, words_of
from .server import Server, Value, Went
from .shadow import GITIGNORE, IGNORE
from .silence import is_stopped, server_words, way_out
from .terminal import say
from .trouble import Trouble

SUBSCRIPTION, RULES = "wq", "rules of "
# In seconds: how often a silent server is looked at, how often one is looked for, how long the unit of systemd has to
# start one anew, and when a person hears that this waits.
LOOK, SEARCH, UNIT, TELL = 5.0, 0.2, 5.0, 2.0
# A server that ends within a second of its begin, so often in a row, is not started again.
SOON, MOST_SOON = 1.0, 5


class Window:
    """Subscriptions to what matches below directories. When the server ends, another one is asked."""

    def __init__(
        self,
        home: Home,
        options: argparse.Namespace,
        gap: str,
        takes_names: bool = False,
        fields: Sequence[str] = FIELDS,
    ) -> None:
        self.home = home
        self.options = options
        # A sentence on what changed between the end of a server and the next one.
        self.gap = gap
        self.takes_names = takes_names
        self.fields = list(fields)
        # The clock of each directory up to which its changes were taken.
        self.clocks: List[str] = []
        self.server: Optional[Server] = Server(home, first=lambda: require_words(options))
        self.sockname = self.server.sockname
        used = own_processor_seconds(self.server.peer.process)
        self.places = Places(self.server, options.words, options, WINDOW)
        self.began = self.lost = 0.0
        self.ends_soon = 0
        self.has_told = False
        self.gone: Set[str] = set()
        # The roots that were mounts when a server looked at them. It waits for these, as for roots that are gone.
        self.mounts: Set[str] = set()
        # Whether it does not go on yet by a server, so that nobody else can need a root which it had watched there.
        self.is_new = True
        # The files that match, when another server was reached.
        self.fresh: Optional[List[File]] = None
        try:
            self.first = self.begin(self.server, used)
        except BaseException:
            self.close(sys.exc_info()[1])
            raise

    def begin(self, server: Server, used: float) -> List[File]:
        """Begins with what is there now, and gives the files that match if names are taken. `used` is the processor
        time that the server had taken before, in seconds."""
        process = server.peer.process
        # These are needed when the server ends: its process may have gone then.
        self.run, self.is_of_unit = run_of(process), is_of_unit(process)
        self.count, self.clocks = 0, []
        self.mounts = set(filter(os.path.ismount, self.places.roots()))
        files: List[File] = []
        for number, place in enumerate(self.places.places):
            has_names = self.takes_names or bool(self.places.links) or self.places.ignored[number].rules is not None
            fields = self.fields if has_names else ["type"]
            found = self.places.ask(place, {"expression": self.places.expression(number), "fields": fields})
            self.clocks.append(found["clock"])
            self.subscribe_to_rules(server, number)
            self.subscribe(server, number)
            told = self.places.told(number, found)["files"] if has_names else []
            kinds = [file["type"] for file in told] if has_names else found["files"]
            self.count += len(kinds) if self.options.type else len(kinds) - kinds.count("d")
            files += told if self.takes_names else []
        self.scan = own_processor_seconds(process) - used
        self.began = time.monotonic()
        self.has_told = self.is_new = False
        return files

    def subscribe(self, server: Server, number: int) -> None:
        """Subscribes to what changes below one of the directories since its clock. Lists of a subscription before it
        are dropped."""
        query = {"expression": self.places.expression(number), "fields": self.fields, "since": self.clocks[number]}
        server.ask("subscribe", self.places.places[number].root, name_of(number), query)
        keep_lists(server, lambda one: bool(one["subscription"] != name_of(number)))
        server.client.take_lists()

    def later(self) -> List[File]:
        """The files that changed since the lists that were taken. Further lists have what changes from now on."""
        server = self.server
        if server is None:
            return []
        files: List[File] = []
        try:
            for number, place in enumerate(self.places.places):
                since = {"since": self.clocks[number], "fields": self.fields}
                found = server.ask("query", place.root, {"expression": self.places.expression(number), **since})
                self.clocks[number] = found["clock"]
                self.subscribe(server, number)
                files += self.places.told(number, found)["files"]
        except Went:
            self.lose(server)
        return files

    def pace(self) -> float:
        """About how many seconds there are between two scans."""
        return seconds_between_scans(words_of(self.places.server.peer.process), self.scan)

    def subscribe_to_rules(self, server: Server, number: int) -> None:
        """Hears of files that say what is ignored, if that is left out."""
        if is_wanted(self.options):
            query = {"expression": ["name", [GITIGNORE, IGNORE]], "fields": FIELDS, "since": self.clocks[number]}
            server.ask("subscribe", self.places.places[number].root, RULES + name_of(number), query)
            server.client.take_lists()

    def words(self) -> str:
        """Says how many files are followed, and how often the server scans them."""
        count = f"{self.count:,} file{'' if self.count == 1 else 's'}"
        below = " and ".join(self.places.directories)
        # A change may come just after a scan looked there, and the next one has to end.
        late = f"within about {seconds_shown(2 * self.pace())}, later under load"
        pace = f"; changes show {late}" if words_of(self.places.server.peer.process) else ""
        return f"following {count} below {below}{pace}"

    def wait(self, others: Dict[int, int], seconds: Optional[float] = None) -> Dict[int, int]:
        """Waits for the server, and for events of other files, which are given; at most for some seconds."""
        limit = LOOK if self.server else SEARCH
        if self.server and self.server.client.lists or self.fresh is not None:
            limit = 0.0
        poll = select.poll()
        for number, events in others.items():
            poll.register(number, events)
        if self.server:
            poll.register(self.server.client, select.POLLIN)
        found = dict(poll.poll(1000 * (limit if seconds is None else min(seconds + 0.001, limit))))
        if self.server is None:
            self.search()
        elif found.pop(self.server.client.fileno(), None):
            self.take(self.server)
        elif not found:
            self.look(self.server)
        return found

    def take(self, server: Server) -> None:
        """Takes what the server sent, a whole line or a part of one."""
        try:
            server.client.receive()
            server.client.take_lists()
        except Ended:
            self.lose(server)

    def lists(self) -> List[Value]:
        """The lists that came. The line that ends the subscription is met after those before it."""
        if self.server is None:
            return []
        lists = self.server.client.lists
        if lists and lists[0].get("canceled"):
            raise Trouble(f"{lists[0]['root']} is no longer watched, so nothing more is told of it")
        found: List[Value] = []
        while self.server and lists and not lists[0].get("canceled"):
            try:
                found += self.told(self.server, lists.popleft())
            except Went:
                self.lose(self.server)
        return found

    def told(self, server: Server, found: Value) -> List[Value]:
        """A list with names as people are shown them. If what is ignored changed, git and the server are asked anew."""
        is_of_rules = found["subscription"].startswith(RULES)
        names = [name_of(number) for number in range(len(self.clocks))]
        number = names.index(found["subscription"][len(RULES) if is_of_rules else 0 :])
        if not is_of_rules:
            self.clocks[number] = found["clock"]
        ignored = self.places.ignored[number]
        has_changed = bool(found["files"]) if is_of_rules else ignored.is_stale()
        before = ignored.said
        if has_changed and ignored.renew():
            self.subscribe(server, number)
        lists = [] if is_of_rules else [self.places.told(number, found)]
        files = self.places.told_by_rules(number, before, self.fields) if has_changed else []
        place = self.places.places[number]
        more = {"files": files, "root": place.root, "below": place.below, "subscription": names[number]}
        return [*lists, {**found, **more}] if files else lists

    def drop_lists(self) -> None:
        """Takes no list of changes that came, so that they are there `later`."""
        if self.server:
            keep_lists(self.server, lambda one: one.get("canceled", False) or one["subscription"].startswith(RULES))

    def fresh_files(self) -> Optional[List[File]]:
        """The files that match, once after another server was reached."""
        found, self.fresh = self.fresh, None
        return found

    def look(self, server: Server) -> None:
        """Says once that the server is stopped, or that a root is gone: nothing comes then, and nobody asks."""
        for root in self.places.roots():
            why = "is gone" if is_gone(root) else "is not mounted any more" if self.is_unmounted(root) else ""
            if not why:
                self.gone.discard(root)
            elif root not in self.gone:
                self.gone.add(root)
                say(f"{root} {why}; waiting for it", "yellow")
        if not is_stopped(server.peer.process):
            self.has_told = False
        elif not self.has_told:
            self.has_told = True
            process = server.peer.process
            say(f"{server_words(self.sockname, process)} is stopped; {way_out(process)}", "yellow")

    def is_unmounted(self, root: str) -> bool:
        return root in self.mounts and not os.path.ismount(root)

    # The end of a server.

    def lose(self, server: Server) -> None:
        """The server has ended."""
        server.close()
        self.server = None
        self.lost, self.has_told = time.monotonic(), False
        if self.lost - self.began >= SOON:
            self.ends_soon = 0
        self.count_end()

    def count_end(self) -> None:
        """Gives up if no server stays."""
        self.ends_soon += 1
        if self.ends_soon > MOST_SOON:
            raise Trouble(
                f"the server has ended {self.ends_soon} times, each too soon",
                f"its log is {journal.SHOW if self.is_of_unit else log_of(self.sockname)}",
            )

    def search(self) -> None:
        """Reaches another server, which is started if nobody else is about to start one."""
        if self.is_started_by_others() and not is_listened_on(self.sockname):
            if not self.has_told and time.monotonic() - self.lost > TELL:
                self.has_told = True
                say(
                    "the server was stopped; this goes on as soon as another one listens, such as after `wq start`",
                    "yellow",
                )
            return
        try:
            server = self.server = Server(self.home, tells=False)
            self.is_new = True
            used = own_processor_seconds(server.peer.process)
            self.places.again(server)
            files = self.begin(server, used)
        except Went:
            self.server = None
            self.count_end()
            return
        start = "another one was started" if server.is_own else "another one listens"
        say(f"the server has ended, and {start}; {self.words()}; {self.gap}", "yellow")
        self.fresh = files

    def is_started_by_others(self) -> bool:
        """Whether the server was stopped on purpose, or systemd has just a moment to start it anew."""
        if kept(STOPS, self.sockname).get("run") == self.run:
            return True
        return self.is_of_unit and time.monotonic() - self.lost < UNIT

    # The end of the window.

    def close(self, error: Optional[BaseException] = None) -> None:
        """Gives the roots back that were watched for windows alone, if this is the last one."""
        for ignored in self.places.ignored:
            ignored.close()
        self.places.open.close(self.server, self.places.added if self.is_new else (), is_hurried(error))
        if self.server:
            self.server.close()

    def __enter__(self) -> "Window":
        return self

    def __exit__(self, kind: object, error: Optional[BaseException], _: object) -> None:
        self.close(error)


def keep_lists(server: Server, is_kept: Callable[[Value], bool]) -> None:
    """Of the lists that came keeps some."""
    lists = server.client.lists
    found = list(filter(is_kept, lists))
    lists.clear()
    lists.extend(found)


def name_of(number: int) -> str:
    """The name of the subscription to a directory."""
    return f"{SUBSCRIPTION}{number + 1}" if number else SUBSCRIPTION
