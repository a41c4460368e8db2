"""What the server is asked for a client, and the lists and notices that the client gets without asking: which go
through at once, which are held back, and which are dropped."""

import json
import re
import select
import socket
import time
from types import ModuleType
from typing import Dict, List, Optional, Tuple, Union

from bridge.encodings import JSON, Writer, json_of
from bridge.faults import Ended, Refused, of_server
from bridge.fields import Lister
from bridge.link import VERSION_LAST, Link, comes_by_itself
from bridge.links import Links
from bridge.listing import Listed, Listing, Passing, list_for
from bridge.logs import LEVELS
from bridge.notices import ENTERS, LEAVES, Notice
from bridge.shared import Shared
from bridge.subscriptions import DROP, HOLD, TELL, Subscription
from bridge.version import VERSION

# Nothing is the reply of a command that has told its client everything.
Reply = Union[Dict[str, object], Listed, None]
BEGIN = re.compile(rb'\{"clock":"([^"]*)","files":\[(\])?')
FILES_END = b'],"is_fresh_instance":'
# How a reply with files begins.
LIST_BEGIN = b'{"clock":'
Command = List[object]
# Watchman's words if the scan for a command takes longer than its `sync_timeout`.
TOO_LATE = {
    "query": "query failed: synchronization failed: Connection timed out",
    "clock": "sync_timeout expired",
}
# How often it is looked whether source control has ended, in seconds.
PAUSE = 0.05


class Teller:
    """Tells one client. While the server has told a subscription as much as the client, its lists go through as they
    are. Else they say that there is more, and the client gets one list of what changed since the last one that it
    got."""

    def __init__(self, bridge: Shared, client: socket.socket, codec: Optional[ModuleType]) -> None:
        self.bridge = bridge
        self.client = client
        self.writer = Writer(codec)
        self.encoding = JSON
        self.ready = select.poll()
        self.ready.register(client, select.POLLIN)
        self.links = Links(bridge.server, self.ready, bridge.running.sees)
        # By root and name.
        self.subscriptions: Dict[Tuple[str, str], Subscription] = {}
        self.log_level = "off"

    def server(self) -> Link:
        return self.links.first()

    def ask(self, command: Command, link: Optional[Link] = None, patience: int = 0) -> Dict[str, object]:
        """The server's reply to a command."""
        reply: Dict[str, object] = json.loads(self.ask_for_line(command, link=link, patience=patience).decode())
        return reply

    def ask_for_list(self, command: Command, lister: Lister, patience: int) -> Listed:
        """The server's reply with files. It is taken as it comes, if no list of a subscription can come before it."""
        found = list_for(lister, self.writer, self.encoding, self.client)
        found.end(self.ask_for_line(command, None if self.subscriptions else found, patience=patience))
        return found

    def line_after(self, server: Link, found: Listed) -> bytes:
        """The next line, or the last part of a list that takes what is before it."""
        line, is_list = server.take(), False
        while line is None:
            is_list = is_list or server.begins_with(LIST_BEGIN)
            if is_list:
                found.add(server.cut())
            server.receive()
            line = server.take()
        return line

    def ask_for_line(
        self, command: Command, found: Optional[Listed] = None, link: Optional[Link] = None, patience: int = 0
    ) -> bytes:
        """The line of the server's reply, or its last part, if a list takes those before it. An error has Watchman's
        words. With a patience, in milliseconds, the reply has to begin before it ends."""
        server = link or self.server()
        server.send(command)
        end = time.monotonic() + patience / 1000
        while True:
            if patience and not server.comes_within(max(0.0, end - time.monotonic())):
                self.links.set_aside(server)
                raise Refused(TOO_LATE[str(command[0])])
            line = self.line_after(server, found) if found else server.line()
            if not comes_by_itself(line):
                break
            self.take(line)
        if line.startswith(b'{"error":'):
            raise Refused(of_server(json.loads(line)["error"], command))
        return line

    def tell(self, value: Reply) -> None:
        if value is None:
            return
        if isinstance(value, (Passing, Listing)):
            value.tell()
            return
        value["version"] = VERSION
        self.client.sendall(self.writer.bytes_of(value, self.encoding))

    def take(self, line: bytes) -> None:
        """Takes a line of the server that nobody asked for."""
        if not comes_by_itself(line):
            raise Ended(of_server(str(json.loads(line).get("error", "the server said what was not asked")), []))
        begin = BEGIN.match(line)
        if begin is None:
            self.cancel(json.loads(line))
            return
        tail = json.loads(b"{" + line[line.rfind(FILES_END) + 2 :])
        subscription = self.subscriptions.get((tail["root"], tail["subscription"]))
        if subscription is not None:
            self.take_list(subscription, line, begin.group(1).decode(), begin.group(2) is None)

    def cancel(self, value: Dict[str, object]) -> None:
        """The root is watched no longer, so the subscription has ended."""
        key = (str(value["root"]), str(value["subscription"]))
        self.subscriptions.pop(key, None)
        self.links.remove(key)
        self.tell(value)

    def take_list(self, subscription: Subscription, line: bytes, clock: str, has_files: bool) -> None:
        is_next = subscription.told == subscription.passed
        is_first = subscription.passed is None
        subscription.passed = clock
        action = TELL if is_first else subscription.action()
        if action == DROP:
            subscription.drop(clock)
        elif (
            not is_next
            or subscription.has_more
            or action == HOLD
            or (has_files and subscription.settle and not is_first)
        ):
            subscription.has_more = subscription.told != clock
            subscription.seen = clock
            subscription.due = time.monotonic() + (subscription.settle or PAUSE * (action == HOLD))
        else:
            self.tell_list(subscription, line, clock, has_files)

    def tell_list(self, subscription: Subscription, line: bytes, clock: str, has_files: bool) -> None:
        """Tells a list. As in Watchman, one without files is not told."""
        since, subscription.told = subscription.told, clock
        subscription.has_more = False
        if not has_files:
            return
        found = list_for(subscription.lister, self.writer, self.encoding, self.client)
        found.end(line)
        if since is not None:
            found.more["since"] = since
        found.more.update(self.bridge.recrawls.keys(subscription.root))
        self.tell(found)

    def tell_since(self, subscription: Subscription) -> bool:
        """Tells what changed since the last list of the client, and says whether anything did."""
        query = dict(subscription.query, since=subscription.told, sync_timeout=0)
        return self.tell_reply(subscription, self.ask_for_line(["query", subscription.root, query]))

    def tell_reply(self, subscription: Subscription, line: bytes) -> bool:
        """Tells the reply to a query as a list of a subscription, and says whether it has files."""
        begin = BEGIN.match(line)
        assert begin is not None
        has_files = begin.group(2) is None
        keys = {"root": subscription.root, "subscription": subscription.name, "unilateral": True}
        tail = json_of(keys)[1:-1].encode("utf-8", "surrogatepass") + b"," + VERSION_LAST
        self.tell_list(subscription, line[: -len(VERSION_LAST)] + tail, begin.group(1).decode(), has_files)
        return has_files

    def held_back(self) -> List[Subscription]:
        return [each for each in self.subscriptions.values() if each.has_more]

    def patience(self) -> Optional[float]:
        """How long the client and the server are waited for, in milliseconds: until a list that is held back is looked
        at."""
        due = [each.due for each in self.held_back() if each.looks_again()]
        return max(0.0, min(due) - time.monotonic()) * 1000 + 1 if due else None

    def tell_held_back(self) -> None:
        """Tells lists that nothing holds back any longer."""
        now = time.monotonic()
        for subscription in self.held_back():
            if not subscription.looks_again() or now < subscription.due:
                continue
            if subscription.action() == HOLD:
                subscription.due = now + PAUSE
            elif not subscription.settle or self.is_settled(subscription):
                self.try_to_tell(subscription)

    def try_to_tell(self, subscription: Subscription) -> None:
        """If the root is watched no longer, the next line of the server says so."""
        try:
            self.tell_since(subscription)
        except Refused:
            subscription.has_more = False

    def is_settled(self, subscription: Subscription) -> bool:
        """Whether nothing changed since the server's last list; else it is looked again after the time to settle."""
        try:
            clock = self.ask(["clock", subscription.root])["clock"]
        except Refused:
            return True
        if clock == subscription.seen:
            return True
        subscription.seen = str(clock)
        subscription.due = time.monotonic() + subscription.settle
        return False

    def tell_state(self, notice: Notice) -> None:
        """Tells each subscription of the root that a state was entered or left."""
        subscriptions = [each for each in self.subscriptions.values() if each.root == notice.root]
        keys = (
            notice.keys
            if "clock" in notice.keys or not subscriptions
            else {**notice.keys, **self.clock_of(notice.root)}
        )
        for subscription in subscriptions:
            if ENTERS in keys:
                subscription.states.add(str(keys[ENTERS]))
            else:
                self.leave(subscription, keys)
            self.tell(dict(keys, subscription=subscription.name, unilateral=True))

    def clock_of(self, root: Optional[str]) -> Dict[str, object]:
        """The key of a notice whose sender has gone before it could ask for the clock."""
        try:
            return {"clock": self.ask(["clock", root])["clock"]}
        except Refused:
            return {}

    def leave(self, subscription: Subscription, keys: Dict[str, object]) -> None:
        name = str(keys[LEAVES])
        subscription.states.discard(name)
        subscription.due = 0.0
        if name in subscription.policy.dropped_by and "clock" in keys:
            subscription.drop(str(keys["clock"]))

    def tell_log(self, notice: Notice) -> None:
        if LEVELS[str(notice.keys["level"])] <= LEVELS[self.log_level]:
            self.tell(dict(notice.keys, unilateral=True))
