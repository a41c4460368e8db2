"""Notices that one client's command sends to others: of states, and lines of the log."""

import os
import threading
from collections import deque
from typing import Deque, Dict, List, NamedTuple, Optional

from bridge.encodings import json_of
from bridge.faults import Ended
from bridge.held import Held

# The notice of a state has this key with the state's name.
ENTERS, LEAVES = "state-enter", "state-leave"


# The notices that wait for one client may have so many bytes.
MOST = 16_777_216
UNREAD = "the client did not read what other clients had it told"


class Notice(NamedTuple):
    """The keys that a client gets. The notice of a state goes to each subscription of its root, one of the log to the
    client."""

    root: Optional[str]
    keys: Dict[str, object]


class Mailbox:
    """Notices that a client is still to be told. Its number is ready to be read if there are any, or were too many."""

    def __init__(self, share: Held) -> None:
        self.share = share
        self.counted = 0
        self.is_full = False
        self.seen, self.told = os.pipe()
        os.set_blocking(self.told, False)
        self.held: Deque[Notice] = deque()
        self.lock = threading.Lock()
        self.is_open = True

    def fileno(self) -> int:
        return self.seen

    def put(self, notice: Notice, length: int) -> None:
        """Adds a notice of so many bytes. A client for which too many wait is cut off."""
        with self.lock:
            if not self.is_open or self.is_full:
                return
            if not self.held:
                os.write(self.told, b".")
            if self.counted + length > MOST or not self.share.take(length):
                self.is_full = True
                self.empty()
                return
            self.counted += length
            self.held.append(notice)

    def empty(self) -> None:
        self.held.clear()
        self.share.give(self.counted)
        self.counted = 0

    def take(self) -> List[Notice]:
        with self.lock:
            if self.is_full:
                raise Ended(UNREAD)
            if not self.held:
                return []
            os.read(self.seen, 1)
            found = list(self.held)
            self.empty()
            return found

    def close(self) -> None:
        with self.lock:
            self.is_open = False
            self.empty()
            os.close(self.seen)
            os.close(self.told)


class Mailboxes:
    """Those of the clients that subscribed, or that read the log."""

    def __init__(self) -> None:
        self.lock = threading.Lock()
        self.share = Held()
        self.mailboxes: List[Mailbox] = []

    def add(self, mailbox: Mailbox) -> None:
        with self.lock:
            if mailbox not in self.mailboxes:
                self.mailboxes.append(mailbox)

    def remove(self, mailbox: Mailbox) -> None:
        with self.lock:
            if mailbox in self.mailboxes:
                self.mailboxes.remove(mailbox)

    def put(self, notice: Notice) -> None:
        with self.lock:
            mailboxes = list(self.mailboxes)
        length = len(json_of(notice.keys)) if mailboxes else 0
        for mailbox in mailboxes:
            mailbox.put(notice, length)
