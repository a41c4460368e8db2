"""A client: its messages are answered one after the other, and lists that come by themselves go through as they
come."""

import select
import socket
import struct
from types import ModuleType
from typing import Callable, Dict, Optional

from bridge.encodings import Broken, Inbox, Message, Unreadable
from bridge.faults import Ended, Refused
from bridge.notices import LEAVES, Mailbox, Notice
from bridge.shared import Shared
from bridge.telling import Reply, Teller

PIECE = 65_536
# A client that takes nothing of a reply for so many seconds is cut off.
PATIENCE = 120


class Session(Teller):
    """One client, and its own connections to the server, of which the first is made for its first message."""

    def __init__(
        self,
        bridge: Shared,
        client: socket.socket,
        codec: Optional[ModuleType],
        answer: Callable[["Session", object], Reply],
    ) -> None:
        super().__init__(bridge, client, codec)
        self.answer_command = answer
        client.setsockopt(socket.SOL_SOCKET, socket.SO_SNDTIMEO, struct.pack("ll", PATIENCE, 0))
        self.has_bser = codec is not None
        self.inbox = Inbox(codec, bridge.messages)
        self.mailbox: Optional[Mailbox] = None
        # Whether this client has sent anything, and whether it has ended the server.
        self.has_spoken = self.ends_server = False

    def close(self) -> None:
        self.client.close()
        self.inbox.keep(0)
        self.links.close()
        for root, name in self.bridge.states.abandon(self):
            self.bridge.mailboxes.put(Notice(root, {"root": root, LEAVES: name, "abandoned": True}))
        if self.mailbox is not None:
            self.bridge.mailboxes.remove(self.mailbox)
            self.mailbox.close()

    def run(self) -> None:
        """Serves the client until it goes, or the server does."""
        try:
            while not self.ends_server:
                self.wait()
                self.answer_all()
            self.bridge.end()
        except Ended as end:
            if isinstance(end, Broken):
                self.encoding = end.encoding
            if str(end):
                self.tell_if_there({"error": str(end)})
        except OSError:
            pass  # the client has gone
        finally:
            self.close()

    def wait(self) -> None:
        """Waits for the client, and tells it lists and notices meanwhile."""
        self.tell_all()
        numbers = [number for number, _ in self.ready.poll(self.patience())]
        for link in list(self.links.all):
            if link.fileno() in numbers:
                link.receive()
        self.tell_all()
        if self.client.fileno() in numbers:
            self.read()

    def tell_all(self) -> None:
        """Tells the client what is there."""
        for link in list(self.links.all):
            line = link.take()
            while line is not None:
                self.take(line)
                line = link.take()
        self.tell_notices()
        self.tell_held_back()

    def read(self) -> None:
        piece = self.client.recv(PIECE)
        if not piece:
            raise Ended("")
        self.has_spoken = True
        self.inbox.add(piece)

    def answer_all(self) -> None:
        """Answers the messages that are there."""
        while not self.ends_server:
            try:
                message = self.inbox.take()
            except Unreadable as fault:
                self.encoding = fault.encoding
                self.tell({"error": str(fault)})
                continue
            if message is None:
                return
            self.encoding = message.encoding
            self.tell_notices()
            self.tell(self.answer(message))

    def answer(self, message: Message) -> Reply:
        try:
            return self.answer_command(self, message.value)
        except Refused as fault:
            return {"error": str(fault)}

    def listens(self) -> None:
        """From now on the client gets notices of others."""
        if self.mailbox is None:
            self.mailbox = Mailbox(self.bridge.mailboxes.share)
            self.ready.register(self.mailbox, select.POLLIN)
            self.bridge.mailboxes.add(self.mailbox)

    def tell_notices(self) -> None:
        for notice in self.mailbox.take() if self.mailbox is not None else ():
            if notice.root is None:
                self.tell_log(notice)
            else:
                self.tell_state(notice)

    def tell_if_there(self, value: Dict[str, object]) -> None:
        try:
            self.tell(value)
        except OSError:
            pass
