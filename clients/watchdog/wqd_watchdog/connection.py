"""A connection to the server. A thread reads its lines: replies go to who asked, and lists to their watch."""

import contextlib
import json
import queue
import socket
import threading
from typing import Any, Dict, Optional

from .rows import file_of
from .trouble import Lost
from .wqclient.client import Client, json_of
from .wqclient.lines import Ended

Value = Dict[str, Any]
# Comes into each box when the connection is lost.
GONE: Value = {}


class Connection:
    """One connection. Each subscription has its box, into which the lists after its first one come."""

    def __init__(self, sockname: str) -> None:
        self.client = Client(sockname)
        self.process = self.client.peer().process
        self.boxes: "Dict[str, queue.Queue[Value]]" = {}
        self.replies: "queue.Queue[Value]" = queue.Queue()
        self.is_lost = False
        # Held from a command until its reply.
        self.lock = threading.Lock()
        threading.Thread(target=self.read, name="wqd_watchdog", daemon=True).start()

    def read(self) -> None:
        with contextlib.suppress(Ended, OSError, ValueError):
            while True:
                self.take(json.loads(self.client.line(), object_hook=file_of))
        self.is_lost = True
        self.replies.put(GONE)
        for box in list(self.boxes.values()):
            box.put(GONE)
        self.client.close()

    def take(self, value: Value) -> None:
        """Only the first list of a subscription is fresh, and whoever subscribes waits for it."""
        if "unilateral" not in value or value.get("is_fresh_instance"):
            self.replies.put(value)
            return
        box = self.boxes.get(value["subscription"])
        if box is not None:
            box.put(value)

    def ask(self, *command: object, seconds: Optional[float] = None) -> Value:
        """The reply to a command, which may be an error. If it takes longer, the connection is given up."""
        with self.lock:
            self.send(*command)
            return self.reply(seconds)

    def subscribe(self, root: str, name: str, query: Value, box: "queue.Queue[Value]") -> Value:
        """Subscribes, and gives the first list; an error if the server refuses it."""
        with self.lock:
            self.boxes[name] = box
            self.send("subscribe", root, name, query)
            found = self.reply()
            if "error" in found:
                del self.boxes[name]
                return found
            return self.reply()

    def send(self, *command: object) -> None:
        # What the server said before it ended can still be read.
        with contextlib.suppress(OSError):
            self.client.stream.sendall(json_of(list(command)) + b"\n")

    def reply(self, seconds: Optional[float] = None) -> Value:
        try:
            found = self.replies.get(timeout=seconds)
        except queue.Empty:
            self.close()
            raise Lost from None
        if found is GONE:
            self.replies.put(GONE)
            raise Lost
        return found

    def close(self) -> None:
        """Has the thread end, which gives the connection back."""
        self.is_lost = True
        with contextlib.suppress(OSError):
            self.client.stream.shutdown(socket.SHUT_RDWR)
