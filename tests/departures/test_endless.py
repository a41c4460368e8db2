"""Lines that would take the server minutes: the end of the server, and a client that goes, end the work for them."""

import base64
import socket
import time
from pathlib import Path
from typing import Dict, List

from case import Timed
from client import ENDED, Client, Server
from house import House, large_tree, line_of
from wqprogram.instructions import BY_NAME
from wqprogram.program_file import Operation, Program, written

PATTERNS = 2_000
# So long a reply is waited for, which does not come, in seconds.
STAYS = 1.0
# The process ends within so many seconds, in the best of some tries: other work may take the processors meanwhile.
ENDS = 1.0
TRIES = 3
# A program that takes longer than that on one file.
TESTS = 20_000
SET = 1_000
# A search looks for its client after 1,024 files, which may take so many seconds.
LOOKS = 0.5


def patterns() -> List[str]:
    """Patterns that fit nothing, each of which is tried in rows at each name."""
    return [f"*/**/*?*{number}*[!0]*.none*" for number in range(PATTERNS)]


def endless(kind: str) -> Dict[str, object]:
    """A query that takes minutes."""
    if kind == "an expression":
        return {"expression": ["anyof", *[["match", text, "wholename"] for text in patterns()]]}
    if kind == "globs":
        return {"glob": patterns()}
    return {"program": "endless", "path": ["directory00"]}


def long_program() -> str:
    """A program that takes seconds for one file."""
    code = [Operation(BY_NAME[word], 0, 0) for word in ["wholename", "anymatch", "drop"] * TESTS + ["exists", "ret"]]
    pattern = (1, b"*/**/*?*[!0]*[!0]*.none*")
    return base64.b64encode(written(Program([], [], [], [], [[pattern] * SET], code))).decode()


KINDS = ("an expression", "globs", "a program")


def asked(client: Client, root: Path, kind: str) -> None:
    """Sends a query that takes minutes, and waits for its reply in vain."""
    client.socket.sendall(line_of("query", str(root), {"fields": ["name"], "sync_timeout": 0, **endless(kind)}))
    client.socket.settimeout(STAYS)
    try:
        found = client.socket.recv(1)
    except socket.timeout:
        client.socket.settimeout(None)
        return
    raise ValueError(f"a query that takes minutes was answered: {found!r}")


class Endless(Timed):
    def test_endless(self) -> None:
        root = large_tree()
        for kind in KINDS:
            self.check_the_end(self.room, root, kind)
        with House(self.room, root) as house:
            house.first.ask("watch", house.root)
            house.settle()
            for kind in ("an expression", "globs"):
                self.check_a_client_that_goes(house, root, kind)
            self.check_a_client_that_sends_no_more(house)

    def check_the_end(self, room: Path, root: Path, kind: str) -> None:
        """The server ends within a second beside such a line, and the client that sent it hears nothing."""
        took: List[float] = []
        for _ in range(TRIES):
            with Server(room) as server, server.client() as first, server.client() as other:
                first.ask("watch", str(root))
                first.ask("program-add", "endless", long_program())
                asked(other, root, kind)
                began = time.monotonic()
                status = server.shut_down(first)
                took.append(time.monotonic() - began)
                self.same(f"the end beside {kind}", status, 0)
                self.same(f"what its client got, beside {kind}", other.rest(), b"")
                self.same(f"the socket, beside {kind}", Path(server.sockname).exists(), False)
                said = f"listening on {server.sockname}\n".encode() + ENDED
                self.same(f"what the server said, beside {kind}", server.errors(), said)
            if took[-1] <= ENDS:
                break
        self.check(f"it ends within a second, beside {kind}", took[-1] <= ENDS, [f"{took} seconds"])

    def check_a_client_that_goes(self, house: House, root: Path, kind: str) -> None:
        """Its place is free soon."""
        with house.server.client_when_free() as client:
            asked(client, root, kind)
        house.is_as_before(self, f"which asked for {kind}", LOOKS)

    def check_a_client_that_sends_no_more(self, house: House) -> None:
        """It still reads, so it gets its reply, whatever that takes."""
        terms = [["match", text, "wholename"] for text in patterns()[:20]]
        query = {"expression": ["anyof", *terms], "fields": ["name"], "sync_timeout": 0}
        with house.server.client_when_free() as client:
            client.send("query", house.root, query)
            client.socket.shutdown(socket.SHUT_WR)
            self.same("the reply to a client that sends no more", client.reply().get("files"), [])
            self.same("what it gets then", client.rest(), b"")
