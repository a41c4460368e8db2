"""Clients that are slow, that go and that are too many: the others go on, and memory stays bounded."""

import select
from pathlib import Path
from typing import Any, Dict, List

from case import Case
from client import VERSION, Client, Server, query_of_names
from shared import ask_much
from trees import fill_directory

SESSIONS = 32
TOO_MANY = {"error": "E17: too many sessions", **VERSION}

LONG_LINE = b" " * 1_000_000 + b"\n"
LONG_LINES = 40

# 8 lines wait for a session, its reader holds what it cuts the next ones from, and the socket some more.
MOST_TAKEN = 12_000_000
MOST_MEMORY = 250_000_000


class Slow(Case):
    def goes_on(self, name: str, client: Client, root: Path) -> None:
        """A query sees a new file, and so does the crawler."""
        (root / f"asked, {name}").touch()
        query: Dict[str, Any] = {**query_of_names(), "expression": ["name", f"asked, {name}"]}
        reply = client.ask("query", str(root), query)
        self.same(f"a query {name}", reply["files"], [f"asked, {name}"])
        (root / f"crawled, {name}").touch()
        query = {**query_of_names(), "expression": ["name", f"crawled, {name}"], "sync_timeout": 0}
        reply = client.ask_until("query", str(root), query, lambda reply: reply["files"])
        self.same(f"a crawl {name}", reply["files"], [f"crawled, {name}"])

    def test_clients_that_are_slow(self) -> None:
        """One that never reads, one that sends half a line, one that goes in the middle of a reply: the others go
        on."""
        root = self.room / "tree"
        fill_directory(root, 10_000)
        with Server(self.room) as server, server.client(root) as client:
            half, deaf, gone = server.client(), server.client(), server.client()
            half.send_bytes(b'["version"')
            for slow in (deaf, gone):
                ask_much(slow, root, 20)
            gone.socket.recv(100)
            gone.close()
            self.goes_on("beside slow clients", client, root)
            half.send_bytes(b"]\n")
            self.same("half a line and its end", half.reply(), VERSION)
            self.same("the server ends beside a client that never reads", server.shut_down(client), 0)
            deaf.close()
            half.close()

    def test_all_slow(self) -> None:
        """31 slow clients beside one that is not. Of each three one never reads, one stays in a line, and one goes."""
        root = self.room / "tree"
        fill_directory(root, 10_000)
        with Server(self.room, interval=200) as server, server.client(root) as client:
            slow = [server.client() for _ in range(SESSIONS - 1)]
            self.same("all clients", [one.ask("version") for one in slow], [VERSION] * len(slow))
            with server.client() as late:
                self.same("a client beside all slow ones", late.reply(), TOO_MANY)
            deaf, half, gone = slow[0::3], slow[1::3], slow[2::3]
            for one in half:
                one.send_bytes(b'["version"' + b" " * 500_000)
            for one in gone:
                ask_much(one, root, 20)
                one.socket.recv(100)
            taken = flood(deaf, root)
            self.check("what is taken of a client that never reads", max(taken) <= MOST_TAKEN, [f"{taken}"])
            self.goes_on("beside 31 slow clients", client, root)
            for one in gone:
                one.close()
            new = [server.client_when_free() for _ in gone]
            self.same("in the places of those that went", [one.ask("version") for one in new], [VERSION] * len(new))
            self.goes_on("after some went", client, root)
            memory = server.most_memory()
            self.check("memory beside 31 slow clients", memory <= MOST_MEMORY, [f"{memory} bytes"])
            for one in half:
                one.send_bytes(b"]\n")
            self.same("the ends of long lines", [one.reply() for one in half], [VERSION] * len(half))
            self.same("the server ends beside slow clients", server.shut_down(client), 0)
            for one in slow + new:
                one.close()

    def test_too_many(self) -> None:
        with Server(self.room) as server:
            clients = [server.client() for _ in range(SESSIONS)]
            self.same("32 clients", [client.ask("version") for client in clients], [VERSION] * SESSIONS)
            with server.client() as late:
                self.same("a client too many", late.reply(), TOO_MANY)
                self.same("the end after that client's line", late.rest(), b"")
            clients.pop().close()
            clients.append(server.client_when_free())
            self.same("a client in the place of another", clients[-1].ask("version"), VERSION)
            self.same("the end of the server", server.shut_down(clients[0]), 0)
            self.same("the end of all clients", [client.rest() for client in clients[1:]], [b""] * (SESSIONS - 1))
            for client in clients:
                client.close()


def flood(clients: List[Client], root: Path) -> List[int]:
    """Asks for two replies that are not read, and sends long lines behind it until nothing is taken for a second. Gives
    how many bytes of each client were taken."""
    for client in clients:
        ask_much(client, root, 2)
        client.socket.setblocking(False)
    whole = memoryview(LONG_LINE * LONG_LINES)
    sent = dict.fromkeys((client.socket for client in clients), 0)
    while True:
        wanting = [stream for stream, count in sent.items() if count < len(whole)]
        ready = select.select([], wanting, [], 1)[1]
        if not ready:
            return list(sent.values())
        for stream in ready:
            sent[stream] += stream.send(whole[sent[stream] : sent[stream] + 100_000])
