"""A client that never reads: a write that waits for it is cut off, and its session ends."""

import time

import built
from case import Beside, Timed
from client import A_HOUR, Server
from shared import ask_much
from trees import fill_directory

# A client is cut off after one to two minutes, and some seconds may pass until its threads have ended.
LEAST_WAIT = 55
MOST_WAIT = 150


class Deaf(Timed, Beside):
    def test_a_write_that_waits(self) -> None:
        root = self.room / "tree"
        fill_directory(root, 10_000)
        with Server(self.room, interval=A_HOUR) as server, server.client(root) as client:
            before = server.least_threads()
            with server.client() as deaf:
                begun = time.monotonic()
                ask_much(deaf, root, 20)
                self.check("the threads of a client that never reads", server.has_threads(before + 2, MOST_WAIT))
                self.check("the end of a write that waits", server.has_threads(before, MOST_WAIT))
                waited = time.monotonic() - begun
                self.check("how long a write waits", LEAST_WAIT <= waited <= MOST_WAIT, [f"{waited} seconds"])
                read = deaf.rest()
                self.check("what was written before", read.startswith(b'{"clock":"c:7:9:1:1"'), [built.excerpt(read)])
                self.check("it ends within a reply", not read.endswith(b"\n"), [built.excerpt(read[-100:])])
            self.same("a query after a write was cut off", client.ask("query", str(root), {})["clock"], "c:7:9:1:1")
            self.same("the server ends after a write was cut off", server.shut_down(client), 0)
