"""Long lines: two sessions read one at once, so what they take does not grow with the number of clients."""

import time
from typing import List

from case import Timed
from client import A_HOUR, Client, Server
from waiting import look_until

CLIENTS = 12

# A line of nearly a mebibyte. It takes some 136 megabytes while it is read.
LINE = b'["none",' + b'{"":0},' * 149_000 + b"0]\n"
REPLY = {"error": "E4: unknown command", "version": "wq-1"}

MOST_MEMORY = 450_000_000

# Two sessions go on to read their line, and the end of the server waits half a second for them.
MOST_END = 2.0


class LongLines(Timed):
    def test_long_lines(self) -> None:
        with Server(self.room, interval=A_HOUR) as server, server.client() as client:
            many = clients_with_lines(server)
            self.same("a short line beside long ones", client.ask("nothing"), REPLY)
            self.same("the replies to long lines", [one.reply() for one in many], [REPLY] * len(many))
            memory = server.most_memory()
            self.check("the memory of long lines", memory <= MOST_MEMORY, [f"{memory} bytes"])
            for one in many:
                one.close()

    def test_an_end_beside_long_lines(self) -> None:
        """The server waits for no line that is not read yet. Other work of the machine may hold up the end of one."""
        waited = look_until(self.seconds_of_an_end, lambda waited: waited <= MOST_END)
        self.check("how long the end takes beside long lines that wait", waited <= MOST_END, [f"{waited} seconds"])

    def seconds_of_an_end(self) -> float:
        with Server(self.room, interval=A_HOUR) as server, server.client() as client:
            many = clients_with_lines(server)
            begun = time.monotonic()
            self.same("the server ends beside long lines that wait", server.shut_down(client), 0)
            waited = time.monotonic() - begun
            for one in many:
                one.close()
        return waited


def clients_with_lines(server: Server) -> List[Client]:
    """Clients each of which sent a long line."""
    clients = [server.client() for _ in range(CLIENTS)]
    for client in clients:
        client.send_bytes(LINE)
    return clients
