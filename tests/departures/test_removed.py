"""The socket, and then its directory, are removed while the server runs."""

import os
import shutil
from typing import Callable, List, Tuple

from case import Case
from client import ENDED, VERSION, Client, Server, query_of_names


class Removed(Case):
    def test_a_socket_that_goes(self) -> None:
        """Clients that are there go on, nobody else can connect, and the server ends as ever."""
        removers: List[Tuple[str, Callable[[str], None]]] = [
            ("its socket", os.unlink),
            ("the directory of its socket", remove_above),
        ]
        for name, remove in removers:
            inside = self.directory("in")
            tree = self.directory("tree")
            with Server(inside) as server, server.client(tree) as client:
                remove(server.sockname)
                self.check(f"nobody can connect without {name}", not can_connect(server.sockname))
                (tree / "new").touch()
                reply = client.ask("query", str(tree), query_of_names())
                self.same(f"a query without {name}", reply["files"], ["new"])
                told = client.ask("get-sockname")
                self.same(f"the name that it tells without {name}", told, {"sockname": server.sockname, **VERSION})
                self.same(f"the end without {name}", server.shut_down(client), 0)
                self.same(
                    f"what it says without {name}",
                    server.errors(),
                    f"listening on {server.sockname}\n".encode() + ENDED,
                )
            shutil.rmtree(inside, ignore_errors=True)
            shutil.rmtree(tree)


def remove_above(path: str) -> None:
    shutil.rmtree(os.path.dirname(path))


def can_connect(sockname: str) -> bool:
    try:
        Client(sockname).close()
    except (FileNotFoundError, ConnectionRefusedError):
        return False
    return True
