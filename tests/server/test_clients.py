"""What clients of one server ask and share: changes, cursors, programs, crawls, roots, and lines in pieces."""

import socket
import threading
from pathlib import Path

from case import Case
from client import VERSION, Server, query_of_names

PROGRAM = "V1FQRgEAAAAAAAAAAAACAQEAACMAAAA="
LONGEST_LINE = 1_048_576
# How often two clients add programs at the same time.
TURNS = 8


class Writer(threading.Thread):
    """A client that makes a file, and asks for it; again and again."""

    TURNS = 20

    def __init__(self, server: Server, root: Path, number: int) -> None:
        super().__init__()
        self.client = server.client()
        self.root = root
        # A turn that is not answered well, or to which it does not come, stays here.
        self.missed = [f"{number}-{turn}" for turn in range(self.TURNS)]

    def run(self) -> None:
        with self.client:
            for name in list(self.missed):
                (self.root / name).touch()
                query = {"expression": ["name", name], **query_of_names()}
                if self.client.ask("query", str(self.root), query).get("files") == [name]:
                    self.missed.remove(name)


class Clients(Case):
    def test_changes(self) -> None:
        """Files that come, change and go are seen by a query, and by one that does not synchronise after a while."""
        root = self.room / "tree"
        (root / "src").mkdir(parents=True)
        (root / "src" / "a.c").write_text("a")
        with Server(self.room, interval=20) as server, server.client(root) as client:
            first = client.ask("clock", str(root))["clock"]
            (root / "src" / "b.c").write_text("b")
            query = {"since": first, "expression": ["type", "f"], "fields": ["name", "exists", "new"]}
            reply = client.ask("query", str(root), query)
            self.same("a file that came", reply["files"], [{"name": "src/b.c", "exists": True, "new": True}])
            (root / "src" / "a.c").unlink()
            gone = {"since": reply["clock"], "expression": ["type", "f"], "fields": ["name", "exists"]}
            second = client.ask("query", str(root), gone)
            self.same("a file that went", second["files"], [{"name": "src/a.c", "exists": False}])
            write_longer(root / "src" / "b.c")
            waiting = {"since": second["clock"], "expression": ["type", "f"], "fields": ["name"], "sync_timeout": 0}
            seen = client.ask_until("query", str(root), waiting, lambda reply: reply["files"])
            self.same("a file that changed, seen by the crawler", seen["files"], ["src/b.c"])
            unchanged = client.ask("query", str(root), {"since": seen["clock"], **query_of_names()})
            self.same("nothing changed", (unchanged["files"], unchanged["clock"]), ([], seen["clock"]))

    def test_cursors(self) -> None:
        root = self.directory("tree")
        (root / "a").touch()
        with Server(self.room) as server, server.client() as one, server.client() as other:
            one.ask("watch", str(root))
            first = one.ask("query", str(root), {"since": "n:build", **query_of_names()})
            self.same("a cursor's first use", (first["files"], first["is_fresh_instance"]), (["a"], True))
            (root / "b").touch()
            later = other.ask("query", str(root), {"since": "n:build", **query_of_names()})
            self.same("a cursor of another client", (later["files"], later["is_fresh_instance"]), (["b"], False))
            self.same("a cursor that moved", one.ask("query", str(root), {"since": "n:build"})["files"], [])

    def test_what_clients_share(self) -> None:
        """Programs are shared, and two clients are answered at once."""
        root = self.directory("tree")
        (root / "a").touch()
        with Server(self.room) as server, server.client() as one, server.client() as other:
            one.ask("watch", str(root))
            reply = one.ask("program-add", "yes", PROGRAM)
            self.same("a program", reply, {"instructions": 2, "program-add": "yes", "replaced": False, **VERSION})
            reply = other.ask("query", str(root), {"program": "yes", **query_of_names()})
            self.same("a program of another client", reply["files"], ["a"])
            one.send("program-list")
            other.send("get-sockname")
            self.same("the name of the socket", other.reply(), {"sockname": server.sockname, **VERSION})
            self.same("programs", one.reply(), {"programs": ["yes"], **VERSION})
            self.same(
                "a program deleted", other.ask("program-del", "yes"), {"deleted": True, "program-del": "yes", **VERSION}
            )
            error = one.ask("query", str(root), {"program": "yes", **query_of_names()}).get("error")
            self.same("a program that another client deleted", error, "E34: no such program")

    def test_programs_of_two_at_once(self) -> None:
        """Two clients add a program at the same time, again and again. Once both have their reply, both list the two
        programs in one order."""
        with Server(self.room) as server, server.client() as one, server.client() as other:
            for number in range(TURNS):
                names = [f"one{number}", f"other{number}"]
                for client, name in zip((one, other), names):
                    client.send("program-add", name, PROGRAM)
                replaced = [client.reply().get("replaced") for client in (one, other)]
                self.same(f"two programs at once, {number}", replaced, [False, False])
                first, second = (client.ask("program-list")["programs"][-2:] for client in (one, other))
                self.check(f"one order, {number}", first == second and sorted(first) == names, [f"{first}, {second}"])

    def test_crawls_that_are_shared(self) -> None:
        """Each of many clients that ask at once sees the change that it made before it asked."""
        root = self.directory("tree")
        with Server(self.room) as server, server.client(root) as client:
            writers = [Writer(server, root, number) for number in range(16)]
            for writer in writers:
                writer.start()
            for writer in writers:
                writer.join()
            self.same("changes that were missed", [writer.missed for writer in writers], [[]] * len(writers))
            names = sorted(f"{number}-{turn}" for number in range(len(writers)) for turn in range(Writer.TURNS))
            self.same("all files", client.ask("query", str(root), query_of_names())["files"], names)

    def test_roots(self) -> None:
        with Server(self.room) as server, server.client() as client:
            roots = [self.room / f"root{number}" for number in range(17)]
            for root in roots:
                root.mkdir()
            self.same("no root", client.ask("watch-list"), {"roots": [], **VERSION})
            self.same("a root that is not absolute", client.ask("watch", "root0")["error"], "E10: root is not absolute")
            nothing = str(self.room / "nothing")
            self.same("a root that is not there", client.ask("watch", nothing)["error"], "E11: root cannot be read")
            self.same(
                "a root that is not watched", client.ask("query", nothing, {})["error"], "E14: root is not watched"
            )
            for root in roots[:16]:
                client.ask("watch-project", str(root) + "//")
            self.same("sixteen roots", client.ask("watch-list")["roots"], [str(root) for root in roots[:16]])
            self.same("a seventeenth root", client.ask("watch", str(roots[16]))["error"], "E13: too many roots")
            reply = client.ask("watch-del", str(roots[3]))
            self.same("a root deleted", reply, {"root": str(roots[3]), "watch-del": True, **VERSION})
            self.same(
                "a root deleted again", client.ask("watch-del", str(roots[3]))["error"], "E14: root is not watched"
            )
            self.same("a root after it", client.ask("clock", str(roots[3]))["error"], "E14: root is not watched")
            client.ask("watch", str(roots[3]))
            self.same("a number that is new", client.ask("clock", str(roots[3]))["clock"], "c:7:9:17:0")

    def test_pieces(self) -> None:
        """Lines that come in pieces, many at once, and without a last newline."""
        with Server(self.room) as server, server.client() as client:
            for byte in b'["version"]\n':
                client.send_bytes(bytes([byte]))
            self.same("a line byte by byte", client.reply(), VERSION)
            client.send_bytes(b'["version"]\n' * 1000)
            self.same("a thousand lines at once", [client.reply() for _ in range(1000)], [VERSION] * 1000)
            client.send_bytes(b'["version"]\n["version"')
            self.same("a line before half a line", client.reply(), VERSION)
            client.socket.shutdown(socket.SHUT_WR)
            self.same("half a line at the end", client.rest(), b"")

    def test_refused_lines(self) -> None:
        root = self.directory("tree")
        with Server(self.room) as server:
            with server.client(root) as client:
                query = b'["query",%s,{"expression":["pcre","x"]}]\n' % client.text(str(root))
                client.send_bytes(b"[\n7\n" + query + b" " * LONGEST_LINE + b'\n["frob"]\n["version"]\n')
                errors = [client.reply().get("error") for _ in range(6)]
                expected = [
                    "E2: not JSON",
                    "E3: not a command array",
                    "E24: unknown term",
                    "E2: not JSON",
                    "E4: unknown command",
                    None,
                ]
                self.same("lines that are refused", errors, expected)
            with server.client() as client:
                client.send_bytes(b" " * (LONGEST_LINE + 1))
                self.same("a line that is too long", client.reply()["error"], "E1: line too long")
                self.same("the end after it", client.rest(), b"")
            with server.client() as client:
                client.send_bytes(b"\0\1\5")
                self.same("a binary message", client.reply()["error"], "E6: BSER is not spoken here")
                self.same("the end after that", client.rest(), b"")


def write_longer(file: Path) -> None:
    """Makes a file longer by one write, so that no crawl sees it half changed."""
    with open(file, "r+b", buffering=0) as opened:
        opened.write(b"longer")
