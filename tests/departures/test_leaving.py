"""Clients that go in the middle of something."""

from typing import List

from case import Timed
from client import ENDED, VERSION, Client
from house import House, dear_query, large_tree, line_of
from waiting import look_until

TURNS = 3
# How long a client stays after it asked for what takes the server a tenth of a second or more, in seconds.
STAYS = 0.02
PATTERNS = 100
LINES = 100_000
PROGRAMS = 150
PROGRAM = "V1FQRgEAAAAAAAAAAAACAQEAACMAAAA="


class Leaving(Timed):
    def test_leaving(self) -> None:
        root = large_tree()
        with House(self.room, root) as house:
            self.check_while_a_tree_is_listed(house)
            house.settle()
            self.check_while_a_crawl_goes_on(house)
            self.check_while_a_query_is_evaluated(house)
            self.check_after_a_cursor(house)
            self.check_with_many_lines(house)
            house.goes_on(self, "after all of them went")
            self.same("the end after all of them went", house.server.shut_down(house.first), 0)
            self.same(
                "what the server said",
                house.server.errors(),
                f"listening on {house.server.sockname}\n".encode() + ENDED,
            )

    def check_while_a_tree_is_listed(self, house: House) -> None:
        """The root that it had listed is watched all the same."""
        early = house.visit(line_of("watch", house.root), STAYS)
        self.check("it went while its tree was listed", early)
        expected = {"roots": [house.root], **VERSION}
        found = look_until(lambda: house.first.ask("watch-list"), lambda reply: reply == expected)
        self.same("the root that it added", found, expected)
        reply = house.first.ask("clock", house.root)
        self.same("the listing of the root that it added", reply, {"clock": "c:7:9:1:1", **VERSION})

    def check_while_a_crawl_goes_on(self, house: House) -> None:
        self.check_before_the_reply(house, "while its crawl went on", {"path": ["x"]})

    def check_while_a_query_is_evaluated(self, house: House) -> None:
        self.check_before_the_reply(house, "while its query was evaluated", dear_query(PATTERNS))

    def check_before_the_reply(self, house: House, name: str, query: dict) -> None:
        """A client goes before its query is answered."""
        command = ["query", house.root, query]
        work = house.seconds_of(*command)
        early = [house.visit(line_of(*command), STAYS) for _ in range(TURNS)]
        self.check(f"it went {name}", any(early))
        house.is_as_before(self, name, work)
        house.goes_on(self, name)

    def check_after_a_cursor(self, house: House) -> None:
        """Directly after a query with a cursor, which is there then and has moved."""
        for turn in range(TURNS):
            query = {"since": f"n:cursor{turn}", "path": ["x"], "fields": ["name"], "sync_timeout": 0}
            house.visit(line_of("query", house.root, query), 0)
            house.is_as_before(self, f"directly after a query with cursor {turn}")
            reply = house.first.ask("query", house.root, query)
            self.same(f"cursor {turn}, which it added", reply.get("is_fresh_instance"), False)

    def check_with_many_lines(self, house: House) -> None:
        """With 100,000 lines, of which it reads no reply. What the first of them added is there."""
        names = [f"p{number}" for number in range(PROGRAMS)]
        lines = b"".join(line_of("program-add", name, PROGRAM) for name in names)
        lines += line_of("version") * (LINES - PROGRAMS)
        house.visit(lines, STAYS)
        house.is_as_before(self, "with many lines")
        self.check_programs(house.first, names)

    def check_programs(self, client: Client, names: List[str]) -> None:
        """The programs are the first of those that were sent, one of them at least."""
        found = client.ask("program-list")["programs"]
        is_front = 0 < len(found) <= len(names) and found == names[: len(found)]
        self.check("the programs that it added", is_front, [f"{found}"])
