"""Roots that are deleted: what they took is free for the next ones."""

from pathlib import Path
from typing import List

from case import Case
from client import A_HOUR, PATIENCE, Client, Server
from trees import fill_directory

FILES = 20_000
# Of the memory of a view that goes, the C library keeps a part, which is small beside that of so many files.
LARGE = 60_000
ROOTS = 8
MOST_GROWTH = 1.3
RECORD_BYTES = 64


class Deleted(Case):
    def test_roots_that_are_deleted(self) -> None:
        """Root after root is watched and deleted. The view of one that was deleted goes before the next is listed, so
        all together take little more than one."""
        roots = [self.room / f"tree{number}" for number in range(ROOTS)]
        for root in roots:
            fill_directory(root, FILES)
        with Server(self.room, interval=A_HOUR) as server, server.client() as client:
            memory = [memory_with(server, client, root) for root in roots]
        self.check("memory of roots that were deleted", memory[-1] <= MOST_GROWTH * memory[0], [f"{memory}"])

    def test_a_view_that_goes(self) -> None:
        """The view of a root that was deleted goes with the next round, though nothing is published."""
        root = self.room / "tree"
        fill_directory(root, LARGE)
        with Server(self.room) as server, server.client(root) as client:
            before = server.least_memory()
            client.ask("watch-del", str(root))
            self.check("the view of a root that was deleted", has_less(server, before), [f"{before} bytes before"])

    def test_what_sessions_keep(self) -> None:
        """A session keeps nothing of what it was told of a deletion. So where another client deletes a second root
        after it, the view of that goes too, though the session never looks again."""
        small, large = self.room / "small", self.room / "large"
        fill_directory(small, 1)
        fill_directory(large, LARGE)
        for leaves in (False, True):
            with Server(self.room) as server, server.client() as other:
                other.ask("version")
                threads = server.least_threads()
                with server.client() as client:
                    before = delete_the_first(server, client, [small, large])
                    if leaves:
                        client.close()
                        self.check("the end of a session that was told", server.has_threads(threads, PATIENCE))
                    other.ask("watch-del", str(large))
                    name = f"a view behind a deletion that a client was told of that {'left' if leaves else 'stays'}"
                    self.check(name, has_less(server, before), [f"{before} bytes before, {server.memory()} after"])


def delete_the_first(server: Server, client: Client, roots: List[Path]) -> int:
    """Has a client watch roots and delete the first of them. Gives the memory that the server has with all."""
    for root in roots:
        client.ask("watch", str(root))
    before = server.least_memory()
    client.ask("watch-del", str(roots[0]))
    return before


def has_less(server: Server, before: int) -> bool:
    """Whether the server comes to have less memory than before by half of the records of a large root. If its view
    stays, so do all of them."""
    return server.has_memory_below(before - LARGE * RECORD_BYTES // 2)


def memory_with(server: Server, client: Client, root: Path) -> int:
    """The most memory that the server had so far, after a root was watched and deleted."""
    client.ask("watch", str(root))
    client.ask("watch-del", str(root))
    return server.most_memory()
