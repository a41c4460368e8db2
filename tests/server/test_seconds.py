"""What changed since a second, by the clock of the machine."""


from case import Case
from client import A_HOUR, Server
from shared import second, until_second


class Seconds(Case):
    def test_seconds(self) -> None:
        """Two passes in different seconds: a file that stays, one that changes, one that comes and one that goes."""
        root = self.directory("tree")
        for name in ("stays", "changes", "goes"):
            (root / name).touch()
        with Server(self.room, interval=A_HOUR) as server, server.client() as client:
            before = second()
            client.ask("watch", str(root))
            after = second()
            until_second(after + 1)
            (root / "changes").write_text("longer")
            (root / "comes").touch()
            (root / "goes").unlink()
            client.ask("query", str(root), {})
            last = second()

            def files(**query: object) -> list:
                whole = {"fields": ["name", "new"], "sync_timeout": 0, **query}
                reply = client.ask("query", str(root), whole)
                return [(file["name"], file["new"]) for file in reply["files"]]

            def names(**query: object) -> list:
                return [name for name, _ in files(**query)]

            moved = ["changes", "comes", "goes"]
            all_new = [(name, True) for name in [*moved, "stays"]]
            self.same("since second 0", files(since=0), all_new)
            self.same("since a second before the first pass", files(since=before - 1), all_new)
            self.same("since a second between the passes", names(since=after + 1), moved)
            seen = dict(files(since=after, expression=["name", moved]))
            self.same("what is new since the first pass", seen, {"changes": False, "comes": True, "goes": False})
            self.same("since a second to come", files(since=last + 1), [])
            self.same("after the first pass", names(since=0, expression=["since", after]), moved)
            self.same("come after the first pass", names(since=0, expression=["since", after, "cclock"]), ["comes"])
            self.same("after the last pass", names(since=0, expression=["since", last]), [])
