"""States that clients assert, and lists that they hold back or drop; lists that are flushed, paused, or wait for an
end."""

import random
import time
from pathlib import Path
from typing import Callable, Dict, List

from bridged import Bridge, VERSION, is_silent, move_in
from case import Timed
from client import Client
from trees import make_files

# So many files come while lists are held back and let go.
DRAWS = 60
NAMES: Dict[str, object] = {"fields": ["name"], "expression": ["type", "f"]}
# How long nothing may change, for a query and for a subscription, in seconds.
PERIOD, SETTLE = 0.3, 0.4
# A machine may be too busy for a change to come in time, but not so often.
TRIES = 20


def subscribed(client: Client, root: Path, name: str, query: Dict[str, object]) -> Dict[str, object]:
    """The first list of a subscription."""
    reply = client.ask("subscribe", str(root), name, {**NAMES, **query})
    if "subscribe" not in reply:
        raise ValueError(f"{query}: {reply}")
    return client.reply()


class States(Timed):
    def test_states(self) -> None:
        """A list that a state holds back comes after it, once, and each subscriber hears of the state."""
        root = self.room / "root"
        make_files(root, ["a"])
        with Bridge(self.room) as bridge, bridge.client() as client, bridge.client() as other:
            client.ask("watch", str(root))
            before = subscribed(other, root, "s", {"defer": ["x"]})
            self.check_entering(root, client, other)
            move_in(self.room / "aside", root, ["b"])
            self.same("a list is held back", is_silent(other), True)
            move_in(self.room / "aside", root, ["c"])
            self.same("and another", is_silent(other), True)
            self.same("state-leave", client.ask("state-leave", str(root), "x").get("state-leave"), "x")
            self.same("the end of the state", other.reply().get("state-leave"), "x")
            found = other.reply()
            self.same(
                "one list comes after it",
                (found["files"], found["since"], found["is_fresh_instance"]),
                (["b", "c"], before["clock"], False),
            )
            move_in(self.room / "aside", root, ["d"])
            later = other.reply()
            self.same("then lists come as before", (later["files"], later["since"]), (["d"], found["clock"]))
            client.ask("state-enter", str(root), "x")
            other.reply()
            client.close()
            found = other.reply()
            self.same(
                "a client that goes leaves its states",
                (found.get("state-leave"), found.get("abandoned"), "clock" in found),
                ("x", True, True),
            )

    def check_entering(self, root: Path, client: Client, other: Client) -> None:
        """A client enters a state. Another one hears of it, and can neither enter nor leave it."""
        reply = client.ask("state-enter", str(root), {"name": "x", "metadata": [1]})
        self.same(
            "state-enter", (reply.get("state-enter"), reply.get("root"), "clock" in reply), ("x", str(root), True)
        )
        self.same(
            "another subscriber is told",
            without_clock(other.reply()),
            {
                "state-enter": "x",
                "metadata": [1],
                "root": str(root),
                "subscription": "s",
                "unilateral": True,
                "version": VERSION,
            },
        )
        self.same("a state twice", client.ask("state-enter", str(root), "x")["error"], "state x is already asserted")
        self.same(
            "a state of another",
            other.ask("state-leave", str(root), "x")["error"],
            "state x was not asserted by this session",
        )

    def test_dropping(self) -> None:
        """Changes under a state that drops them are told to nobody."""
        root = self.room / "root"
        make_files(root, ["a"])
        with Bridge(self.room) as bridge, bridge.client() as client:
            subscribed(client, root, "s", {"drop": ["x"]})
            client.ask("state-enter", str(root), "x")
            client.reply()
            move_in(self.room / "aside", root, ["b"])
            self.same("a list is dropped", is_silent(client), True)
            move_in(self.room / "aside", root, ["c"])
            reply = client.ask("flush-subscriptions", str(root), {"sync_timeout": 1000})
            self.same(
                "and not flushed", reply, {"dropped": ["s"], "no_sync_needed": [], "synced": [], "version": VERSION}
            )
            move_in(self.room / "aside", root, ["d"])
            client.ask("state-leave", str(root), "x")
            self.same("the end of the state", client.reply().get("state-leave"), "x")
            self.same("nothing of it is told", is_silent(client), True)
            move_in(self.room / "aside", root, ["e"])
            self.same("a later change is told", client.reply()["files"], ["e"])

    def test_flushing(self) -> None:
        """Lists come before the reply, those too that a pause holds back."""
        root, elsewhere = self.room / "root", self.room / "elsewhere"
        make_files(root, ["a"])
        make_files(elsewhere, ["a"])
        with Bridge(self.room) as bridge, bridge.client() as client:
            subscribed(client, root, "s", {})
            subscribed(client, root, "t", {})
            subscribed(client, elsewhere, "u", {})
            paused = client.ask("debug-set-subscriptions-paused", {"s": True, "t": True})["paused"]
            self.same("paused", paused, {name: {"old": False, "new": True} for name in "st"})
            move_in(self.room / "aside", root, ["b"])
            self.same("nothing comes meanwhile", is_silent(client), True)
            client.send("flush-subscriptions", str(root), {"sync_timeout": 1000, "subscriptions": ["s"]})
            found = client.reply()
            self.same("a list before the reply", (found.get("subscription"), found.get("files")), ("s", ["b"]))
            self.same(
                "the reply", client.reply(), {"dropped": [], "no_sync_needed": [], "synced": ["s"], "version": VERSION}
            )
            reply = client.ask("flush-subscriptions", str(root), {"sync_timeout": 1000, "subscriptions": ["s", "u"]})
            self.same(
                "a subscription to another root",
                reply["error"],
                f"subscription 'u' is on root '{elsewhere}' different from command root '{root}'",
            )
            self.same(
                "nothing is left",
                client.ask("flush-subscriptions", str(root), {"sync_timeout": 0, "subscriptions": ["s"]}),
                {"dropped": [], "no_sync_needed": ["s"], "synced": [], "version": VERSION},
            )
            client.ask("debug-set-subscriptions-paused", {"s": False, "t": False})
            self.same("a pause ends", (client.reply()["files"]), ["b"])
            self.same(
                "the subscribers",
                [each["info"] for each in client.ask("debug-get-subscriptions", str(root))["subscribers"]],
                ["s", "t"],
            )

    def test_source_control(self) -> None:
        """No list comes while source control holds its lock, unless the subscription does not wait for it. Of two
        subscriptions the one that began first is told first. So if the list of the second is there, that of the first
        was held back."""
        root = self.room / "root"
        make_files(root, ["a", ".git/HEAD"])
        with Bridge(self.room) as bridge, bridge.client() as client:
            query: Dict[str, object] = {"expression": ["suffix", "c"], "fields": ["name"]}
            client.ask("subscribe", str(root), "waits", query)
            client.ask("subscribe", str(root), "goes on", dict(query, defer_vcs=False))
            (root / ".git" / "index.lock").touch()
            for name in ("b.c", "c.c"):
                move_in(self.room / "aside", root, [name])
                found = client.reply()
                self.same(f"one that goes on gets {name}", (found["subscription"], found["files"]), ("goes on", [name]))
            (root / ".git" / "index.lock").unlink()
            found = client.reply()
            self.same(
                "one that waits gets one list", (found["subscription"], found["files"]), ("waits", ["b.c", "c.c"])
            )

    def test_each_change_once(self) -> None:
        """Whatever holds lists back and lets them go, each of the files that came is in one list, and in no other."""
        root, draw = self.room / "root", random.Random(9)
        make_files(root, ["first.c", ".git/HEAD"])
        lock = root / ".git" / "index.lock"
        with Bridge(self.room, 20) as bridge, bridge.client() as client, bridge.client() as other:
            subscribed(client, root, "s", {"defer": ["x"], "expression": ["suffix", "c"]})
            told: List[str] = []

            def ask(*command: object) -> None:
                client.send(*command)
                reply = client.reply()
                while "unilateral" in reply:
                    told.extend(reply.get("files", []))
                    reply = client.reply()

            steps: List[Callable[[], object]] = [
                lambda: other.ask("state-enter", str(root), "x"),
                lambda: other.ask("state-leave", str(root), "x"),
                lambda: ask("debug-set-subscriptions-paused", {"s": True}),
                lambda: ask("debug-set-subscriptions-paused", {"s": False}),
                lambda: ask("flush-subscriptions", str(root), {"sync_timeout": 1000}),
                lock.touch,
                lambda: lock.unlink() if lock.exists() else None,
                lambda: time.sleep(0.03),
                lambda: time.sleep(0.03),
            ]
            names = [f"{number}.c" for number in range(DRAWS)]
            for name in names:
                move_in(self.room / "aside", root, [name])
                draw.choice(steps)()
            lock.touch()
            lock.unlink()
            other.ask("state-leave", str(root), "x")
            ask("debug-set-subscriptions-paused", {"s": False})
            ask("flush-subscriptions", str(root), {"sync_timeout": 1000})
            is_silent(client)
            ask("version")
            self.same(f"{DRAWS} files, each told once", sorted(told), sorted(names))

    def test_settling(self) -> None:
        """A query with `settle_period` waits until nothing changes, and so does a subscription of a root with
        `settle`."""
        root = self.room / "root"
        make_files(root, ["a"])
        (root / ".watchmanconfig").write_text('{"settle": %d}' % round(SETTLE * 1000))
        with Bridge(self.room) as bridge, bridge.client() as client, bridge.client() as other:
            client.ask("watch", str(root))
            self.check_a_query_that_waits(self.room, root, client)
            reply = client.ask("query", str(root), dict(NAMES, settle_period=300, settle_timeout=100))
            self.same(
                "a query that waits too long",
                reply.get("error"),
                "query failed: the root did not settle for 300 ms within 100 ms",
            )
            subscribed(other, root, "s", {})
            self.check_lists_that_wait(self.room, root, other)

    def check_a_query_that_waits(self, room: Path, root: Path, client: Client) -> None:
        """The reply comes a period after the last change that it has. If a change came too late for the query, another
        is tried."""
        expected = [".watchmanconfig", "a"]
        for turn in range(TRIES):
            client.send("query", str(root), dict(NAMES, settle_period=round(PERIOD * 1000)))
            time.sleep(PERIOD / 3)
            expected.append(f"b{turn}")
            changed = time.monotonic()
            move_in(room / "aside", root, expected[-1:])
            files = client.reply()["files"]
            waited = time.monotonic() - changed
            if expected[-1] in files:
                break
        self.same("a query that waits", files, expected)
        self.check("it waits for a period after a change", waited >= PERIOD, [f"{waited:.3f} seconds"])

    def check_lists_that_wait(self, room: Path, root: Path, client: Client) -> None:
        """No change is told before the root has settled. Two changes are in one list, if the second did not come too
        late for it; then two others are tried."""
        found: List[str] = []
        for turn in range(TRIES):
            names, moments = [f"c{turn}", f"d{turn}"], []
            for name in names:
                moments.append(time.monotonic())
                move_in(room / "aside", root, [name])
                time.sleep(SETTLE / 3)
            found = client.reply()["files"]
            first, last = (time.monotonic() - moment for moment in moments)
            self.check(f"no list comes at once, {turn}", first >= SETTLE, [f"{found} after {first:.3f} seconds"])
            if found == names and last >= SETTLE:
                break
            while found != names:
                found += client.reply()["files"]
        is_one = found == names and last >= SETTLE
        self.check("one list comes when nothing changes", is_one, [f"{found} after {last:.3f} seconds"])

    def test_many_subscriptions(self) -> None:
        """A client has more subscriptions than the server takes from one, until the server has no place for another
        client."""
        root = self.room / "root"
        make_files(root, ["a"])
        with Bridge(self.room) as bridge, bridge.client() as client, bridge.server.client() as direct:
            client.ask("watch", str(root))
            names = [f"s{number}" for number in range(130)]
            for name in names:
                subscribed(client, root, name, {})
            move_in(self.room / "aside", root, ["b"])
            found: List[str] = []
            while len(found) < len(names):
                reply = client.reply()
                found += [str(reply["subscription"])] * (reply["files"] == ["b"])
            self.same("each of 130 subscriptions is told", sorted(found), sorted(names))
            for name in names[1:]:
                client.ask("unsubscribe", str(root), name)
            self.same("one is left", len(client.ask("debug-get-subscriptions", str(root))["subscribers"]), 1)
            others = [bridge.server.client_when_free() for _ in range(30)]
            self.same("the places of the others are free again", direct.ask("version"), {"version": "wq-1"})
            query = dict(NAMES, empty_on_fresh_instance=True)
            refused = [client.ask("subscribe", str(root), f"t{number}", query) for number in range(64)]
            self.same(
                "without a place it is said",
                refused[-1].get("error"),
                "the 32 places of the server are taken: each client has one, and one more for each 64 "
                "subscriptions (E17)",
            )
            self.same("the client goes on", client.ask("watch-list")["roots"], [str(root)])
            for other in others:
                other.close()


def without_clock(value: Dict[str, object]) -> Dict[str, object]:
    return {key: each for key, each in value.items() if key != "clock"}
