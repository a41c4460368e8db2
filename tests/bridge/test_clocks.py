"""Clock specs through the bridge: seconds, whose boundaries are those of Watchman, objects, and a cursor without a
name."""

import json
import os
import signal
from pathlib import Path
from typing import Dict, List, Tuple

from bridged import Bridge, names_of, run
from case import Case
from client import Client
from trees import make_files
from waiting import wait_until

SECOND = 1_700_000_000
FILES = {"before": SECOND - 1, "at": SECOND, "after": SECOND + 1}


# Watchman's words for a scan that takes longer than a `sync_timeout`.
LATE = ["query failed: synchronization failed: Connection timed out", "sync_timeout expired"]


def stop(process: int) -> None:
    """Stops a process, and waits until each of its threads stands still."""
    os.kill(process, signal.SIGSTOP)
    threads = Path(f"/proc/{process}/task")
    wait_until(lambda: all(") T " in (thread / "stat").read_text() for thread in threads.iterdir()))


class Clocks(Case):
    def test_scans_that_take_long(self) -> None:
        """After its `sync_timeout` a client is told so. The reply that comes later is nobody's, and lists go on."""
        root = self.room / "root"
        make_files(root, ["a"])
        with Bridge(self.room, 3_600_000) as bridge, bridge.client(root) as client:
            for has_subscription in (False, True):
                if has_subscription:
                    client.ask("subscribe", str(root), "s", {"fields": ["name"]})
                    client.reply()
                stop(bridge.server.process.pid)
                late = [
                    client.ask("query", str(root), {"fields": ["name"], "sync_timeout": 200}).get("error"),
                    client.ask("clock", str(root), {"sync_timeout": 200}).get("error"),
                ]
                self.same(f"while the server stands still, {has_subscription}", late, LATE)
                os.kill(bridge.server.process.pid, signal.SIGCONT)
                self.same("later", names_of(client, root, {"sync_timeout": 60_000}), ["a"])
                self.same("the version", client.ask("version")["wqd"], "wq-1")
            make_files(root, ["b"])
            reply = client.ask("flush-subscriptions", str(root), {"sync_timeout": 60_000})
            if "unilateral" in reply:
                reply = client.reply()
            self.same("the subscription goes on", reply.get("synced", reply), ["s"])

    def test_clocks(self) -> None:
        root = self.room / "root"
        make_files(root, list(FILES))
        for name, second in FILES.items():
            os.utime(root / name, (second, second))
        with Bridge(self.room, 3_600_000) as bridge, bridge.client(root) as client:
            for term, expected in (
                (["since", SECOND, "mtime"], ["after", "at"]),
                (["since", SECOND + 1, "mtime"], ["after"]),
                (["since", SECOND + 2, "mtime"], []),
                (["not", ["since", SECOND, "mtime"]], ["before"]),
                (["since", 0, "mtime"], sorted(FILES)),
                (["since", -5], sorted(FILES)),
                (["since", {}], sorted(FILES)),
            ):
                self.same(f"{term}", names_of(client, root, {"expression": term}), expected)
            clock = client.ask("clock", str(root))["clock"]
            make_files(root, ["new"])
            changed = ["allof", ["type", "f"], ["since", {"clock": clock}]]
            queries: List[Tuple[Dict[str, object], List[str]]] = [
                ({"since": {"clock": clock}}, ["new"]),
                ({"since": {}}, sorted([*FILES, "new"])),
                ({"since": -5}, sorted([*FILES, "new"])),
                ({"since": "n:"}, sorted([*FILES, "new"])),
                ({"since": "n:"}, []),
                ({"expression": changed}, ["new"]),
            ]
            for query, expected in queries:
                given = {"expression": ["type", "f"], "sync_timeout": 1000, **query}
                self.same(f"{query}".replace(clock, "CLOCK"), names_of(client, root, given), expected)
            self.check_the_second_of_a_change(root, client)

    def test_clocks_of_the_run_before(self) -> None:
        """After a restart of server and bridge, what is asked since an old clock is fresh: it lists every file."""
        root = self.room / "root"
        make_files(root, ["a", "gone"])
        try:
            run(self.room, "watch", str(root))
            clock = json.loads(run(self.room, "clock", str(root)).stdout)["clock"]
            run(self.room, "--no-spawn", "shutdown-server")
            (root / "gone").unlink()
            make_files(root, ["new"])
            run(self.room, "watch", str(root))
            with Client(str(self.room / "sock")) as client:
                query = {"since": clock, "fields": ["name"]}
                found = client.ask("query", str(root), query)
                self.same("a query", (found["is_fresh_instance"], found["files"]), (True, ["a", "new"]))
                client.ask("subscribe", str(root), "s", query)
                found = client.reply()
                self.same("a subscription", (found["is_fresh_instance"], found["files"]), (True, ["a", "new"]))
        finally:
            run(self.room, "--no-spawn", "shutdown-server")

    def check_the_second_of_a_change(self, root: Path, client) -> None:
        """A file that came in a second is told by the term of that second, and not by that of the next one."""
        rows = client.ask("since", str(root), "c:0:0", "new")["files"]
        began = rows[0]["mtime"]
        for field in ("oclock", "cclock"):
            fits = [
                names_of(client, root, {"expression": ["allof", ["name", "new"], ["since", second, field]]})
                for second in (began, began + 3600)
            ]
            self.same(f"the second of {field}", fits, [["new"], []])
