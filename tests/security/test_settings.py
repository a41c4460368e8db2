"""A `.watchmanconfig` of a hostile tree: no regular file, endless, or with numbers that no float can hold."""

import os

from bridged import Bridge
from case import Beside
from users import memory_of
from trees import make_files

# In mebibytes: what a bridge may take at most while it reads such a file.
MOST = 200


class Settings(Beside):
    def test_settings_that_stop(self) -> None:
        """A pipe is not waited for, and what has no end is not read. Other clients are served meanwhile."""
        roots = [self.room / name for name in ("pipe", "zero", "holes", "sockets", "directory")]
        for root in roots:
            make_files(root, ["a.c"])
        names = [root / ".watchmanconfig" for root in roots]
        os.mkfifo(str(names[0]))
        names[1].symlink_to("/dev/zero")
        names[2].touch()
        os.truncate(str(names[2]), 1 << 42)
        names[3].symlink_to(self.room / "bridge")
        names[4].mkdir()
        with Bridge(self.room) as bridge, bridge.client() as client, bridge.client() as other:
            for root in roots:
                client.socket.settimeout(5)
                self.same(f"a root with a {root.name}", client.ask("watch", str(root)).get("watch"), str(root))
                self.same("its settings", client.ask("get-config", str(root)).get("config"), {})
                self.same(
                    "another client beside it",
                    len(other.ask("query", str(root), {"fields": ["name"]})["files"]) > 0,
                    True,
                )
            self.same("the memory of the bridge", memory_of(bridge.process.pid) < MOST, True)

    def test_numbers(self) -> None:
        """A number that is too large for a time is no time, and the session goes on."""
        for number, text in enumerate(
            (
                '{"settle":1%s}' % ("0" * 400),
                '{"settle":1e400}',
                '{"settle":999999999999999999}',
                "NaN",
                '{"settle":-5}',
                '{"settle":true}',
                "[" * 100_000,
            )
        ):
            root = self.room / str(number)
            make_files(root, ["a.c"])
            (root / ".watchmanconfig").write_text(text)
        with Bridge(self.room) as bridge, bridge.client() as client:
            for number in range(7):
                path = str(self.room / str(number))
                reply = client.ask("subscribe", path, "s", {"fields": ["name"]})
                self.same(f"a subscription with the settings {number}", reply.get("subscribe"), "s")
                self.same("its first list", client.reply().get("subscription"), "s")
                self.same("the settings told", "error" in client.ask("get-config", path), False)
