"""A server tells its operator of its walks."""

import json
import os
import re
import signal
import time
from pathlib import Path

from case import Beside, Case, Timed
from client import A_HOUR, ENDED, Client, Server, query_of_names
from trees import fill_directory, lock
from waiting import wait_until

NAMES = (b"\xff", b"b\xfe", b"directory/\xfd")
FILES = 60_000
MINUTE = 61.0
TRIES = 20


class Telling(Case):
    def test_what_walks_leave_out(self) -> None:
        """Names that are not UTF-8 and directories that cannot be read are counted in a line, once for each change."""
        root = self.room / "tree"
        for name in ("directory", "locked", "shut/below"):
            (root / name).mkdir(parents=True)
        paths = [os.path.join(os.fsencode(root), name) for name in NAMES]
        for path in paths:
            open(path, "wb").close()
        with Server(self.room, interval=20, is_plain=True) as server, server.client() as client:
            said = f"listening on {server.sockname}\n".encode()
            with lock(root / "locked"), lock(root / "shut"):
                client.ask("watch", str(root))
                said += left_out(root, 3, 2)
                self.check("what a first walk leaves out", server.says(said), [repr(server.errors())])
                os.remove(paths[2])
                said += left_out(root, 2, 2)
                self.check("a name less", server.says(said), [repr(server.errors())])
            said += told_after_both(server, root, said)
            os.remove(paths[0])
            os.remove(paths[1])
            self.check("nothing is left out any more", server.says(left_out(root, 0, 0)), [repr(server.errors())])
            self.same("the end of a server that left out names", server.shut_down(client), 0)
            lines = server.errors().splitlines()
            is_new = all(before != after for before, after in zip(lines, lines[1:]))
            self.check("no line comes twice in a row", is_new, [repr(lines)])
            self.same("the last line", server.errors().endswith(ENDED), True)


class AWalkOfAMinute(Timed, Beside):
    def test_a_walk_of_a_minute(self) -> None:
        """A walk that takes over a minute, since the server is stopped meanwhile, is told with its seconds."""
        root = self.room / "tree"
        fill_directory(root, FILES)
        with Server(self.room, interval=A_HOUR) as server, server.client(root) as client:
            self.check("the server is stopped while it walks", is_stopped_in_a_walk(server, client, root))
            time.sleep(MINUTE)
            server.process.send_signal(signal.SIGCONT)
            self.same("a reply after a minute", client.reply()["files"], [])
            line = re.compile(re.escape(json.dumps(str(root)).encode()) + rb": a walk took 6[0-9] seconds\n")
            self.check("a walk of a minute is told", len(line.findall(server.errors())) == 1, [repr(server.errors())])


def is_stopped_in_a_walk(server: Server, client: Client, root: Path) -> bool:
    """Stops the server while it walks a root for a query, whose reply comes later. If the walk was over before that,
    another one is tried."""
    for _ in range(TRIES):
        # The first round may walk it too.
        wait_until(lambda: not walks(server, root))
        client.send("query", str(root), {**query_of_names(), "expression": ["name", "none"]})
        wait_until(lambda: walks(server, root), 0.5)
        server.process.send_signal(signal.SIGSTOP)
        wait_until(lambda: state_of(server) == "T")
        if walks(server, root):
            return True
        server.process.send_signal(signal.SIGCONT)
        client.reply()
    return False


def state_of(server: Server) -> str:
    return Path(f"/proc/{server.process.pid}/stat").read_text().rsplit(")", 1)[1].split()[0]


def walks(server: Server, root: Path) -> bool:
    """Whether the server has a directory of a root open."""
    for handle in Path(f"/proc/{server.process.pid}/fd").iterdir():
        try:
            if os.readlink(handle) == str(root):
                return True
        except OSError:
            pass  # it was closed meanwhile
    return False


def told_after_both(server: Server, root: Path, said: bytes) -> bytes:
    """The lines when both directories can be read again. A walk may come between the two."""
    server.says(left_out(root, 2, 0))
    return server.errors()[len(said) :]


def left_out(root: Path, names: int, directories: int) -> bytes:
    """The line that tells the operator how much a walk left out."""
    text = json.dumps(str(root))
    return f"{text}: names that are not UTF-8: {names}, directories that cannot be read: {directories}\n".encode()
