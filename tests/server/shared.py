"""What several tests of the server wait for, and ask."""

import json
import time
from pathlib import Path

from client import VERSION, Client, query_of_names

UNREADABLE = {"error": "E11: root cannot be read", **VERSION}
# `-D`: the process that is started is the server, and not `strace`.
STRACE = ["strace", "-f", "-D", "-qq"]
# With this share the large root rests for many rounds after each walk.
FEW = 1


def told_of(root: Path) -> bytes:
    """The line by which the operator is told of a root that cannot be read."""
    return told(root, "the root cannot be read")


def told(root: Path, fault: str) -> bytes:
    """The operator's line about a root with this fault."""
    return f"{json.dumps(str(root), ensure_ascii=False)}: {fault}\n".encode()


def make_recent(client: Client, directory: Path, root: Path) -> None:
    """Something changes in a directory, and a walk sees it."""
    (directory / "first").touch()
    found = client.ask("query", str(root), {**query_of_names(), "expression": ["name", "first"]})
    assert found["files"] == [f"{directory.name}/first"], found


def listed(client: Client, root: Path, name: str, count: int, below: str = "") -> list:
    """The files of a name that a query finds without a crawl, as soon as there are so many or the patience ends."""
    query = {**query_of_names(), "expression": ["allof", ["name", name], ["dirname", below]], "sync_timeout": 0}
    return client.ask_until("query", str(root), query, lambda reply: len(reply["files"]) == count)["files"]


def second() -> int:
    return int(time.time())


def until_second(moment: int) -> None:
    while second() < moment:
        time.sleep(0.01)


def ask_much(client: Client, root: Path, times: int) -> None:
    """Asks for replies each of which is more than a socket holds."""
    client.send_bytes(b'["query",%s,{"fields":["name","size"]}]\n' % client.text(str(root)) * times)
