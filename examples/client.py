#!/usr/bin/env -S python3 -I
"""Prints the files below a directory, and after each Return that you press those that changed since. With a program
file it prints only those for which the program says yes. The variable WQD_SOCK names the socket of the server; without
it, it is the one at which `wqd serve` and `wq start` listen.

    examples/client.py DIRECTORY [PROGRAM]
"""

import base64
import json
import os
import socket
import struct
import sys
from pathlib import Path
from typing import Dict


class Client:
    """Sends a JSON array on a line, and reads a JSON object on a line."""

    def __init__(self, sockname: str) -> None:
        stream = socket.socket(socket.AF_UNIX)
        stream.connect(sockname)
        _, user, _ = struct.unpack(
            "3i", stream.getsockopt(socket.SOL_SOCKET, socket.SO_PEERCRED, struct.calcsize("3i"))
        )
        if user not in (os.getuid(), 0):
            sys.exit(f"the server at {sockname} is that of user {user}")
        self.lines = stream.makefile("rw", encoding="utf-8")

    def ask(self, *command: object) -> dict:
        self.lines.write(json.dumps(command) + "\n")
        self.lines.flush()
        reply = json.loads(self.lines.readline())
        if "error" in reply:
            sys.exit(reply["error"])
        return reply


def default_sockname() -> str:
    """In the directory of the session, or else in one of the user's own, which nobody else may have made."""
    if os.environ.get("WQD_SOCK"):
        return os.environ["WQD_SOCK"]
    room = os.environ.get("XDG_RUNTIME_DIR", "")
    if not is_own(room, 0o022):
        room = os.path.join(os.environ.get("TMPDIR") or "/tmp", f"wqd-{os.getuid()}")
        if os.path.islink(room) or not is_own(room, 0o077):
            sys.exit(f"{room} is no directory of yours alone; `wq start` makes it, and starts a server")
    return os.path.join(room, "wqd.sock")


def is_own(path: str, others: int) -> bool:
    """Whether it is a directory of this user, in which others have none of these rights."""
    return os.path.isdir(path) and os.stat(path).st_uid == os.getuid() and not os.stat(path).st_mode & others


def main() -> None:
    if len(sys.argv) < 2:
        sys.exit((__doc__ or "").strip())
    try:
        client = Client(default_sockname())
    except OSError as error:
        sys.exit(f"{default_sockname()}: {error.strerror}; `wq start` starts a server")
    root = os.path.realpath(sys.argv[1])
    query: Dict[str, object] = {"fields": ["name", "exists"]}
    if len(sys.argv) > 2:
        text = base64.b64encode(Path(sys.argv[2]).read_bytes()).decode()
        client.ask("program-add", "example", text)
        query["program"] = "example"
    client.ask("watch", root)
    query["since"] = show(client.ask("query", root, query))
    for _ in sys.stdin:
        query["since"] = show(client.ask("query", root, query))


def show(reply: dict) -> str:
    """Prints the files of a reply, deleted ones with a minus, and gives its clock."""
    for file in reply["files"]:
        print(("  " if file["exists"] else "- ") + file["name"], flush=True)
    return reply["clock"]


main()
