"""Watchman itself and wqd with its bridge on one tree, asked by pywatchman in the same words. /usr/bin/python3 runs
it."""

import os
import subprocess
import sys
import time
from pathlib import Path
from typing import Dict, List, Optional, Tuple

sys.path.append("/usr/lib/python3/dist-packages")

import pywatchman

PATIENCE = 120
WATCHMAN = "/usr/bin/watchman"


class Peer:
    """A client of one of the two."""

    def __init__(self, sockname: str) -> None:
        end = time.monotonic() + PATIENCE
        while True:
            self.client = pywatchman.client(sockpath=sockname, timeout=PATIENCE)
            try:
                self.client.query("version")
                return
            except pywatchman.WatchmanError:
                if time.monotonic() > end:
                    raise
                time.sleep(0.05)

    def ask(self, *command: object) -> Dict[str, object]:
        try:
            reply: Dict[str, object] = self.client.query(*command)
            return reply
        except pywatchman.CommandError as error:
            return {"error": error.msg}

    def files(self, root: str, query: Dict[str, object]) -> Tuple[Optional[List[str]], object]:
        """The listed files, whose order says nothing, and the clock; the error, if there is one."""
        reply = self.ask("query", root, query)
        if "error" in reply:
            return None, reply["error"]
        return sorted(map(in_order, reply["files"])), reply["clock"]


def in_order(file: object) -> str:
    return repr(sorted(file.items())) if isinstance(file, dict) else repr(file)


def start_watchman(room: Path) -> subprocess.Popen:
    """Watchman in the foreground, with all its files in a directory."""
    words = [
        "--foreground",
        f"--sockname={room}/own",
        f"--logfile={room}/own.log",
        f"--statefile={room}/own.state",
        f"--pidfile={room}/own.pid",
        "--no-save-state",
    ]
    return subprocess.Popen(
        [WATCHMAN, *words],
        stdin=subprocess.DEVNULL,
        stdout=subprocess.DEVNULL,
        stderr=subprocess.DEVNULL,
        env={**os.environ, "HOME": str(room)},
    )
