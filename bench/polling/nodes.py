"""The package for Node, which has wqd watch for tools that poll by chokidar."""

import shutil
from pathlib import Path

from polling.pollers import HERE, Poller, Watch
from polling.watchdogs import Served
from served import TOP

PACKAGE = TOP / "clients" / "node"
SERVED = "`wqd-chokidar` and its server"
# The interval of chokidar, which says nothing here.
INTERVAL = "100"


def served_chokidar() -> Poller:
    missing = None if shutil.which("node") else "the package nodejs"

    def start(root: Path, room: Path) -> Watch:
        return Served(["node", str(HERE / "chokidar.js"), str(root), INTERVAL, str(PACKAGE)], room)

    return Poller(SERVED, missing, start)
