"""The version of Node, if it is installed."""

import shutil
import subprocess

OLDEST = 18


def version() -> int:
    """The version of Node, or 0 without one."""
    if shutil.which("node") is None:
        return 0
    ended = subprocess.run(["node", "-p", "process.versions.node.split('.')[0]"], stdout=subprocess.PIPE)
    return int(ended.stdout) if ended.returncode == 0 else 0
