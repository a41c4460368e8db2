"""Commands that are called beside another user, and their environment."""

import os
import subprocess
from pathlib import Path
from typing import Dict, List

import built
from client import PATIENCE

PROGRAM = str(built.TOP / "examples" / "large.program")
WQ, WQASM, WATCHMAN = str(built.TOP / "wq"), str(built.TOP / "clients/wqasm"), str(built.TOP / "clients/watchman")
HOOK, EXAMPLE = str(built.TOP / "contrib/git-fsmonitor-hook"), str(built.TOP / "examples/client.py")


def environment_of(room: Path, **changed: str) -> Dict[str, str]:
    found = {
        **os.environ,
        "WQD": str(built.program_path()),
        "HOME": str(room),
        "XDG_STATE_HOME": str(room / "state"),
        "LC_ALL": "C.UTF-8",
        "NO_COLOR": "1",
    }
    for name in ("WQD_SOCK", "WATCHMAN_SOCK", "XDG_RUNTIME_DIR", "TMPDIR"):
        found.pop(name, None)
    return {**found, **changed}


def called(words: List[str], room: Path, **changed: str) -> str:
    """What a call writes on both streams."""
    ended = subprocess.run(
        words,
        cwd=room,
        env=environment_of(room, **changed),
        stdout=subprocess.PIPE,
        stderr=subprocess.STDOUT,
        timeout=PATIENCE,
    )
    return ended.stdout.decode()
