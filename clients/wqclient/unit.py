"""The unit of systemd: whether its server is about to listen."""

import os
import time

from .sockets import SOCKET, is_listened_on

UNIT = "wqd.service"
# In seconds: how long its server has until it listens, and how often somebody looks.
PATIENCE, PAUSE = 5.0, 0.05
STARTED = (b"active", b"activating")
RESTART = "systemctl --user restart wqd"


def listens_soon(sockname: str) -> bool:
    """Waits for the server of the unit, if systemd has started that, and says whether it listens."""
    end = time.monotonic() + PATIENCE
    while time.monotonic() < end and is_started(sockname):
        if is_listened_on(sockname):
            return True
        time.sleep(PAUSE)
    return False


def is_started(sockname: str) -> bool:
    """Whether systemd has started the unit of this socket, or is about to. If no manager of the user runs, nobody
    is asked."""
    directory, name = os.path.split(sockname)
    if name != SOCKET or not os.path.exists(os.path.join(directory, "systemd", "private")):
        return False
    # It is read late, since most calls of wq end here.
    import subprocess

    command = ["systemctl", "--user", "is-active", UNIT]
    try:
        ended = subprocess.run(command, stdout=subprocess.PIPE, stderr=subprocess.DEVNULL, timeout=PATIENCE)
    except (OSError, subprocess.TimeoutExpired):
        return False
    return ended.stdout.strip() in STARTED
