"""A run may leave processes behind in its process group, which go on when its shell has ended, and perhaps hear no
signal."""

import contextlib
import os
import signal
import time
from typing import List

from .processes import fields_of
from .silence import ENDED

# So often it is looked whether a group has ended, in seconds.
PAUSE = 0.05
# The number of the process group, in the fields of /proc/PID/stat from the state on.
GROUP = 2


def of_group(group: int) -> List[int]:
    """The processes of a group that have not ended. One that has ended, and that nobody waited for, is in it still."""
    try:
        os.killpg(group, 0)
    except (ProcessLookupError, PermissionError):
        return []
    processes = [int(name) for name in os.listdir("/proc") if name.isdigit()]
    found = [(process, fields_of(process)) for process in processes]
    return [process for process, fields in found if fields[GROUP : GROUP + 1] == [str(group)] and fields[0] != ENDED]


def end_all(group: int, grace: float) -> None:
    """Waits for a group that was sent a signal, and kills what does not end in time. A person who stops this does not
    wait for it."""
    end = time.monotonic() + grace
    with contextlib.suppress(KeyboardInterrupt):
        while of_group(group) and time.monotonic() < end:
            time.sleep(PAUSE)
    if of_group(group):
        with contextlib.suppress(ProcessLookupError):
            os.killpg(group, signal.SIGKILL)
