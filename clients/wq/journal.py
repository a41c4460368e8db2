"""The journal of systemd, which has what the server of the unit wrote."""

import json
from typing import Iterator, Tuple

# So many lines are read of a long journal, the last ones; and so many seconds one waits for them.
MOST_LINES, PATIENCE = 10_000, 5.0
SHOW = "journalctl --user -u wqd"


def lines_of(process: int) -> Iterator[Tuple[int, str]]:
    """The lines that a process wrote itself, each with its time in microseconds. Nothing if this user may read no
    journal."""
    import subprocess

    command = [
        "journalctl",
        "--user",
        "--boot",
        "--quiet",
        "--no-pager",
        "--all",
        f"--lines={MOST_LINES}",
        "--output=json",
        "--output-fields=MESSAGE",
        f"_PID={process}",
    ]
    try:
        ended = subprocess.run(command, stdout=subprocess.PIPE, stderr=subprocess.DEVNULL, timeout=PATIENCE)
    except (OSError, subprocess.TimeoutExpired):
        return
    for line in ended.stdout.splitlines():
        entry = json.loads(line)
        yield int(entry["__REALTIME_TIMESTAMP"]), text_of(entry.get("MESSAGE"))


def text_of(message: object) -> str:
    """The text of a message, which the journal gives as a list of bytes if a letter of it cannot be printed."""
    if isinstance(message, list) and all(isinstance(byte, int) for byte in message):
        return bytes(message).decode("utf-8", "replace")
    return message if isinstance(message, str) else ""
