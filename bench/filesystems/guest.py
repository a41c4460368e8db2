"""What a machine does inside: it mounts each file system, prints the rows, and is turned off. The file `words` of a
directory has what was asked for."""

import json
import os
import sys
import tempfile
import time
import traceback
from pathlib import Path
from typing import Callable, Dict

from filesystems.rows import Mounting, made, run, table

PATH = "/usr/sbin:/usr/bin:/sbin:/bin"


def measure(room: Path, mounts: Dict[str, Mounting], prepare: Callable[[], None]) -> None:
    given = json.loads((room / "words").read_text())
    os.environ["WQD"] = given["program"]
    os.environ["PATH"] = PATH
    try:
        prepare()
        print(given["mark"], flush=True)
        table(mounts, given["names"], given["entries"], given["turns"], given["load"])
        print(given["mark"], flush=True)
    except BaseException:
        traceback.print_exc()
    sys.stdout.flush()
    sys.stderr.flush()
    Path("/proc/sysrq-trigger").write_text("o")
    time.sleep(60)


def places() -> None:
    """Mounts what a system has, of which nothing is on the disk."""
    run("mount", "-t", "sysfs", "sys", "/sys")
    run("mount", "-t", "tmpfs", "tmpfs", "/run")
    made(Path("/run"), "rpcbind", "lib", "tmp")
    run("ip", "link", "set", "lo", "up")
    tempfile.tempdir = "/run/tmp"
