"""What a process takes of the machine, and its children."""

import time
from pathlib import Path
from typing import List, NamedTuple

GROWTH = 1.25
LOOKS = 10


class Size(NamedTuple):
    """Kilobytes of memory, threads, and open files."""

    kilobytes: int
    threads: int
    handles: int

    def is_as(self, first: "Size") -> bool:
        is_flat = self.threads == first.threads and self.handles == first.handles
        return is_flat and self.kilobytes <= first.kilobytes * GROWTH


def size_of(process: int) -> Size:
    """What a process takes, with the least of its threads in half a second: a walk has a second one for some
    milliseconds."""
    found = []
    for _ in range(LOOKS):
        lines = Path(f"/proc/{process}/status").read_text().splitlines()
        told = {line.split(":")[0]: line.split()[1] for line in lines if len(line.split()) > 1}
        handles = len(list(Path(f"/proc/{process}/fd").iterdir()))
        found.append(Size(int(told["VmRSS"]), int(told["Threads"]), handles))
        time.sleep(0.5 / LOOKS)
    least = min(size.handles for size in found)
    return found[-1]._replace(threads=min(size.threads for size in found), handles=least)


def zombies_of(process: int) -> List[str]:
    """The children of a process that have ended, and that nobody has waited for."""
    found = []
    for path in Path("/proc").glob("[0-9]*/stat"):
        try:
            state, parent = path.read_text().rsplit(")", 1)[1].split()[:2]
        except OSError:
            continue
        if int(parent) == process and state == "Z":
            found.append(path.parent.name)
    return found
