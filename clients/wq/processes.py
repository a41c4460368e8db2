"""The facts that the system has about the server's process."""

import os
import time
from typing import Dict, List, NamedTuple, Optional, Set, Tuple

from wqclient.unit import UNIT

TICKS = os.sysconf("SC_CLK_TCK")


class Facts(NamedTuple):
    """The facts about a process. Times are in seconds, memory in bytes."""

    process: int
    program: str
    started: float
    memory: int
    processor_seconds: float
    threads: int
    clients: Optional[int]


def facts_of(process: int) -> Optional[Facts]:
    """The facts, if the process is there and belongs to this user."""
    try:
        fields = text_of(process, "stat").rsplit(")", 1)[1].split()
        lines = dict(line.split(":", 1) for line in text_of(process, "status").splitlines() if ":" in line)
        return Facts(
            process=process,
            program=program_of(process),
            started=boot_time() + int(fields[19]) / TICKS,
            memory=int(lines["VmRSS"].split()[0]) * 1024,
            processor_seconds=(int(fields[11]) + int(fields[12])) / TICKS,
            threads=int(lines["Threads"]),
            clients=clients_of(process),
        )
    except (OSError, KeyError, ValueError, IndexError):
        return None


def processor_seconds(process: int) -> float:
    """The seconds of a processor that a process took, with all that it started."""
    taken, children = processes()
    found, wanted = 0.0, [process]
    while wanted:
        each = wanted.pop()
        found += taken.get(each, 0.0)
        wanted += children.get(each, [])
    return found


def children_of(process: int) -> List[int]:
    return processes()[1].get(process, [])


def processes() -> Tuple[Dict[int, float], Dict[int, List[int]]]:
    """The seconds of a processor that each process took, and the children of each."""
    taken: Dict[int, float] = {}
    children: Dict[int, List[int]] = {}
    for each in [int(name) for name in os.listdir("/proc") if name.isdigit()]:
        try:
            fields = text_of(each, "stat").rsplit(")", 1)[1].split()
        except (OSError, IndexError):
            continue
        taken[each] = sum(map(int, fields[11:15])) / TICKS
        children.setdefault(int(fields[1]), []).append(each)
    return taken, children


def state_of(process: int) -> str:
    """The letter of the state of a process, such as S for one that sleeps; nothing if it is not there."""
    return fields_of(process)[0]


def states_of(process: int) -> Set[str]:
    """The letters of all threads of a process: its first one may only wait for the others."""
    try:
        threads = os.listdir(f"/proc/{process}/task")
    except OSError:
        return set()
    return {fields_of(process, f"task/{thread}/stat")[0] for thread in threads}


def own_processor_seconds(process: int) -> float:
    """The processor time that a process took so far; nothing if it is not there."""
    fields = fields_of(process)
    return (int(fields[11]) + int(fields[12])) / TICKS if len(fields) > 12 else 0.0


def fields_of(process: int, name: str = "stat") -> List[str]:
    """The fields of /proc/PID/stat from the state on."""
    try:
        return text_of(process, name).rsplit(")", 1)[1].split()
    except (OSError, IndexError):
        return [""]


def text_of(process: int, name: str) -> str:
    with open(f"/proc/{process}/{name}", encoding="utf-8", errors="replace") as stream:
        return stream.read()


def program_of(process: int) -> str:
    try:
        return os.readlink(f"/proc/{process}/exe")
    except OSError:
        return "?"


def boot_time() -> float:
    with open("/proc/uptime", encoding="ascii") as stream:
        return time.time() - float(stream.read().split()[0])


def clients_of(process: int) -> Optional[int]:
    """How many clients are connected, this one counted: each has a socket of the process, and one more is listened
    on."""
    try:
        return max(0, len(sockets_of(process)) - 1)
    except OSError:
        return None


def is_of_unit(process: int) -> bool:
    """Whether systemd started the process, by the unit that is installed."""
    try:
        return names_unit(text_of(process, "cgroup"))
    except OSError:
        return False


def names_unit(groups: str) -> bool:
    """Whether a line of control groups ends in the unit."""
    return any(line.rsplit("/", 1)[-1] == UNIT for line in groups.splitlines())


def sockets_of(process: int) -> Set[str]:
    """The numbers of the sockets that the process has open, but for its three streams."""
    found = set()
    for name in os.listdir(f"/proc/{process}/fd"):
        try:
            target = os.readlink(f"/proc/{process}/fd/{name}")
        except OSError:
            continue
        if target.startswith("socket:[") and int(name) > 2:
            found.add(target[len("socket:[") : -1])
    return found


def words_of(process: int) -> List[str]:
    """The words of the command line of a process."""
    try:
        return [os.fsdecode(word) for word in open_bytes(f"/proc/{process}/cmdline").split(b"\0")[:-1]]
    except OSError:
        return []


def open_bytes(path: str) -> bytes:
    with open(path, "rb") as stream:
        return stream.read()
