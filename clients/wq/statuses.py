"""How each command ends, and the variables that it hands over: for pages of help and of man."""

from typing import Dict, List

OF_ALL = {"2": "an option or another word is wrong", "3": "an error", "130": "you stopped it"}
NO_SERVER = "no server listens"
FAILED_START = {"126": "the command cannot be started", "127": "there is no such command"}
# What a status of a command says. Those of all commands come between.
STATUSES: Dict[str, Dict[str, str]] = {
    "find": {"0": "a file was found", "1": "none was", "123": "a command of -x or -X failed", **FAILED_START},
    "since": {"0": "something changed", "1": "nothing did", "123": "the command of -x failed", **FAILED_START},
    "follow": {},
    "wait": {"0": "something changed", "1": "nothing did within the time of --timeout"},
    "run": {
        "N": "with --once: that of the command, 128 and more for a signal",
        "0": "q ended it",
        "1": "with --once: no file matches, and the command takes names",
        **FAILED_START,
    },
    "trigger": {"0": "it is registered"},
    "triggers": {"0": "there are some", "1": f"there are none, or {NO_SERVER}"},
    "untrigger": {"0": "it is removed", "1": f"there was none of that name, or {NO_SERVER}"},
    "watch": {"0": "they are watched"},
    "unwatch": {"0": "they are watched no longer", "1": f"one was not watched, or {NO_SERVER}"},
    "roots": {"0": "there are some", "1": f"there are none, or {NO_SERVER}"},
    "status": {"0": "a server listens", "1": NO_SERVER},
    "log": {"0": "it was printed"},
    "sockname": {"0": "a server listens there", "1": NO_SERVER},
    "doctor": {"0": "it was printed"},
    "ask": {"0": "no reply was an error"},
    "start": {"0": "a server listens"},
    "stop": {"0": "it has ended", "1": NO_SERVER},
    "restart": {"0": "a server listens"},
    "explain": {"0": "it was printed"},
}
# The variables of a command that is run for changes.
HANDED = {
    "WQ_CHANGED": "what changed, one name on each line",
    "WQ_CHANGED_COUNT": "how many names these are",
    "WQ_ROOT": "the root",
    "WQ_CLOCK": "its clock",
}
HANDING = ("run", "since")
READ = "`wq --help` has the variables that wq reads; `wq sockname` prints the socket."


def statuses_of(command: str) -> Dict[str, str]:
    """What each status of a command says, from the least one on."""
    found = {**OF_ALL, **STATUSES[command]}
    return {status: found[status] for status in sorted(found, key=number_of)}


def number_of(status: str) -> int:
    """A status that is that of another command comes first."""
    return int(status) if status.isdigit() else -1


def lines_of(command: str) -> str:
    """The statuses and variables of a command, for its page of help."""
    handed = ["environment of the command:", *columns(HANDED), ""] if command in HANDING else []
    return "\n".join(["exit status:", *columns(statuses_of(command)), "", *handed, READ, ""])


def columns(rows: Dict[str, str]) -> List[str]:
    width = max(map(len, rows)) + 2
    return [f"  {head:<{width}}{text}" for head, text in rows.items()]
