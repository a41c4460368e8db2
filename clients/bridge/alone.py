"""The commands that depend on no server and no root: Watchman's own command answers them by itself, if no server may be
started."""

from typing import Dict, List, Optional

from bridge.abilities import abilities_of, checked
from bridge.commands import COMMANDS
from bridge.encodings import find_codec


def answer_alone(command: List[object], sockname: str) -> Optional[Dict[str, object]]:
    """The reply to a command, if it has one without a server."""
    name = command[0]
    if name == "get-sockname":
        return {"sockname": sockname}
    if name == "list-capabilities":
        return {"capabilities": abilities()}
    if name == "version":
        return checked(command[1], abilities()) if len(command) == 2 else {}
    return None


def refusal_of(command: List[object]) -> str:
    name = command[0]
    return f"command {name} not available in this mode" if name in COMMANDS else f"unknown command {name}"


def abilities() -> List[str]:
    return abilities_of(COMMANDS, find_codec() is not None)
