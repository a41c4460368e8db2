"""The command that somebody gives to the command `watchman`, by words or on standard input, and what is refused before
anybody is asked."""

import json
import os
import sys
from typing import List, NamedTuple, NoReturn, Optional

from wqclient.names import COMMANDS_OF_A_ROOT

# The first argument of these is a root. The server has no command of the first names.
OF_A_ROOT = (
    "debug-get-subscriptions",
    "debug-recrawl",
    "find",
    "flush-subscriptions",
    "get-config",
    "since",
    "state-enter",
    "state-leave",
    *COMMANDS_OF_A_ROOT,
)


class Given(NamedTuple):
    command: object
    # The version of BSER in which it came; 0 is JSON.
    version: int = 0


def read_command() -> Given:
    """The command on standard input, in JSON or BSER."""
    data = sys.stdin.buffer.read()
    if data[:1] == b"\x00":
        return read_bser(data)
    try:
        command = json.loads(data.decode("utf-8"))
    except (ValueError, RecursionError) as error:
        unread(str(error))
    if not isinstance(command, (list, dict)):
        unread("'[' or '{' expected")
    return Given(command)


def read_bser(data: bytes) -> Given:
    from bridge.encodings import Inbox, Unreadable, find_codec
    from bridge.faults import Ended
    from bridge.held import Held

    inbox = Inbox(find_codec(), Held(len(data)))
    try:
        inbox.add(data)
        message = inbox.take()
    except (Ended, Unreadable) as error:
        unread(str(error))
    if message is None:
        unread("it ends in the middle of a message")
    return Given(message.value, message.encoding.version)


def unread(reason: str) -> NoReturn:
    sys.exit(f"failed to parse command from stdin: {reason}")


def fault_of(command: object) -> Optional[str]:
    """Why Watchman's own command sends a command to nobody; none if it sends it."""
    if not isinstance(command, list) or not command:
        return "invalid command (expected an array with some elements!)"
    if not isinstance(command[0], str):
        return "invalid command: expected element 0 to be the command name"
    if command[0] not in OF_A_ROOT:
        return None
    if len(command) < 2:
        return "wrong number of arguments"
    return None if isinstance(command[1], str) else "second argument must be a string"


def with_absolute_root(command: List[object]) -> List[object]:
    """The command with a root that does not depend on the directory in which the user is, as Watchman's own command
    sends it."""
    if command[0] not in OF_A_ROOT:
        return command
    root = str(command[1])
    if not root or os.path.isabs(root):
        return command
    try:
        return [command[0], os.path.realpath(root), *command[2:]]
    except ValueError:
        return command  # no path: the bridge says so
