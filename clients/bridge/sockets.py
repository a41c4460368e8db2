"""The sockets of a bridge, and of the server that it asks."""

import os
import sys

from bridge.running import asked_server
from wqclient.sockets import is_own_directory, own_room

ROOM = "wqd-watchman-{}"


def sockname_by_default() -> str:
    """The socket of the bridge, if no option names one. It is in a directory that nobody else can enter."""
    named = os.environ.get("WATCHMAN_SOCK")
    if named:
        return os.path.abspath(named)
    above = os.environ.get("XDG_RUNTIME_DIR", "")
    try:
        room = own_room(ROOM.format(os.getuid()), above if is_own_directory(above) else None)
    except OSError as error:
        sys.exit(f"watchman: {error.filename}: {error.strerror}")
    return os.path.join(room, "sock")


def server_of(sockname: str) -> str:
    """The socket of the server for a bridge: beside it, unless the variable WQD_SOCK names a server that runs."""
    given = os.environ.get("WQD_SOCK")
    return os.path.abspath(given) if given else f"{sockname}.wqd"


def server_behind(sockname: str) -> str:
    """The socket of the server that a bridge asks, which listens at this socket."""
    return asked_server(sockname) or server_of(sockname)
