"""`wq sockname`: the path of the socket, for clients of their own."""

import argparse

from wqclient.sockets import is_listened_on

from .home import Home
from .server import sockname as socket_path
from .terminal import name_shown, show
from .trouble import FOUND, NOTHING


def sockname(options: argparse.Namespace, home: Home) -> int:
    """Prints the path. The status says whether a server listens there."""
    path = socket_path()
    if options.start:
        home.start(path)
    show([name_shown(path, None)])
    return FOUND if is_listened_on(path) else NOTHING
