"""`wq start`, `wq stop` and `wq restart`: the server's process."""

import argparse
from typing import List

from wqclient.sockets import is_listened_on
from wqclient.starting import serve_words
from wqclient.unit import RESTART

from .ending import end
from .home import Home
from .pace import OPTIONS, kept_words
from .processes import is_of_unit, words_of
from .server import reached, sockname
from .silence import LATE
from .terminal import say
from .trouble import FOUND, Trouble


def start(options: argparse.Namespace, home: Home) -> int:
    where = sockname()
    words = given(options)
    if not home.start(where, serve_words(where, words)):
        hint = f"; `wq restart {' '.join(words)}` starts it anew with that" if words else ""
        say(f"a server listens on {where} already{hint}")
    return FOUND


def given(options: argparse.Namespace) -> List[str]:
    """The words of the server that this command was given."""
    values = [(option, getattr(options, option[2:].replace("-", "_"))) for option in OPTIONS]
    return [word for option, value in values if value is not None for word in (option, value)]


def stop(options: argparse.Namespace, home: Home) -> int:
    with reached(home, starts=False) as server:
        end(server)
    return FOUND


def restart(options: argparse.Namespace, home: Home) -> int:
    """Starts a server with the words that the one before it had. What clients had it keep is gone with that."""
    where = sockname()
    words = given(options)
    if is_listened_on(where):
        with reached(home) as server:
            if is_of_unit(server.peer.process):
                raise Trouble(f"systemd started this server, and starts it anew by: {RESTART}")
            words = words or kept_words(words_of(server.peer.process))
            roots = server.ask_within(LATE, "watch-list").get("roots", [])
            end(server)
        if roots:
            say(
                f"{len(roots)} root{'' if len(roots) == 1 else 's'} with triggers and cursors went with it; "
                "commands that need one watch it again",
                "yellow",
            )
    home.start(where, serve_words(where, words))
    return FOUND
