"""Starts a server: the program that is built, or one that the kit compiles without proof."""

import os
from typing import TYPE_CHECKING, Dict, List, Optional

from wqclient.sockets import is_listened_on
from wqclient.starting import Unstarted, alone, begin, serve_words
from wqclient.unit import listens_soon

from . import unproved
from .compiled import program
from .terminal import say
from .trouble import Trouble

if TYPE_CHECKING:
    from .home import Home


def start(home: "Home", sockname: str, words: Optional[List[str]], tells: bool = True) -> bool:
    """Starts a server at a socket, unless one listens there."""
    try:
        with alone(sockname, lambda: say("waiting for another command that starts the server")):
            if is_listened_on(sockname) or listens_soon(sockname):
                return False
            begin_there(home, sockname, words or serve_words(sockname))
    except Unstarted as reason:
        raise Trouble(*f"the server did not start: {reason}".split("\n")) from None
    if tells:
        say(f"started a server at {sockname}")
    return True


def begin_there(home: "Home", sockname: str, words: List[str]) -> None:
    named = os.environ.get("WQD")
    if named and not home.is_clone:
        begin([os.path.abspath(named), *words], sockname)
        unproved.forget(sockname)
    elif home.is_built():
        begin([home.wqd(), *words], sockname, environment(named))
        unproved.forget(sockname)
    else:
        begin([home.wqd(), *words], sockname, environment(str(program(home.directory, say))))
        unproved.note(sockname)


def environment(named: Optional[str]) -> Dict[str, str]:
    """That of this command. A program that is named has a path that another directory does not change."""
    return {**os.environ, "WQD": os.path.abspath(named)} if named else dict(os.environ)
