"""Starts a server and a bridge if none runs. Of several that start them at once, one does."""

import os
import shutil
import subprocess
import sys
from typing import Dict

from bridge.sockets import server_behind, server_of
from wqclient.sockets import is_listened_on
from wqclient.starting import Unstarted, alone, begin, serve_words

BRIDGE = os.path.dirname(os.path.realpath(__file__))


class Start:
    """The processes that are started for the socket of a bridge."""

    def __init__(self, sockname: str, home: str) -> None:
        self.sockname = sockname
        self.home = home
        self.server = server_of(sockname)

    def start(self) -> None:
        """A bridge that runs already says which server it asks. That may be one that was started without this
        command."""
        try:
            with alone(self.sockname):
                has_bridge = is_listened_on(self.sockname)
                asked = server_behind(self.sockname) if has_bridge else self.server
                if not is_listened_on(asked):
                    self.start_server(asked)
                if not has_bridge:
                    words = [sys.executable, "-I", "-B", BRIDGE, "--server", self.server, "--sockname", self.sockname]
                    begin(words, self.sockname, self.environment())
        except Unstarted as reason:
            sys.exit(f"watchman: {reason}")

    def start_server(self, asked: str) -> None:
        """Starts a server at the socket that is the command's own. Whoever named another one has to start it."""
        if asked != self.server:
            sys.exit(f"watchman: nobody listens on {asked}, which the bridge at {self.sockname} asks")
        if os.environ.get("WQD_SOCK"):
            sys.exit(f"watchman: nobody listens on {asked}, which the variable WQD_SOCK names")
        values = {"--share": os.environ.get("WQD_SHARE"), "--interval": os.environ.get("WQD_INTERVAL")}
        given = [word for option, value in values.items() if value for word in (option, value)]
        begin([self.program(), *serve_words(self.server, given)], self.server, self.environment())

    def program(self) -> str:
        """The command wqd: that of the repository, which has to be built, or that which is installed beside this
        one."""
        in_repository = os.path.join(os.path.dirname(self.home), "wqd")
        if os.path.basename(self.home) == "clients" and os.path.isfile(in_repository):
            if subprocess.run([in_repository, "--is-built"]).returncode != 0:
                sys.exit(f"watchman: wqd is not built yet; {in_repository} builds it")
            return in_repository
        beside = os.path.join(self.home, "wqd")
        found = beside if os.path.isfile(beside) else shutil.which("wqd")
        if found is None:
            sys.exit("watchman: the command wqd is not installed")
        return found

    def environment(self) -> Dict[str, str]:
        """That of this command, with paths that another directory does not change."""
        changed = {"WATCHMAN_SOCK": self.sockname}
        if os.environ.get("WQD"):
            changed["WQD"] = os.path.abspath(os.environ["WQD"])
        return {**os.environ, **changed}
