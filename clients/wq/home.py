"""Where this command is: a clone of the repository, or beside an installed wqd."""

import os
from typing import List, Optional

from .trouble import Trouble


class Home:
    """The directory of the command. What starts another process is read only then."""

    def __init__(self, directory: str) -> None:
        self.directory = directory
        self.is_clone = os.path.isfile(os.path.join(directory, "crates.txt"))

    def wqd(self) -> str:
        """The command wqd: that of the clone, that beside this one, or that on the PATH."""
        beside = os.path.join(self.directory, "wqd")
        if os.path.isfile(beside):
            return beside
        from shutil import which

        found = which("wqd")
        if found is None:
            raise Trouble("the command wqd is not installed beside wq, and is not on the PATH")
        return found

    def is_built(self) -> bool:
        import subprocess

        return not self.is_clone or subprocess.run([self.wqd(), "--is-built"]).returncode == 0

    def version(self) -> str:
        """The version of the project, as the command wqd says it; nothing if it says none."""
        import subprocess

        try:
            ended = subprocess.run([self.wqd(), "--version"], stdout=subprocess.PIPE, stderr=subprocess.DEVNULL)
        except (OSError, Trouble):
            return ""
        return ended.stdout.decode("utf-8", "replace").strip()

    def start(self, sockname: str, words: Optional[List[str]] = None, tells: bool = True) -> bool:
        """Starts a server at a socket, unless one listens there. Of several commands at once one does, and the others
        wait."""
        from .starting import start

        return start(self, sockname, words, tells)
