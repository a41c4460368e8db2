"""Keys at a terminal: each is read at once, without Enter, while no command has the terminal."""

import contextlib
import os
import sys
import termios
from typing import Any, List, Optional


class Keys:
    """The terminal of standard input, if it is one and this command is in its foreground."""

    def __init__(self) -> None:
        self.number = sys.stdin.fileno() if sys.stdin is not None and sys.stdin.isatty() else None
        self.before: Optional[List[Any]] = None

    def take(self) -> Optional[int]:
        """The file from which keys come, from now on one by one; nothing if they are not for this command."""
        if self.number is None:
            return None
        with contextlib.suppress(OSError, termios.error):
            if os.tcgetpgrp(self.number) != os.getpgrp():
                return None
            found = termios.tcgetattr(self.number)
            if found[3] & termios.ICANON:
                self.before = found
                mode = [*found[:3], found[3] & ~(termios.ICANON | termios.ECHO), *found[4:]]
                termios.tcsetattr(self.number, termios.TCSADRAIN, mode)
            return self.number
        return None

    def give(self) -> None:
        """The terminal is as it was before."""
        if self.number is None or self.before is None:
            return
        with contextlib.suppress(OSError, termios.error):
            if os.tcgetpgrp(self.number) == os.getpgrp():
                termios.tcsetattr(self.number, termios.TCSADRAIN, self.before)
        self.before = None

    def read(self) -> str:
        """The keys that were pressed. A terminal that went has none any more."""
        assert self.number is not None
        try:
            found = os.read(self.number, 64)
        except OSError:
            found = b""
        if not found:
            self.number = None
        return found.decode("utf-8", "replace")
