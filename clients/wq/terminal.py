"""Writes names, colours at a terminal, and the time that a first crawl takes."""

import array
import fcntl
import os
import select
import stat
import sys
import termios
import time
from typing import IO, Iterable, Optional

from wqclient.harmless import harmless

from .trouble import WrongWords

COLOURS = {"red": "31", "green": "32", "yellow": "33", "blue": "34", "cyan": "36", "grey": "90"}
OF_KINDS = {"d": "blue", "l": "cyan"}
OF_MARKS = {"+": "green", "-": "red", "~": "yellow"}
# So long, in seconds, a reader has to read what was written to a pipe.
MOST_TO_READ = 1.0
AUTO, ALWAYS, NEVER = WHENS = ("auto", "always", "never")
# Stands for what is cut.
CUT = "..."
# When there are colours, as the user said it for this call.
_when = AUTO


def say(text: str, colour: Optional[str] = None) -> None:
    """A line on standard error."""
    if sys.stderr is None:
        return
    line = f"wq: {harmless(text)}"
    try:
        sys.stderr.buffer.write(painted(line, colour, sys.stderr).encode("utf-8", "backslashreplace") + b"\n")
        sys.stderr.buffer.flush()
    except BrokenPipeError:
        raise
    except OSError:
        pass  # such as a log on a full file system, which is no reason to end


def is_terminal(stream: Optional[IO[str]]) -> bool:
    return stream is not None and stream.isatty()


def set_colours(when: Optional[str]) -> None:
    """Sets when there are colours, by the value of an option."""
    global _when
    if when is not None and when not in WHENS:
        raise WrongWords(f"--color takes auto, always or never, and not {when}")
    _when = when or AUTO


def is_standard_terminal() -> bool:
    return is_terminal(sys.stdout)


def has_colours(stream: Optional[IO[str]]) -> bool:
    if _when != AUTO:
        return _when == ALWAYS
    if os.environ.get("NO_COLOR"):
        return False
    if os.environ.get("CLICOLOR_FORCE", "0") != "0":
        return True
    return is_terminal(stream) and os.environ.get("TERM") != "dumb"


def painted(text: str, colour: Optional[str], stream: Optional[IO[str]]) -> str:
    return f"\x1b[{COLOURS[colour]}m{text}\x1b[0m" if colour and has_colours(stream) else text


def write(data: bytes) -> None:
    sys.stdout.buffer.write(data)
    sys.stdout.buffer.flush()


def require_read() -> None:
    """Waits a moment until what was written to a pipe was read. A reader that went before that raises an error; one
    that is in no hurry counts as one that reads."""
    if not stat.S_ISFIFO(os.fstat(sys.stdout.fileno()).st_mode):
        return
    left, poll = array.array("i", [0]), select.poll()
    poll.register(sys.stdout.fileno(), 0)
    end = time.monotonic() + MOST_TO_READ
    while time.monotonic() < end:
        if poll.poll(0):
            raise BrokenPipeError
        fcntl.ioctl(sys.stdout.fileno(), termios.FIONREAD, left)
        if not left[0]:
            return
        time.sleep(0.005)


def show(lines: Iterable[str], ending: str = "\n") -> None:
    """Writes lines to standard output, in UTF-8 whatever the locale is."""
    write("".join(line + ending for line in lines).encode("utf-8", "surrogateescape"))


def name_shown(name: str, colour: Optional[str], ending: str = "\n") -> str:
    """A name as it is in the tree, perhaps in its colour. At a terminal it has escapes for what could do harm."""
    text = harmless(name) if is_terminal(sys.stdout) else name
    return painted(text, colour if ending == "\n" else None, sys.stdout)


def columns_of(stream: IO[str]) -> int:
    """How wide a terminal is; 0 if it does not say so."""
    try:
        return os.get_terminal_size(stream.fileno()).columns
    except OSError:
        return 0


def fitted(text: str, end: str, columns: int) -> str:
    """A line that ends so, and is cut before that to fit: a terminal takes back one row alone."""
    room = columns - len(end) - 1
    return text + end if not columns or width_of(text) <= room else cut(text, max(0, room - len(CUT))) + CUT + end


def cut(text: str, columns: int) -> str:
    while width_of(text) > columns:
        text = text[:-1]
    return text


def width_of(text: str) -> int:
    """How many columns a text takes: two for each wide letter."""
    if text.isascii():
        return len(text)
    from unicodedata import east_asian_width  # few names need it

    return sum(2 if east_asian_width(letter) in "WF" else 1 for letter in text)


class Progress:
    """Tells on standard error how long a first crawl goes on, once it takes over a second."""

    def __init__(self, subject: str) -> None:
        self.subject = subject
        self.began = time.monotonic()
        self.has_told = False

    def tell(self) -> None:
        seconds = time.monotonic() - self.began
        if is_terminal(sys.stderr):
            text = fitted(f"wq: {harmless(self.subject)}", f", {seconds:.0f} s so far ", columns_of(sys.stderr))
            print(f"\r{text}", end="", file=sys.stderr, flush=True)
        elif not self.has_told:
            say(self.subject)
        self.has_told = True

    def clear(self) -> None:
        """Takes the line away that a terminal shows."""
        if self.has_told and is_terminal(sys.stderr):
            print("\r\x1b[K", end="", file=sys.stderr, flush=True)

    def end(self) -> Optional[float]:
        """Says how long it took, in seconds, which are given too if that is long."""
        if not self.has_told:
            return None
        self.clear()
        self.has_told = False
        seconds = time.monotonic() - self.began
        # At a terminal the line that said what takes so long has gone.
        say(f"{self.subject}: that took {seconds:.1f} s" if is_terminal(sys.stderr) else f"that took {seconds:.1f} s")
        return seconds
