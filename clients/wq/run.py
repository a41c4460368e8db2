"""`wq run`: a command that runs now and after each change, one run at a time."""

import argparse
import os
import select
import shlex
import signal
import stat
import sys
from typing import List

from .changes import FIELDS
from .commands_run import Command
from .home import Home
from .other_words import WAYS as OTHERS
from .runner import IGNORE, RESTART, SIGNAL, WAIT, WAYS, Manner, Runner
from .terminal import is_terminal, say
from .trouble import WrongWords
from .window import Window

KEYS = "; Enter runs it again, q ends, c clears"


def run(options: argparse.Namespace, home: Home) -> int:
    if not options.command:
        raise WrongWords(f"run takes `--` and a command after it, such as: wq run {without_dashes(options.words)}")
    manner = manner_of(options)
    is_alone = manner.on_busy in (RESTART, SIGNAL)
    command = Command(options.command, options.stdin, options.print0, is_alone, options.shell)
    gap = f"{command.name} runs once for what changed between"
    with Window(home, options, gap, command.takes_names, [*FIELDS, "mtime_ms"]) as window:
        if not options.quiet and (not options.once or options.postpone):
            say(window.words() + (KEYS if is_terminal(sys.stdin) else ""))
        return Runner(window, command, manner, options).loop()


def without_dashes(words: List[str]) -> str:
    """The words as they may have been meant: the command begins at the first one that is a program, and not there."""
    from shutil import which

    place = next((place for place, word in enumerate(words) if not os.path.lexists(word) and which(word)), None)
    example = "'*.c' -- make" if place is None else shlex.join([*words[:place], "--", *words[place:]])
    return f"{example}; names are words of it, and standard input is not read" if is_input_piped() else example


def is_input_piped() -> bool:
    """Whether a pipe has bytes to read, as names for entr."""
    if sys.stdin is None or not stat.S_ISFIFO(os.fstat(sys.stdin.fileno()).st_mode):
        return False
    poll = select.poll()
    poll.register(sys.stdin, select.POLLIN)
    return any(events & select.POLLIN for _, events in poll.poll(0))


def manner_of(options: argparse.Namespace) -> Manner:
    """How a change counts while the command runs."""
    given = options.on_busy or (RESTART if options.restart else WAIT)
    on_busy = OTHERS.get(given, given)
    if on_busy not in WAYS:
        raise WrongWords(f"--on-busy takes {', '.join(WAYS[:-1])} or {WAYS[-1]}, and not {on_busy}")
    if options.restart and on_busy != RESTART:
        raise WrongWords(f"--restart is --on-busy restart, and --on-busy {on_busy} is beside it: take one out")
    if options.no_self and on_busy in (RESTART, SIGNAL):
        raise WrongWords(
            "--no-self leaves out what changes while the command runs, and --on-busy "
            f"{on_busy} goes by that: take one out"
        )
    return Manner(on_busy, signal_of(options.stop_signal), options.no_self or on_busy == IGNORE)


def signal_of(word: str) -> signal.Signals:
    """A signal by its number, or by its name with SIG or without."""
    name = word.upper()
    try:
        if word.isdigit():
            return signal.Signals(int(word))
        return signal.Signals[name if name.startswith("SIG") else f"SIG{name}"]
    except (KeyError, ValueError):
        raise WrongWords(f"--stop-signal takes a signal, such as INT, HUP or 15, and not {word}") from None
