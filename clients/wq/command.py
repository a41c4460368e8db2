"""The command wq: which of its commands is meant, and how it ends."""

import os
import signal
import sys
from importlib import import_module
from typing import TYPE_CHECKING, Callable, Dict, List

from .home import Home
from .terminal import say, set_colours
from .trouble import BROKEN_PIPE, FAILED, FOUND, INTERRUPTED, Trouble, WrongWords

if TYPE_CHECKING:
    import argparse

# The module of each command that is not named after it.
MODULES: Dict[str, str] = {
    "watch": "watches",
    "unwatch": "watches",
    "roots": "watches",
    "trigger": "triggers",
    "untrigger": "triggers",
    "start": "serving",
    "stop": "serving",
    "restart": "serving",
}
STANDARD_ERROR = 2
# If their server ends before it answered, they ask the next one: nothing was printed or run then.
ASK_AGAIN = ("find", "since", "follow", "wait", "run")


def main(words: List[str], directory: str) -> int:
    """Runs a command; `directory` is that of the command wq, without links."""
    speak_utf8()
    keep_standard_error()
    if sys.stdout is None:
        say("there is no standard output")
        return FAILED
    # A signal ends what was begun too. One that is ignored, as by nohup, stays so.
    for number in (signal.SIGTERM, signal.SIGHUP):
        if signal.getsignal(number) != signal.SIG_IGN:
            signal.signal(number, lambda number, _: sys.exit(128 + number))
    try:
        return run(words, Home(directory))
    except Trouble as trouble:
        for line in trouble.lines:
            say(line, "red")
        return trouble.status
    except KeyboardInterrupt:
        return INTERRUPTED
    except BrokenPipeError:
        write_no_more()
        return BROKEN_PIPE
    except OSError as error:
        write_no_more()
        say(f"{error.filename or 'output'}: {error.strerror or error}", "red")
        return FAILED
    finally:
        drop_errors()
        # From here on Python ends, and to an interrupt it would print where it was.
        if signal.getsignal(signal.SIGINT) is signal.default_int_handler:
            signal.signal(signal.SIGINT, signal.SIG_DFL)


def write_no_more() -> None:
    """The output cannot be written, as when its reader has gone. Nothing is to be written at the end either."""
    os.dup2(os.open(os.devnull, os.O_WRONLY), sys.stdout.fileno())


def drop_errors() -> None:
    """Drops what standard error does not take: else Python would try again at its end, and end with a status of
    its own."""
    try:
        sys.stderr.flush()
    except (AttributeError, OSError):
        os.dup2(os.open(os.devnull, os.O_WRONLY), STANDARD_ERROR)


def keep_standard_error() -> None:
    """Standard error that was closed becomes one that nobody reads: else the next file that is opened would be it, and
    Python would end with a status of its own."""
    try:
        os.fstat(STANDARD_ERROR)
    except OSError:
        number = os.open(os.devnull, os.O_WRONLY)
        if number != STANDARD_ERROR:
            os.dup2(number, STANDARD_ERROR)
            os.close(number)


def speak_utf8() -> None:
    """Names of files are UTF-8 to the server, whatever the locale is. Python has one encoding for a whole run."""
    if sys.getfilesystemencoding() != "utf-8":
        os.execv(sys.executable, [sys.executable, "-IB", "-X", "utf8", *sys.argv])


def run(words: List[str], home: Home) -> int:
    if not words:
        raise WrongWords("there is no command; `wq --help` says which there are")
    command = words[0]
    # What a command does not need is not read.
    if command == "help" and len(words) > 1:
        command, words = words[1], [words[1], "--help"]
    if command in ("--help", "-h", "help"):
        from .usage import USAGE

        sys.stdout.write(USAGE)
        sys.stdout.flush()
        return FOUND
    if command == "--version":
        print(home.version().replace("wqd ", "wq ", 1) or "wq", flush=True)
        return FOUND
    if command == "--names":
        from .completing import print_names

        return print_names(words[1:], home)
    from .words import FORMS, read

    if command not in FORMS:
        return run([own_command(command), *words[1:]], home)
    options = read(command, words[1:])
    require_names(options)
    set_colours(getattr(options, "color", None))
    return ended(function_of(command), options, home) if command in ASK_AGAIN else function_of(command)(options, home)


def ended(function: Callable[..., int], options: "argparse.Namespace", home: Home) -> int:
    """The status of a command. If the server ends once before it answered, and nobody stopped it, the next one is
    asked."""
    from .server import Went

    try:
        return function(options, home)
    except Went as went:
        if went.was_stopped:
            raise
    say("the server has ended before it answered, and another one is asked", "yellow")
    return function(options, home)


def require_names(options: object) -> None:
    """A byte 0 ends names alone."""
    if getattr(options, "print0", False) and (getattr(options, "json", False) or getattr(options, "jsonl", False)):
        raise WrongWords("-0 is for names, and --json and --jsonl print lines: take one out")


def own_command(command: str) -> str:
    """The command of wq that Watchman has by this word."""
    from .other_words import COMMANDS, MEANT
    from .vocabulary import meant
    from .words import FORMS

    if command in COMMANDS:
        return COMMANDS[command]
    is_option = command.startswith("-")
    other = f"; did you mean {MEANT[command]}?" if command in MEANT else ""
    hint = other or meant(command, ("--help", "--version") if is_option else FORMS).replace('"', "")
    kind = "option" if is_option else "command"
    raise WrongWords(f"there is no {kind} {command}{hint}; `wq --help` says which there are")


def function_of(command: str) -> Callable[..., int]:
    """The function of a command."""
    module = import_module(f".{MODULES.get(command, command)}", __package__)
    found: Callable[..., int] = getattr(module, command)
    return found
