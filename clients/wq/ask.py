"""`wq ask`: lines of the protocol as they are."""

import argparse
import json
import os
import sys
from typing import Any, Iterator, List

from .errors import culprits
from .home import Home
from .server import Server, reached
from .terminal import is_terminal, say, write
from .trouble import FAILED, FOUND, WrongWords
from .values import NotJson, read
from .values_shown import json_shown
from .warnings import warnings_of

INPUT = "-"


def ask(options: argparse.Namespace, home: Home) -> int:
    if not options.words:
        raise WrongWords("ask takes lines, such as '[\"watch-list\"]', or - for those of standard input")
    status = FOUND
    with reached(home) as server:
        for line in lines_of(options.words):
            if line.strip():
                status = max(status, asked(server, line))
    return status


def lines_of(words: List[str]) -> Iterator[bytes]:
    for word in words:
        if word == INPUT:
            for line in sys.stdin.buffer:
                yield line.rstrip(b"\n")
        else:
            yield from os.fsencode(word).split(b"\n")


def asked(server: Server, line: bytes) -> int:
    """Asks a line, and prints what is replied. What is wrong with it is on standard error."""
    command: Any = None
    fault = ""
    try:
        command = read(line.decode("utf-8", "surrogateescape"), "the line")
    except NotJson as error:
        fault = error.lines[-1]
    for sentence in warnings_of(command):
        say(sentence, "yellow")
    reply = server.line(line, watched_by(command))
    print_line(reply)
    found = json.loads(reply)
    if "subscribe" in found:
        print_line(server.line_of_list())
    if "error" not in found:
        return FOUND
    for sentence in [fault] if fault else culprits(found["error"], command, server.look):
        say(sentence, "red")
    return FAILED


def watched_by(command: Any) -> str:
    """The root that a command has the server watch, whose first crawl may take long."""
    is_watch = isinstance(command, list) and len(command) == 2 and command[0] in ("watch", "watch-project")
    return str(command[1]) if is_watch else ""


def print_line(line: bytes) -> None:
    """A reply as it is in a pipe, and laid out at a terminal."""
    write(json_shown(json.loads(line)).encode("utf-8") + b"\n" if is_terminal(sys.stdout) else line + b"\n")
