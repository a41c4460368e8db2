"""`wq log`: what the server said, and what it says."""

import argparse
import os
import subprocess
import time
from functools import partial
from typing import BinaryIO

from wqclient.files import opened
from wqclient.harmless import harmless_lines
from wqclient.kept import log_of

from .home import Home
from .journal import SHOW
from .server import Server, sockname
from .server_log import is_in_journal, path_of
from .terminal import is_standard_terminal, write
from .trouble import FOUND, NOTHING, Trouble

# How often, in seconds, one looks whether a log grew.
PAUSE = 0.2


def log(options: argparse.Namespace, home: Home) -> int:
    """Prints the log of the server; of the last one, if none listens."""
    process = process_of(home)
    if process and is_in_journal(process):
        return subprocess.call([*SHOW.split(), *(["--follow"] if options.follow else [])])
    path = path_of(process) if process else log_of(sockname())
    if not path:
        raise Trouble(f"the log is standard error of process {process}, which is no file")
    while True:
        # It is open until the next one is there, so that no other file gets its number meanwhile.
        with open(path, "rb", opener=partial(opened, follows=True)) as stream:
            is_over = not options.follow
            print_rest(stream)
            while not is_over:
                time.sleep(PAUSE)
                is_over = is_another(path, stream)
                print_rest(stream)
        if not options.follow:
            return FOUND


def process_of(home: Home) -> int:
    """The process of the server; 0 if none listens."""
    try:
        server = Server(home, starts=False)
    except Trouble as trouble:
        if trouble.status == NOTHING:
            return 0
        raise
    server.close()
    return server.peer.process


def print_rest(stream: BinaryIO) -> None:
    """Prints what a log has from a place on, or all if it was cut off."""
    if os.fstat(stream.fileno()).st_size < stream.tell():
        stream.seek(0)
    data = stream.read()
    if data:
        write(harmless_lines(data.decode("utf-8", "replace")).encode() if is_standard_terminal() else data)


def is_another(path: str, stream: BinaryIO) -> bool:
    """Whether a server has begun another log in the place of one."""
    try:
        return not os.path.samestat(os.stat(path), os.fstat(stream.fileno()))
    except FileNotFoundError:
        return False
