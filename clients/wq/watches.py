"""`wq watch`, `wq unwatch` and `wq roots`: which directories the server watches."""

import argparse
import os

from wqclient.kept import path_of
from wqclient.own_roots import OWN_ROOTS, is_own_root, set_own_root

from .home import Home
from .roots import place_of, real_path, require_utf8, root_to_unwatch
from .server import reached
from .terminal import name_shown, say, show
from .trouble import FOUND, NOTHING, Trouble, WrongWords
from .values_shown import json_shown


def watch(options: argparse.Namespace, home: Home) -> int:
    """Watches the projects of directories, and prints their roots."""
    for word in options.words:
        require_utf8(word, "a word of the command line")
        require_no_command(word)
    with reached(home, first=lambda: [*map(real_path, options.words)]) as server:
        for word in options.words or ["."]:
            watched = server.roots()
            if options.root:
                note_own_root(real_path(word), True)
            root = place_of(word, watched).root
            server.watch(root, watched)
            show([name_shown(root, None)])
    return FOUND


def require_no_command(word: str) -> None:
    """Elsewhere `watch` runs a command after each change."""
    if not os.path.lexists(word):
        from shutil import which

        if which(word) is not None:
            raise WrongWords(f"{word} is no directory; `wq run -- {word}` runs it after each change")


def unwatch(options: argparse.Namespace, home: Home) -> int:
    """Gives places of roots back, also of a directory that is gone. One that was a root of its own is none from then
    on, whether a server listens or not."""
    words = options.words or ["."]
    for word in words:
        require_utf8(word, "a word of the command line")
    ended = [path for word in words for path in (os.path.abspath(word), os.path.realpath(word))]
    status = FOUND
    try:
        with reached(home, starts=False) as server:
            for word in words:
                watched = server.roots()
                root = root_to_unwatch(word, watched)
                if root is None:
                    say(f"{word} is not watched{'; watched are ' + ', '.join(watched) if watched else '; no root is'}")
                    status = NOTHING
                    continue
                server.unwatch(root)
                ended.append(root)
                show([name_shown(root, None)])
    finally:
        for path in filter(is_own_root, ended):
            note_own_root(path, False)
    return status


def note_own_root(path: str, is_root: bool) -> None:
    try:
        set_own_root(path, is_root)
    except OSError as error:
        raise Trouble(f"{error.filename or path_of(OWN_ROOTS, path)}: {error.strerror}") from None


def roots(options: argparse.Namespace, home: Home) -> int:
    with reached(home, starts=False) as server:
        found = server.ask("watch-list")
    ending = "\0" if options.print0 else "\n"
    if options.json:
        show([json_shown(found)])
    else:
        show((name_shown(root, None, ending) for root in found["roots"]), ending)
    return FOUND if found["roots"] else NOTHING
