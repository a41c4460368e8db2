"""`wq doctor`: whether wqd is right for a place: its file system, its size, what a scan costs, and the server."""

import argparse
import time
from typing import Iterator, List

from wqclient.root_notes import MOMENT
from wqclient.sockets import is_listened_on
from wqclient.unit import is_started
from wqprogram.limits import MAX_ROWS

from .file_systems import AT_ONCE, NEVER, Hearing, hearing_of, mount_of
from .home import Home
from .pace import seconds_between_scans, seconds_shown
from .processes import words_of
from .roots import place_of, real_path
from .server import Server, reached, sockname
from .status import of_size, row
from .terminal import show
from .trouble import FOUND

# A root of more files than this part of what may be is near the limit.
NEAR = 0.8
# A first scan that takes longer than this, in seconds, is long for a single search.
LONG = 5.0


def doctor(options: argparse.Namespace, home: Home) -> int:
    path = sockname()
    show([row("socket", f"{path}, on which {'a' if is_listened_on(path) else 'no'} server listens")])
    show([row("unit", "systemd has started it" if is_started(path) else "systemd has not started it")])
    with reached(home, first=lambda: real_path(options.directory)) as server:
        watched = server.roots()
        root = place_of(options.directory, watched).root
        show([row("root", root)])
        show(of_file_system(root))
        show(of_scans(server, root, watched))
    return FOUND


def of_file_system(root: str) -> Iterator[str]:
    mount = mount_of(root)
    yield row("on", f"{mount.kind}, mounted at {mount.directory} with {mount.options}")
    deaf = hearing_of(mount.kind)
    if deaf is None:
        yield row("kernel", "it tells of every change here: so inotifywait, entr or watchexec hear it too, and sooner")
        yield row(
            "choose", "wqd for `wq since`, for many tools that ask one server, and for trees over the inotify limit"
        )
        return
    yield row("kernel", f"it does not tell of changes by {deaf.silent_about}: only scans see these, as those of wqd")
    yield row("mount", mount_shown(deaf))


def mount_shown(deaf: Hearing) -> str:
    """How late a mount shows a change that the kernel does not tell of, and what helps."""
    if deaf.late == NEVER:
        return "it never shows such a change, until it is mounted again"
    if deaf.late == AT_ONCE:
        return "it shows such a change at once to a query that scans first"
    late = f"it shows such a change up to {deaf.late} late" if deaf.late else "how late it shows such a change differs"
    then = {"": "sooner, if it has that option", AT_ONCE: AT_ONCE}.get(deaf.then, f"up to {deaf.then}")
    return f"{late}, also to a query that scans first" + (f"; with `{deaf.option}` {then}" if deaf.option else "")


def of_scans(server: Server, root: str, watched: List[str]) -> Iterator[str]:
    """The size of the root, and what scans of it cost: the first one, and those that follow."""
    began = time.monotonic()
    server.watch(root, watched, MOMENT)
    first = time.monotonic() - began
    try:
        began = time.monotonic()
        server.ask("clock", root, {"sync_timeout": 1})
        scan = time.monotonic() - began
        kinds = server.ask("query", root, {"fields": ["type"], "sync_timeout": 0})["files"]
        yield row("size", of_size(len(kinds), kinds.count("d")))
        if len(kinds) > NEAR * MAX_ROWS:
            yield row("", f"at most {MAX_ROWS:,} may be; `wq watch --root DIR` takes a part of them", "yellow")
        between = seconds_between_scans(words_of(server.peer.process), scan)
        yield row(
            "scan", f"it takes {seconds_shown(scan)}, and comes about each {seconds_shown(between)}, later under load"
        )
        if root not in watched and first > LONG:
            yield row(
                "", f"the first one took {first:.0f} s: for one search take fd or find, for more `wq watch`", "yellow"
            )
    finally:
        if root not in watched:
            server.give_back(root)
