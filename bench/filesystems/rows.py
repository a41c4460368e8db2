"""File systems that are mounted for a measurement, and the row of each: what inotify and Watchman hear of three changes
behind the mount, how late the mount itself and a scan show one, the first watch, a query that scans, the notice of a
change and the load of wqd, and whether its list is that of `find`."""

import contextlib
import os
import shutil
import statistics
import subprocess
import tempfile
import time
from pathlib import Path
from typing import Callable, Dict, Iterator, List, NamedTuple, Tuple

from measured import seconds_of
from served import AS_WQ, Client, Wqd, watchman
from trees import Tree, append, make_project
from waiting import wait_until

HEAD = [
    "file system",
    "inotify, Watchman",
    "shown after",
    "a scan sees",
    "first watch",
    "query",
    "notice",
    "load",
    "as `find`",
]
# So long, in seconds, a change may take to show.
LONGEST = 60.0
REST = 6.0


class Missing(Exception):
    """It cannot be mounted here, for this reason."""


class Mount(NamedTuple):
    """Where it is mounted, and where its files change without the kernel's knowledge."""

    root: Path
    behind: Path


Mounting = Callable[[Path], Iterator[Mount]]


def run(*words: object) -> None:
    try:
        ended = subprocess.run([*map(str, words)], stdin=subprocess.DEVNULL, capture_output=True, timeout=60)
    except FileNotFoundError:
        raise Missing(f"{words[0]} is not installed") from None
    if ended.returncode:
        raise Missing((ended.stderr or ended.stdout).decode(errors="replace").strip().split("\n")[-1])


def made(room: Path, *names: str) -> List[Path]:
    for name in names:
        (room / name).mkdir()
    return [room / name for name in names]


def by_mount(kind: str, options: str, behind: str) -> Mounting:
    """One that `mount` mounts, with its files in the directory `behind`; `{}` in the options is the room."""

    def mounted(room: Path) -> Iterator[Mount]:
        root, *_ = made(room, "root", "one", "two", "work")
        source = room / "one" if kind == "bind" else "none"
        how = ["--bind"] if kind == "bind" else ["-t", kind, "-o", options.replace("{}", str(room))]
        run("mount", *how, source, root)
        try:
            yield Mount(root, room / behind)
        finally:
            run("umount", root)

    return mounted


def by_command(*words: str) -> Mounting:
    """One that a command mounts; `{}` in its words is the room. `root`, `one`, `two` and `work` are there."""

    def mounted(room: Path) -> Iterator[Mount]:
        root, one, *_ = made(room, "root", "one", "two", "work")
        run(*(word.replace("{}", str(room)) for word in words))
        wait_until(lambda: os.path.ismount(root), 10)
        try:
            yield Mount(root, one)
        finally:
            run("umount", root)

    return mounted


def table(mounts: Dict[str, Mounting], names: List[str], entries: int, turns: int, load: float) -> None:
    """Prints the rows of these file systems, or of all, behind a head with the load of the machine."""
    moment = time.strftime("%Y-%m-%d %H:%M", time.gmtime())
    print(f"{moment}, Linux {os.uname().release}, load {load:.1f}, {entries:,} entries, seconds\n")
    print(f"| {' | '.join(HEAD)} |\n|{'---|' * len(HEAD)}", flush=True)
    for name in names or mounts:
        with tempfile.TemporaryDirectory() as path:
            try:
                cells = row(Path(path).resolve(), mounts[name], entries, turns)
            except Missing as reason:
                cells = [f"not here: {reason}", *[""] * (len(HEAD) - 2)]
            print(f"| {name} | {' | '.join(cells)} |", flush=True)


def row(room: Path, mounting: Mounting, entries: int, turns: int) -> List[str]:
    """The cells of a file system, but for its name."""
    with contextlib.contextmanager(mounting)(room) as mount:
        tree = make_project(mount.behind / "tree", entries)
        time.sleep(1.2)
        return [heard(room, mount, tree), shown(mount, tree), *of_wqd(room, mount, tree, turns)]


def changes(mount: Mount, tree: Tree, label: str) -> List[str]:
    """Three changes behind the mount: a file that is written, one that is new and one that goes."""
    names = [tree.files[40], f"{label}.c", tree.files[50 if label == "inotify" else 52]]
    append(mount.behind / "tree" / names[0])
    (mount.behind / "tree" / names[1]).write_text("new")
    (mount.behind / "tree" / names[2]).unlink()
    return names


def heard(room: Path, mount: Mount, tree: Tree) -> str:
    """Of three changes how many inotify hears, and then how many of three others Watchman."""
    return f"{by_inotify(room, mount, tree)}, {by_watchman(room, mount, tree)}"


def by_inotify(room: Path, mount: Mount, tree: Tree) -> str:
    if not shutil.which("inotifywait"):
        return "-"
    log = room / "inotify.log"
    words = ["inotifywait", "-m", "-r", "-q", "-o", str(log), str(mount.root)]
    with subprocess.Popen(words) as process:
        time.sleep(2)
        names = changes(mount, tree, "inotify")
        time.sleep(3)
        process.terminate()
    text = log.read_text() if log.exists() else ""
    return str(sum(name.rsplit("/", 1)[-1] in text for name in names))


def by_watchman(room: Path, mount: Mount, tree: Tree) -> str:
    if not shutil.which("watchman"):
        return "-"
    root = str(mount.root)
    with watchman(room) as server, server.client() as client:
        client.ask("watch", root)
        clock = client.ask("clock", root, {"sync_timeout": 20_000})["clock"]
        names = changes(mount, tree, "watchman")
        time.sleep(3)
        found = str(client.ask("query", root, {"since": clock, "fields": ["name"]})["files"])
        return str(sum(name in found for name in names))


def shown(mount: Mount, tree: Tree) -> str:
    """How long the mount itself shows the old size of a file that was looked at just before."""
    path = mount.root / "tree" / tree.files[70]
    size = os.stat(path).st_size
    append(mount.behind / "tree" / tree.files[70])
    return until(lambda: os.stat(path).st_size != size)


def until(is_shown: Callable[[], bool]) -> str:
    took = seconds_of(lambda: wait_until(is_shown, LONGEST))
    return f"{took:.1f}" if took < LONGEST else f"over {LONGEST:.0f}"


def seen(client: Client, mount: Mount, tree: Tree) -> str:
    """How long a query that scans does not list a file that is written, then one that is new, then one that goes."""
    behind, times = mount.behind / "tree", []
    (directory, _), root = os.path.split(tree.files[71]), str(mount.root)
    for name, change in (
        (tree.files[71], lambda: append(behind / tree.files[71])),
        (f"{directory}/late.c", lambda: (behind / directory / "late.c").write_text("late")),
        (tree.files[72], lambda: (behind / tree.files[72]).unlink()),
    ):
        asked = {"since": f"n:{name}", "fields": ["name"], "expression": ["name", f"tree/{name}", "wholename"]}
        # The second one makes the mount look at the file just before.
        for _ in "12":
            client.ask("query", root, asked)
        change()
        times.append(until(lambda: bool(client.ask("query", root, asked)["files"])))
    return ", ".join(times)


def of_wqd(room: Path, mount: Mount, tree: Tree, turns: int) -> List[str]:
    """How late a scan sees three changes, the first watch, a query that scans, the notices of a change, and the load,
    with what `wq` takes; at last whether the list is right."""
    with Wqd(room, **AS_WQ) as server, server.client() as client:
        root = str(mount.root)
        watch = seconds_of(lambda: client.ask("watch", root))
        query = statistics.median(seconds_of(lambda: client.ask("query", root, {"suffix": "none"})) for _ in "12345")
        late = seen(client, mount, tree)
        client.subscribe(mount.root)
        notice = "-" if late.startswith("over") else noticed(client, mount, tree, turns)
        return [late, f"{watch:.2f}", f"{query:.3f}", notice, load(server), as_find(client, mount)]


def noticed(client: Client, mount: Mount, tree: Tree, turns: int) -> str:
    """The seconds from a write to its list, the median and the worst, of a file that changed lately."""
    name, found = tree.files[80], []
    for turn in range(turns + 1):
        time.sleep(0.3 + 0.17 * turn)
        append(mount.behind / "tree" / name)
        found.append(seconds_of(lambda: client.waits_for(f"tree/{name}")))
    return f"{statistics.median(found[1:]):.2f} ({max(found[1:]):.2f})"


def load(server: Wqd) -> str:
    """The part of a processor that the server takes while nothing changes."""
    time.sleep(1.5)
    before = server.processor_seconds()
    time.sleep(REST)
    return f"{(server.processor_seconds() - before) / REST * 100:.1f} %"


Rows = Dict[str, Tuple[str, int, int]]


def as_find(client: Client, mount: Mount) -> str:
    """Whether a list says of each file what `find` says before it, or after it: a mount may show something new between
    the two."""
    before = found_in(mount.root)
    asked = {"expression": "exists", "fields": ["name", "type", "size", "mtime_ms"]}
    files = client.ask("query", str(mount.root), asked)["files"]
    after = found_in(mount.root)
    assert isinstance(files, list)
    listed: Rows = {file["name"]: (file["type"], file["size"], file["mtime_ms"]) for file in files}
    names = {*before, *listed, *after}
    wrong = sum(listed.get(name) not in (before.get(name), after.get(name)) for name in names)
    return f"no: {wrong:,} of {len(names):,}" if wrong else "yes"


def found_in(root: Path) -> Rows:
    """The kind, the size and the milliseconds of each file, as `find` says them."""
    words = ["find", str(root), "-mindepth", "1", "-printf", "%P\\0%y\\0%s\\0%T@\\0"]
    fields = subprocess.run(words, stdout=subprocess.PIPE, check=True).stdout.decode().split("\0")
    return {
        name: (kind, int(size), int(seconds.replace(".", "")[: seconds.index(".") + 3]))
        for name, kind, size, seconds in zip(*(fields[at:-1:4] for at in range(4)))
    }
