"""The file system that a directory is on, whether the kernel tells of changes there, and what helps."""

import re
from typing import Dict, NamedTuple, Optional


class Mount(NamedTuple):
    """A mount: the directory where it is, the kind of its file system, and its options."""

    directory: str
    kind: str
    options: str


class Hearing(NamedTuple):
    """Of whose changes the kernel does not tell; how late the mount itself shows them, if that was measured or is said
    by its documentation; the option by which a scan sees them sooner, and how late they are then, if that was measured.
    """

    silent_about: str
    late: str = ""
    option: str = ""
    then: str = ""


SERVER = "other machines"
HOST = "the host"
BEHIND = "whatever is behind it"
# The mount shows such a change only if it is mounted again.
NEVER = "never"
AT_ONCE = "at once"
# By the beginning of the kind. docs/FILESYSTEMS.md has the same, and what was tried of it.
DEAF: Dict[str, Hearing] = {
    "nfs": Hearing(SERVER, "3 to 60 s", "-o actimeo=1", "1 s"),
    "cifs": Hearing(SERVER, "1 s", "-o actimeo=0", AT_ONCE),
    "smb": Hearing(SERVER, "1 s", "-o actimeo=0", AT_ONCE),
    "ceph": Hearing(SERVER),
    "fuse.sshfs": Hearing(SERVER, "20 s", "-o dcache_timeout=1,dcache_stat_timeout=1,dcache_dir_timeout=1", "1 s"),
    "fuse.rclone": Hearing(SERVER, "", "--dir-cache-time 1s --attr-timeout 1s", "1 s"),
    "fuse.bindfs": Hearing(BEHIND, "1 s", "-o attr_timeout=0,entry_timeout=0", AT_ONCE),
    "fuse.mergerfs": Hearing(BEHIND, "1 s", "-o cache.attr=0,cache.entry=0", AT_ONCE),
    "fuse.fuse-overlayfs": Hearing("what changes its layers", NEVER),
    "9p": Hearing(HOST, "", "-o cache=none", AT_ONCE),
    "hostfs": Hearing(HOST, AT_ONCE),
    "virtiofs": Hearing(HOST, "1 s", "virtiofsd --cache never", AT_ONCE),
    "vboxsf": Hearing(HOST),
    "drvfs": Hearing("Windows"),
    "fuse": Hearing(BEHIND, "", "-o attr_timeout=0,entry_timeout=0"),
    "overlay": Hearing("what changes its lower layers"),
}
# How the kernel writes spaces and backslashes of a path.
ESCAPE = re.compile(r"\\([0-7]{3})")


def mount_of(path: str, mounts: Optional[str] = None) -> Mount:
    """The mount that a path without links is on. The last one of a directory counts."""
    if mounts is None:
        with open("/proc/self/mountinfo", encoding="utf-8", errors="surrogateescape") as stream:
            mounts = stream.read()
    best = Mount("/", "unknown", "")
    for line in mounts.splitlines():
        front, _, back = line.partition(" - ")
        directory = ESCAPE.sub(lambda found: chr(int(found[1], 8)), front.split()[4])
        is_above = path == directory or path.startswith(directory.rstrip("/") + "/")
        if is_above and len(directory) >= len(best.directory):
            kind, _, options = back.split(" ", 2)
            best = Mount(directory, kind, f"{front.split()[5]},{options}")
    return best


def hearing_of(kind: str) -> Optional[Hearing]:
    """What is not heard on a file system of a kind; nothing if the kernel tells of every change."""
    found = [name for name in DEAF if kind.startswith(name)]
    return DEAF[max(found, key=len)] if found else None
