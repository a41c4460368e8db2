"""File systems, by the names that Watchman has for those that are far away."""

import os

MOUNTS = "/proc/self/mountinfo"
# The system's names, and Watchman's. It calls every other one `unknown`.
FAR_AWAY = {"nfs": "nfs", "nfs4": "nfs", "cifs": "cifs", "smb3": "cifs", "smbfs": "smb"}
UNKNOWN = "unknown"


def kind_of(path: str) -> str:
    """The kind of file system that a directory is on: that of the mount with its device."""
    try:
        device = os.stat(path).st_dev
        with open(MOUNTS, encoding="utf-8", errors="surrogateescape") as file:
            for line in file:
                mount, _, source = line.partition(" - ")
                if mount.split(" ")[2] == f"{os.major(device)}:{os.minor(device)}":
                    return FAR_AWAY.get(source.split(" ")[0], UNKNOWN)
    except (OSError, ValueError, IndexError):
        pass
    return UNKNOWN
