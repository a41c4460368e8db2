"""A directory whose names never end: the server says that they are too many, and does not take them all in."""

import ctypes
import os
import struct
import subprocess
import threading
from pathlib import Path
from typing import List, Tuple

from case import Case
from client import A_HOUR, VERSION, Server, query_of_names
from mounts import in_namespace, made

# How much more memory the server may take for the names, in bytes.
MORE_MEMORY = 200_000_000
TOO_MANY = {"error": "E12: too many files", **VERSION}

# The numbers of questions, and the sizes of answers, are from the kernel's `linux/fuse.h`.
LOOKUP, FORGET, GETATTR, INIT, OPENDIR, READDIR, RELEASEDIR, BATCH_FORGET = 1, 2, 3, 26, 27, 28, 29, 42
NO_SUCH_FILE, NOT_KNOWN = -2, -38
ROOT, ENDLESS, FILE = 1, 2, 3
DIRECTORY_MODE, FILE_MODE = 0o40755, 0o100644


class Crowded:
    """A file system in FUSE with a file, and with a directory without end once it is crowded."""

    def __init__(self, place: Path) -> None:
        self.place = place
        self.is_crowded = False
        self.device = os.open("/dev/fuse", os.O_RDWR | os.O_CLOEXEC)
        options = f"fd={self.device},rootmode=40000,user_id={os.getuid()},group_id={os.getgid()}".encode()
        libc = ctypes.CDLL(None, use_errno=True)
        if libc.mount(b"crowded", os.fsencode(place), b"fuse", 0, options) != 0:
            raise OSError(ctypes.get_errno(), "FUSE cannot be mounted")
        threading.Thread(target=self.serve, daemon=True).start()

    def __enter__(self) -> "Crowded":
        return self

    def __exit__(self, *_: object) -> None:
        subprocess.run(["umount", "--lazy", str(self.place)], check=True)

    def serve(self) -> None:
        """Answers questions until the mount goes."""
        while True:
            try:
                question = os.read(self.device, 1 << 20)
            except OSError:
                return
            _, code, unique, node = struct.unpack_from("<IIQQ", question)
            if code in (FORGET, BATCH_FORGET):
                continue
            error, answer = self.answer(code, node, question[40:])
            os.write(self.device, struct.pack("<IiQ", 16 + len(answer), error, unique) + answer)

    def answer(self, code: int, node: int, body: bytes) -> Tuple[int, bytes]:
        """An error or 0, and the bytes of the answer."""
        if code == INIT:
            return 0, struct.pack("<IIIIHHIIHHI", 7, 31, 4096, 0, 1, 1, 4096, 1, 0, 0, 0) + bytes(28)
        if code == GETATTR:
            return 0, bytes(16) + attributes(node)
        if code == LOOKUP:
            return self.looked_up(node, body.rstrip(b"\0"))
        if code == READDIR:
            _, offset, size = struct.unpack_from("<QQI", body)
            return 0, self.names(node, offset, size)
        if code in (OPENDIR, RELEASEDIR):
            return 0, bytes(16) if code == OPENDIR else b""
        return NOT_KNOWN, b""

    def looked_up(self, node: int, name: bytes) -> Tuple[int, bytes]:
        found = dict(self.entries()).get(name) if node == ROOT else None
        if found is None:
            return NO_SUCH_FILE, b""
        return 0, struct.pack("<Q", found) + bytes(32) + attributes(found)

    def entries(self) -> List[Tuple[bytes, int]]:
        return [(b"file", FILE), *([(b"endless", ENDLESS)] if self.is_crowded else [])]

    def names(self, node: int, offset: int, size: int) -> bytes:
        """The names in a directory after so many, in so many bytes."""
        if node == ROOT:
            left = self.entries()[offset:]
        else:
            left = [(b"%012d" % number, FILE) for number in range(offset, offset + size // 40)]
        return b"".join(entry(name, found, offset + place + 1) for place, (name, found) in enumerate(left))


@in_namespace
class CrowdedDirectories(Case):
    def test_a_crowded_directory(self) -> None:
        """The names come while the root is watched, whose view stays. A root that has them is not watched."""
        if not os.access("/dev/fuse", os.R_OK | os.W_OK):
            self.skipTest("there is no /dev/fuse that may be opened")
        (root,) = made(self.room, "crowded")
        with Crowded(root) as crowd, Server(self.room, interval=A_HOUR) as server, server.client(root) as client:
            before = server.most_memory()
            crowd.is_crowded = True
            self.same("a root with a crowded directory", client.ask("query", str(root), query_of_names()), TOO_MANY)
            last = client.ask("query", str(root), {"sync_timeout": 0, **query_of_names()})
            self.same("its last view", last.get("files"), ["file"])
            self.same("a root that is crowded", client.ask("watch", str(root / "endless")), TOO_MANY)
            more = server.most_memory() - before
            self.check("memory for a crowd", more < MORE_MEMORY, [f"{more / 1e6:.0f} MB"])


def entry(name: bytes, node: int, offset: int) -> bytes:
    padding = bytes(-len(name) % 8)
    return struct.pack("<QQII", node, offset, len(name), 0) + name + padding


def attributes(node: int) -> bytes:
    mode = FILE_MODE if node == FILE else DIRECTORY_MODE
    return struct.pack("<QQQQQQ10I", node, 0, 0, 0, 0, 0, 0, 0, 0, mode, 1, os.getuid(), os.getgid(), 0, 4096, 0)
