"""The parts of a release beside its packages: archives of the sources and of the files that ./install puts below a
prefix, a note of how the program was proved, the checksums of all of it, and a signature of these. But for that each is
the same on every machine, if its files are."""

import hashlib
import io
import os
import re
import subprocess
import tarfile
import tempfile
import time
from pathlib import Path
from typing import List

import notices
import publisher
from files import TOP, File, built_program, compressed, files, version

# The prefix that the unit of the archive names, below which a user unpacks it.
PREFIX = Path.home() / ".local"
# The note that `./wqd --build` leaves beside the program.
NOTE = TOP / "crates" / "wqd" / "out" / "wqd.proof"
ABOUT = """wqd {version}, a file watch server with proved answers, for Linux on x86-64.

Unpack it below ~/.local, so that the commands are in ~/.local/bin:

    mkdir -p ~/.local
    tar -xzf wqd-{version}-linux-x86_64.tar.gz -C ~/.local --strip-components=1

Then `wq find .` lists files, `man wq` and `man wqd` say the rest, and share/doc/wqd has the changes and the licences.
wq and wqasm need Python 3.9 or later. wqd needs glibc {glibc} or later and libgcc_s.
"""
# What the program says of the versions that it needs of the C library.
GLIBC = re.compile(rb"\0GLIBC_(\d+)\.(\d+)(?:\.\d+)?(?=\0)")


def seconds() -> int:
    """The time of all files: what SOURCE_DATE_EPOCH says, else that of the last commit, else now."""
    said = os.environ.get("SOURCE_DATE_EPOCH")
    if said is not None:
        return int(said)
    command = ["git", "-C", str(TOP), "log", "-1", "--format=%ct"]
    last = subprocess.run(command, stdout=subprocess.PIPE, stderr=subprocess.DEVNULL)
    return int(last.stdout) if last.returncode == 0 and last.stdout.strip() else int(time.time())


def tar_of(found: List[File], second: int, front: str = "./") -> bytes:
    """The files as `plain_tar_of` has them, compressed."""
    return compressed(plain_tar_of(found, second, front), second)


def plain_tar_of(found: List[File], second: int, front: str = "./") -> bytes:
    """The files, all of root. Each name begins with this front. Debian has `./` there, and entries for the directories.
    Without a front there are none, so that a user's own directories keep their modes."""
    written = io.BytesIO()
    above = {str(path) for file in found for path in Path(file.path).parents} if front else set()
    entries = [File(path, 0o755, b"") for path in above] + found
    with tarfile.open(fileobj=written, mode="w", format=tarfile.GNU_FORMAT) as tar:
        for entry in sorted(entries):
            info = tarfile.TarInfo("." if entry.path == "." else front + entry.path)
            info.type = tarfile.DIRTYPE if entry.path in above else tarfile.REGTYPE
            info.mode, info.size, info.mtime = entry.mode, len(entry.data), second
            info.uname = info.gname = "root"
            tar.addfile(info, io.BytesIO(entry.data))
    return written.getvalue()


def archive(prefix: Path = PREFIX) -> File:
    """The files below one directory with the version, for those who have no package manager or do not want one. The
    unit names this prefix."""
    home = f"wqd-{version()}"
    found = [File(f"{home}/{file.path}", file.mode, file.data) for file in files(str(prefix))]
    found.append(File(f"{home}/share/doc/wqd/README", 0o644, about().encode()))
    return File(f"{home}-linux-x86_64.tar.gz", 0o644, tar_of(found, seconds(), front=""))


def about() -> str:
    needed = [(int(major), int(minor)) for major, minor in GLIBC.findall(built_program())]
    return ABOUT.format(version=version(), glibc="{}.{}".format(*max(needed, default=(2, 0))))


def proof() -> File:
    """The note of how the program was proved. A program of which there is none, or another one, is not released, and
    neither is one of other sources than these or of changes that no commit has."""
    digest = hashlib.sha256(built_program()).hexdigest()
    note = NOTE.read_text("utf-8") if NOTE.is_file() else ""
    said = dict(line.split(" ", 1) for line in note.splitlines() if " " in line)
    if said.get("program") != digest:
        raise ValueError(
            f"the program with the SHA-256 {digest} is not the one that ./wqd --build proved and built here"
        )
    if said.get("sources") != sources():
        raise ValueError(
            "the sources are not those that the program was proved and built from; ./wqd --build does it anew"
        )
    if said.get("commit", "").endswith("-dirty"):
        raise ValueError("the program was proved and built from changes that no commit has")
    return File(f"wqd-{version()}.proof", 0o644, note.encode())


def sources() -> str:
    """The checksum of the sources, as the note of a proof has it."""
    script = '. "$top/contrib/prove.sh"; copy_crates "$1" && sources "$1"'
    with tempfile.TemporaryDirectory() as room:
        words = ["sh", "-c", script, "sh", room]
        ended = subprocess.run(words, env={**os.environ, "top": str(TOP)}, stdout=subprocess.PIPE)
    if ended.returncode != 0:
        raise ValueError("the sources of the program are not all here")
    return ended.stdout.decode().strip()


def source_archive() -> File:
    """The sources of the commit, with the program and its note in release/, where ./wq, ./wqd and ./install look."""
    home = f"wqd-{version()}"
    with tempfile.TemporaryDirectory() as room:
        for name, data, mode in (("wqd", built_program(), 0o755), ("wqd.proof", NOTE.read_bytes(), 0o644)):
            path = Path(room, name)
            path.write_bytes(data)
            path.chmod(mode)
        added = [f"--add-file={room}/{name}" for name in ("wqd", "wqd.proof")]
        words = ["git", "-c", "tar.umask=022", "archive", "--format=tar", f"--prefix={home}/release/", *added]
        words += [f"--prefix={home}/", "HEAD"]
        ended = subprocess.run(words, cwd=TOP, stdout=subprocess.PIPE, stderr=subprocess.PIPE)
    if ended.returncode != 0:
        raise ValueError(f"the sources are those of a commit, and git says: {ended.stderr.decode().strip()}")
    return File(f"{home}-sources.tar.gz", 0o644, compressed(ended.stdout, seconds()))


def bill() -> File:
    """The list of the program's parts."""
    return File(f"wqd-{version()}.cdx.json", 0o644, notices.bill(version(), built_program()))


def checksums(found: List[File]) -> File:
    """The SHA-256 of each file, as `sha256sum --check` reads it."""
    lines = [f"{hashlib.sha256(file.data).hexdigest()}  {file.path}\n" for file in sorted(found)]
    return File("SHA256SUMS", 0o644, "".join(lines).encode())


def signatures(signed: File) -> List[File]:
    """The signature of a file by the publisher's key, unless the publisher has none."""
    key = publisher.fields()["key"]
    if key == publisher.NO_KEY:
        return []
    words = ["gpg", "--batch", "--local-user", key, "--armor", "--detach-sign", "--output", "-", "-"]
    try:
        ended = subprocess.run(words, input=signed.data, stdout=subprocess.PIPE, stderr=subprocess.PIPE)
    except FileNotFoundError:
        raise ValueError("gpg, which signs by the publisher's key, is not installed") from None
    if ended.returncode != 0:
        raise ValueError(f"gpg does not sign by the key {key}: {ended.stderr.decode().strip()}")
    return [File(f"{signed.path}.asc", 0o644, ended.stdout)]
