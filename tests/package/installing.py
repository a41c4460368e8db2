"""Helpers for tests of the package: the files of ./install, and calls of the scripts at the top."""

import os
import re
import shlex
import shutil
import subprocess
import tarfile
from io import BytesIO
from pathlib import Path
from typing import IO, Dict, List, Optional, Tuple

import built
import notices
from client import PATIENCE, Client
from waiting import wait_until

FILES = {
    "bin/wq": 0o755,
    "bin/wqasm": 0o755,
    "bin/wqd": 0o755,
    "lib/wqd/files": 0o644,
    "lib/wqd/git-fsmonitor-hook": 0o755,
    "lib/wqd/wqd": 0o755,
    "share/bash-completion/completions/wq": 0o644,
    "share/bash-completion/completions/wqasm": 0o644,
    "share/bash-completion/completions/wqd": 0o644,
    "share/doc/wqd/CHANGELOG.md": 0o644,
    "share/doc/wqd/copyright": 0o644,
    "share/fish/vendor_completions.d/wq.fish": 0o644,
    "share/man/man1/wq.1": 0o644,
    "share/man/man1/wqasm.1": 0o644,
    "share/man/man1/wqd.1": 0o644,
    "share/man/man7/wqd-programs.7": 0o644,
    "share/man/man7/wqd-protocol.7": 0o644,
    "share/man/man7/wqd-reference.7": 0o644,
    "share/man/man7/wqd-scripts.7": 0o644,
    "share/systemd/user/wqd.service": 0o644,
    "share/zsh/site-functions/_wq": 0o644,
}
LIST = "lib/wqd/files"
UNIT = "share/systemd/user/wqd.service"
# The files that a package has beside these.
OF_DEBIAN = ("share/doc/wqd/changelog.gz", "share/lintian/overrides/wqd")
ADMIN = ("info", "updates", "triggers")
# The line in the place of the licence.
HAS_APACHE = b" The Apache License, Version 2.0, is in /usr/share/common-licenses/Apache-2.0.\n"


def in_debian(path: str) -> str:
    """The place in a package of a file that ./install puts here."""
    for here, there in (
        ("share/zsh/site-functions/", "share/zsh/vendor-completions/"),
        ("share/systemd/", "lib/systemd/"),
    ):
        path = path.replace(here, there)
    return f"{path}.gz" if path.startswith("share/man/") else path


def text_in_debian(path: str, data: bytes) -> bytes:
    """The text of a file in a package: scripts name Debian's Python, and Debian has the text of the Apache License."""
    if path.endswith("/copyright"):
        for text in notices.apaches():
            data = data.replace(f"{text}\n".encode(), HAS_APACHE)
        return data[: data.index(b"License: Apache-2.0\n") + 20] + HAS_APACHE
    return re.sub(rb"\A#!/usr/bin/env -S (python3 -I\w*)\n", rb"#!/usr/bin/\1\n", data)


def members_of(package: Path) -> Dict[str, bytes]:
    """The members of an archive as `ar` writes it."""
    data = package.read_bytes()
    members, place = {}, 8
    while place < len(data):
        head = data[place : place + 60].decode()
        size = int(head[48:58])
        members[head[:16].strip()] = data[place + 60 : place + 60 + size]
        place += 60 + size + size % 2
    return members


def install_package(package: Path, directory: Path):
    """Installs a package below a directory, and gives what removes it."""
    if shutil.which("dpkg") is None:
        with tarfile.open(fileobj=BytesIO(members_of(package)["data.tar.gz"])) as archive:
            archive.extractall(directory)
        return lambda: shutil.rmtree(directory / "usr")
    admin = directory / "var" / "lib" / "dpkg"
    for name in ADMIN:
        (admin / name).mkdir(parents=True)
    for name in ("status", "available"):
        (admin / name).touch()
    dpkg(directory, "--install", str(package))
    return lambda: dpkg(directory, "--purge", "wqd")


def dpkg(directory: Path, *words: str) -> None:
    # The directory has no C library, and the user who runs this need not be root.
    command = ["dpkg", f"--root={directory}", "--force-depends", "--force-not-root", "--force-bad-path"]
    command.append(f"--log={directory}/log")
    ended = subprocess.run([*command, *words], stdout=subprocess.PIPE, stderr=subprocess.STDOUT)
    if ended.returncode != 0:
        raise ValueError(ended.stdout.decode())


def words_of(unit: str, home: Path, runtime: Path) -> List[str]:
    """The words of ExecStart as systemd reads them: specifiers, dollars, quotations."""
    line = next(line for line in unit.replace("\\\n", "").splitlines() if line.startswith("ExecStart="))
    for short, long in (("%h", str(home)), ("%t", str(runtime)), ("%%", "%"), ("$$", "$")):
        line = line.replace(short, long)
    return shlex.split(line[len("ExecStart=") :])


def client_of(server: subprocess.Popen, sockname: Path) -> Client:
    """A client of a server that starts."""
    wait_until(lambda: sockname.exists() or server.poll() is not None)
    return Client(str(sockname))


def environment_of(server: subprocess.Popen) -> Dict[str, str]:
    pairs = Path(f"/proc/{server.pid}/environ").read_bytes().split(b"\0")
    return dict(pair.decode().split("=", 1) for pair in pairs if b"=" in pair)


def present(stream: Optional[IO[bytes]]) -> IO[bytes]:
    """A stream that is there: one that was asked for as a pipe, or that of a member that is a file."""
    assert stream is not None
    return stream


def call(home: Path, name: str, *words: str, **environment: str) -> built.Ended:
    """Runs a script at the top of the repository, for somebody with this home."""
    environment = {**os.environ, "WQD": str(built.program_path()), "HOME": str(home), **environment}
    return built.call([str(built.TOP / name), *words], env=environment, timeout=PATIENCE)


def version_of(home: Path) -> str:
    return call(home, "wqd", "--version").output.decode().split()[1]


def modes(prefix: Path, paths: Dict[str, int]) -> Dict[str, int]:
    return {path: (prefix / path).stat().st_mode & 0o777 for path in paths if (prefix / path).is_file()}


def listing(prefix: Path) -> List[Tuple[str, int]]:
    return sorted((str(path.relative_to(prefix)), path.lstat().st_mode) for path in prefix.rglob("*"))


def added_by(prefix: Path, before: List[Tuple[str, int]]) -> List[str]:
    """The installed files that were not there before; the prefix itself was."""
    names = {name for name, _ in before}
    lines = (prefix / LIST).read_text().splitlines()
    return [line for line in lines if line.rstrip("/") not in names]
