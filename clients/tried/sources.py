"""Source packages of Debian, fetched without a change to the sources that the machine has."""

import subprocess
import tarfile
from pathlib import Path
from typing import List

SERVER, KEYS = "http://deb.debian.org/debian", "/usr/share/keyrings/debian-archive-keyring.gpg"


class NoSource(Exception):
    """A source package cannot be had, for this reason."""


def fetched(package: str, room: Path) -> Path:
    """The directory into which the package is unpacked, as its authors released it."""
    for name in ("lists/partial", "archives/partial", "parts", "source"):
        (room / name).mkdir(parents=True)
    options = options_of(room)
    run(["apt-get", *options, "update"], room)
    if not any((room / "lists").glob("*Sources*")):
        raise NoSource(f"the index of sources at {SERVER} cannot be fetched")
    # A part of a package may be gone from the server; the one that is wanted tells.
    try:
        run(["apt-get", *options, "source", "--download-only", package], room / "source")
    except NoSource as reason:
        if not any((room / "source").glob("*.orig.tar.gz")):
            raise reason
    return unpacked(room / "source")


def options_of(room: Path) -> List[str]:
    """Words for apt that have it use the sources of this release alone, and directories of the room."""
    sources = room / "parts" / "here.sources"
    sources.write_text(f"Types: deb-src\nURIs: {SERVER}\nSuites: {release()}\nComponents: main\nSigned-By: {KEYS}\n")
    places = {
        "Dir::Etc::SourceList": "/dev/null",
        "Dir::Etc::SourceParts": str(room / "parts"),
        "Dir::State::Lists": str(room / "lists"),
        "Dir::Cache::Archives": str(room / "archives"),
        "Dir::Cache::PkgCache": "",
        "Dir::Cache::SrcPkgCache": "",
        "APT::Sandbox::User": "root",
    }
    return [word for key, value in places.items() for word in ("-o", f"{key}={value}")]


def release() -> str:
    try:
        lines = Path("/etc/os-release").read_text().splitlines()
    except OSError as error:
        raise NoSource(f"/etc/os-release: {error.strerror}")
    names = [line.partition("=")[2].strip('"') for line in lines if line.startswith("VERSION_CODENAME=")]
    if not names:
        raise NoSource("this is no release of Debian")
    return names[0]


def run(words: List[str], at: Path) -> None:
    try:
        ended = subprocess.run(words, cwd=at, stdout=subprocess.PIPE, stderr=subprocess.STDOUT)
    except OSError as error:
        raise NoSource(f"{words[0]}: {error.strerror}")
    if ended.returncode != 0:
        raise NoSource((ended.stdout.decode("utf-8", "replace").splitlines() or ["apt-get failed"])[-1])


def unpacked(source: Path) -> Path:
    archives = list(source.glob("*.orig.tar.gz"))
    if not archives:
        raise NoSource("it has no .orig.tar.gz")
    with tarfile.open(archives[0]) as archive:
        archive.extractall(source)
    return next(path for path in source.iterdir() if path.is_dir())
