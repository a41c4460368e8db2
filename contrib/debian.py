"""Packages for Debian of what ./install installs, with the prefix /usr. A package is an archive of three members, of
which two are archives of files. They are written here, without the tools of Debian, so they are the same on every
machine."""

import email.utils
import hashlib
import os
import re
from typing import Callable, List, NamedTuple

import adapters
import notices
import publisher
from files import File, apache, compressed, copyright_of, files, files_as_watchman, version
from release import seconds, tar_of

CONTROL = """Package: {name}
Version: {version}
Architecture: {architecture}
Maintainer: {maintainer}
Installed-Size: {kibibytes}
{relations}Section: devel
Priority: optional
Description: {about}
"""
CHANGES = """{name} ({version}) unstable; urgency=medium

  * CHANGELOG.md of wqd says what changed.

 -- {maintainer}  {date}
"""
# What lintian would say of a program that is as it was built, so that everybody can compare it.
OVERRIDES = "wqd: unstripped-binary-or-object [usr/lib/wqd/wqd]\n"
HAS_APACHE = " The Apache License, Version 2.0, is in /usr/share/common-licenses/Apache-2.0.\n"
# Where Debian has what ./install puts elsewhere: units of users, what packages complete in zsh, modules.
PLACES = {
    "share/systemd/user/": "lib/systemd/user/",
    "share/zsh/site-functions/": "share/zsh/vendor-completions/",
    f"{adapters.NODE_PLACE}/": f"share/nodejs/{adapters.NODE}/",
    f"{adapters.PYTHON_PLACE}/": "lib/python3/dist-packages/",
}
# How the scripts in Python begin, which may name no other Python than Debian's.
ANY_PYTHON, PYTHON = b"#!/usr/bin/env -S python3 ", b"#!/usr/bin/python3 "
PROGRAM = "usr/lib/wqd/wqd"
# What a program says of the versions that it needs of the C library, and of the compiler's library.
GLIBC = re.compile(rb"\0GLIBC_(\d+)\.(\d+)(?:\.\d+)?(?=\0)")
GCC = re.compile(rb"\0GCC_(\d+)\.(\d+)(?:\.\d+)?(?=\0)")
LEAST_PYTHON = "python3 (>= 3.9)"


class Package(NamedTuple):
    name: str
    architecture: str
    relations: List[str]
    about: str
    files: Callable[[], List[File]]


def server() -> List[File]:
    return [*files("/usr"), File("share/lintian/overrides/wqd", 0o644, OVERRIDES.encode())]


def for_node() -> List[File]:
    return [file for file in adapters.files_of_adapters("/usr") if file.path.startswith(adapters.NODE_PLACE)]


def for_python() -> List[File]:
    launcher = adapters.LAUNCHER.format(place="lib/python3/dist-packages", package=adapters.PYTHON)
    found = [File(f"{adapters.PYTHON_PLACE}/{file.path}", file.mode, file.data) for file in adapters.python_files()]
    return [*found, File("bin/wqd-watchdog", 0o755, launcher.encode())]


WQD = Package(
    "wqd",
    "amd64",
    ["Suggests: git, man-db, wqd-watchman, python3-wqd-watchdog, node-wqd-chokidar"],
    """file watch server with proved answers
 It watches directories, and answers on a Unix socket which files match and
 which changed since a client last asked. It speaks Watchman's JSON commands.""",
    server,
)
OTHERS = (
    Package(
        "wqd-watchman",
        "all",
        [
            f"Depends: wqd (= {version()}), {LEAST_PYTHON}",
            "Recommends: python3-pywatchman",
            # Debian's pywatchman depends on `watchman`, and is as good with this one.
            "Provides: watchman",
            "Conflicts: watchman",
            "Replaces: watchman",
        ],
        """command watchman that asks wqd
 Clients of Watchman, such as those of Mercurial and of bundlers, find the
 file watch server wqd by this command and its bridge.""",
        files_as_watchman,
    ),
    Package(
        "python3-wqd-watchdog",
        "all",
        [f"Depends: {LEAST_PYTHON}, python3-watchdog", "Recommends: wqd"],
        """observer for Python's watchdog that asks wqd
 Tools such as mkdocs hear of changed files from the file watch server wqd
 in place of polling by themselves.""",
        for_python,
    ),
    Package(
        "node-wqd-chokidar",
        "all",
        ["Depends: nodejs (>= 18)", "Recommends: wqd"],
        """API of Node's chokidar, answered by wqd
 Tools such as webpack and gulp hear of changed files from the file watch
 server wqd in place of polling by themselves.""",
        for_node,
    ),
)


def package(given: Package = WQD) -> File:
    second = seconds()
    found = [in_debian(file) for file in given.files()]
    home = f"usr/share/doc/{given.name}"
    if given is not WQD:
        found.append(in_debian(File(f"share/doc/{given.name}/copyright", 0o644, copyright_of(False))))
    found.append(File(f"{home}/changelog.gz", 0o644, compressed(changes(given, second))))
    about = [File("control", 0o644, control(given, found)), File("md5sums", 0o644, checksums(found))]
    members = [
        ("debian-binary", b"2.0\n"),
        ("control.tar.gz", tar_of(about, second)),
        ("data.tar.gz", tar_of(found, second)),
    ]
    data = b"!<arch>\n" + b"".join(member(name, data, second) for name, data in members)
    return File(f"{given.name}_{version()}_{given.architecture}.deb", 0o644, data)


def packages() -> List[File]:
    return [package(each) for each in (WQD, *OTHERS)]


def in_debian(file: File) -> File:
    """A file as Debian has it: perhaps at another place, with another first line, compressed, or without the text of a
    licence that Debian has."""
    path, data = file.path, file.data
    for here, there in PLACES.items():
        path = path.replace(here, there)
    if data.startswith(ANY_PYTHON):
        data = PYTHON + data[len(ANY_PYTHON) :]
    if path.startswith("share/man/"):
        path, data = f"{path}.gz", compressed(data)
    elif path.endswith("/copyright"):
        for licence in (apache(), *(f"{text}\n" for text in notices.apaches())):
            data = data.replace(licence.encode(), HAS_APACHE.encode())
    return File(f"usr/{path}", file.mode, data)


def maintainer() -> str:
    """Whoever makes the package: by Debian's variables, or else the publisher."""
    said = publisher.fields()
    name = os.environ.get("DEBFULLNAME") or said["name"] or "the wqd authors"
    return f"{name} <{os.environ.get('DEBEMAIL') or said['address'] or 'wqd@localhost'}>"


def changes(given: Package, second: int) -> bytes:
    date = email.utils.formatdate(second)
    return CHANGES.format(name=given.name, version=version(), maintainer=maintainer(), date=date).encode()


def checksums(found: List[File]) -> bytes:
    return "".join(f"{hashlib.md5(file.data).hexdigest()}  {file.path}\n" for file in sorted(found)).encode()


def control(given: Package, found: List[File]) -> bytes:
    """What Debian's tools read of the package."""
    needed = [f"Depends: {', '.join([*libraries(file.data), LEAST_PYTHON])}" for file in found if file.path == PROGRAM]
    home = publisher.fields()["home"]
    relations = [*needed, *given.relations, *([f"Homepage: {home}"] if home else [])]
    kibibytes = sum(-(-len(file.data) // 1024) for file in found)
    return CONTROL.format(
        name=given.name,
        version=version(),
        architecture=given.architecture,
        maintainer=maintainer(),
        kibibytes=kibibytes,
        relations="".join(f"{line}\n" for line in relations),
        about=given.about,
    ).encode()


def libraries(program: bytes) -> List[str]:
    """The packages of the libraries that a program is linked to, with the versions that it says it needs."""
    found = []
    for name, pattern in (("libc6", GLIBC), ("libgcc-s1", GCC)):
        versions = [(int(major), int(minor)) for major, minor in pattern.findall(program)]
        found += ["{} (>= {}.{})".format(name, *max(versions))] if versions else []
    return found


def member(name: str, data: bytes, second: int) -> bytes:
    """A member as `ar` writes it: a head of 60 bytes, and data of an even length."""
    head = f"{name:<16}{second:<12}{0:<6}{0:<6}{0o100644:<8o}{len(data):<10}`\n"
    return head.encode() + data + b"\n" * (len(data) % 2)
