"""The packages for npm and pip: the adapters for tools that poll by other libraries, wqd-chokidar and wqd_watchdog, and
the clients for tools of one's own, wqd-client and wqclient. As files below a prefix for `./install`, and as archives,
which are the same on every machine."""

import base64

import hashlib
import io
import json
import os
import re
import site
import stat
import tarfile
import zipfile
from pathlib import Path
from typing import List, NamedTuple, Optional

from files import TOP, File, compressed, text, version

NODE, PYTHON = "wqd-chokidar", "wqd_watchdog"
NODE_CLIENT, PYTHON_CLIENT = "wqd-client", "wqclient"
# Below a prefix: the directory of npm's own packages, and one that no other Python looks into by itself.
NODE_PLACE, PYTHON_PLACE = f"lib/node_modules/{NODE}", "lib/wqd/python"
NODE_CLIENT_PLACE = f"lib/node_modules/{NODE_CLIENT}"
LICENCES = ("LICENSE-APACHE", "LICENSE-MIT")
VERSION = re.compile(r'^(  "version": )"[^"]*"', re.M)
# npm gives each file of a package this time, so that a package depends on its files alone.
NPM_TIME = 499_162_500
# The first time that an archive of this kind can have.
ZIP_TIME = (1980, 1, 1, 0, 0, 0)
# What such an archive calls a system whose files have modes.
UNIX = 3
LAUNCHER = """#!/bin/sh
# Runs a tool with wqd in the place of Python's watchdog: wqd-watchdog mkdocs serve
exec python3 "$(dirname "$(readlink -f "$0")")/../{place}/{package}" "$@"
"""
SCRIPT = """#!python
import sys

from wqd_watchdog.command import main

sys.exit(main(sys.argv[1:]))
"""
METADATA = """Metadata-Version: 2.1
Name: {name}
Version: {version}
Summary: {summary}
License: MIT OR Apache-2.0
Requires-Python: >=3.9
"""
WHEEL = """Wheel-Version: 1.0
Generator: wqd ({version})
Root-Is-Purelib: true
Tag: py3-none-any
"""


class Wheel(NamedTuple):
    """A package for pip: its name as a module and for pip, what it is for, what it needs, its files and commands."""

    module: str
    name: str
    summary: str
    needs: List[str]
    files: List[File]
    commands: List[File]


def node_files(about: str = "clients/node/package.json") -> List[File]:
    """The files of a package for Node, by their paths in it. Its package.json says which these are: those beside it, or
    else in `clients/node`."""
    home = TOP / "clients" / "node"
    written = text(about)
    found = {"package.json": VERSION.sub(rf'\1"{version()}"', written).encode()}
    for name in json.loads(written)["files"]:
        beside = (TOP / about).parent / name
        given = beside if beside.exists() else home / name
        for path in sorted(given.rglob("*")) if given.is_dir() else [given]:
            if path.is_file():
                found[str(path.relative_to(given.parent if given == beside else home))] = path.read_bytes()
    found.update({name: text(name).encode() for name in LICENCES})
    return [File(path, 0o644, data) for path, data in found.items()]


def node_client_files() -> List[File]:
    """The files of the client for Node, which the adapter has too."""
    return node_files("clients/node/client/package.json")


def python_files() -> List[File]:
    """The files of the adapter for Python, by their paths beside other packages. It has the client of wqd in it."""
    home = TOP / "clients" / "watchdog" / PYTHON
    modules = {f"{PYTHON}/{module.relative_to(home)}": module for module in sorted(home.rglob("*.py"))}
    # A link leads there, which is not followed.
    found = [File(name, 0o644, module.read_bytes()) for name, module in modules.items()]
    return [*found, *(File(f"{PYTHON}/{file.path}", file.mode, file.data) for file in python_client_files())]


def python_client_files() -> List[File]:
    """The files of the client for Python, by their paths beside other packages."""
    home = TOP / "clients" / PYTHON_CLIENT
    modules: List[Path] = [*sorted(home.glob("*.py")), home / "py.typed"]
    return [File(f"{PYTHON_CLIENT}/{module.name}", 0o644, module.read_bytes()) for module in modules]


def files_of_adapters(prefix: str) -> List[File]:
    """The files of `./install --adapters`. A Python that looks for packages below the prefix gets a line that leads
    on."""
    found = [File(f"{NODE_PLACE}/{file.path}", file.mode, file.data) for file in node_files()]
    found += [File(f"{NODE_CLIENT_PLACE}/{file.path}", file.mode, file.data) for file in node_client_files()]
    modules = [*python_files(), *python_client_files()]
    found += [File(f"{PYTHON_PLACE}/{file.path}", file.mode, file.data) for file in modules]
    launcher = LAUNCHER.format(place=PYTHON_PLACE, package=PYTHON)
    found.append(File("bin/wqd-watchdog", 0o755, launcher.encode()))
    packages = packages_below(prefix)
    if packages is not None:
        line = os.path.relpath(PYTHON_PLACE, packages)
        found.append(File(f"{packages}/{PYTHON}.pth", 0o644, f"{line}\n".encode()))
    return found


def packages_below(prefix: str) -> Optional[str]:
    """The path below the prefix where this Python looks for packages, if it does."""
    for directory in (site.getusersitepackages(), *site.getsitepackages()):
        path = os.path.relpath(directory, prefix)
        if path.startswith("lib/"):
            return path
    return None


def npm_package(files: List[File]) -> bytes:
    """An archive as `npm pack` makes it: all files are below `package/`."""
    written = io.BytesIO()
    with tarfile.open(fileobj=written, mode="w", format=tarfile.USTAR_FORMAT) as tar:
        for file in files:
            info = tarfile.TarInfo(f"package/{file.path}")
            info.mode, info.size, info.mtime = file.mode, len(file.data), NPM_TIME
            tar.addfile(info, io.BytesIO(file.data))
    return compressed(written.getvalue())


def wheels() -> List[Wheel]:
    adapter = "An observer for watchdog that asks wqd, a file watch server"
    client = "A client of wqd, a file watch server: which files changed since you last asked"
    command = File("wqd-watchdog", 0o755, SCRIPT.encode())
    return [
        Wheel(PYTHON, "wqd-watchdog", adapter, ["watchdog"], python_files(), [command]),
        Wheel(PYTHON_CLIENT, PYTHON_CLIENT, client, [], python_client_files(), []),
    ]


def wheel(package: Wheel) -> bytes:
    """An archive as pip installs it: the modules, the commands, and what is said of these."""
    home = f"{package.module}-{version()}"
    about = METADATA.format(name=package.name, version=version(), summary=package.summary)
    about += "".join(f"Requires-Dist: {name}\n" for name in package.needs)
    found = package.files + [
        *(File(f"{home}.data/scripts/{file.path}", file.mode, file.data) for file in package.commands),
        *(File(f"{home}.dist-info/{name}", 0o644, text(name).encode()) for name in LICENCES),
        File(f"{home}.dist-info/METADATA", 0o644, about.encode()),
        File(f"{home}.dist-info/WHEEL", 0o644, WHEEL.format(version=version()).encode()),
    ]
    record = f"{home}.dist-info/RECORD"
    lines = [f"{file.path},sha256={digest(file.data)},{len(file.data)}\n" for file in found] + [f"{record},,\n"]
    written = io.BytesIO()
    with zipfile.ZipFile(written, "w", zipfile.ZIP_DEFLATED) as archive:
        for file in [*found, File(record, 0o644, "".join(lines).encode())]:
            info = zipfile.ZipInfo(file.path, ZIP_TIME)
            info.compress_type, info.create_system = zipfile.ZIP_DEFLATED, UNIX
            info.external_attr = (stat.S_IFREG | file.mode) << 16
            archive.writestr(info, file.data)
    return written.getvalue()


def digest(data: bytes) -> str:
    return base64.urlsafe_b64encode(hashlib.sha256(data).digest()).rstrip(b"=").decode()


def packages() -> List[File]:
    """The four packages, by their names."""
    found = [(NODE, node_files()), (NODE_CLIENT, node_client_files())]
    npm = [File(f"{name}-{version()}.tgz", 0o644, npm_package(files)) for name, files in found]
    return npm + [File(f"{one.module}-{version()}-py3-none-any.whl", 0o644, wheel(one)) for one in wheels()]
