"""Copies of the sources for tests: of the scripts alone, or of a release."""

import os
import shutil
import subprocess
from pathlib import Path

import built
from installing import version_of

# The sources of a release beside the scripts and clients at the top.
PARTS = ("docs", "examples", "LICENSE-MIT", "LICENSE-APACHE", "package", "install", "verify")
CLIENTS = ("bridge", "node", "wqasm", "watchdog", "watchman")
# The version of a package that an upgrade replaces.
OLDER = "0.9.0"


def bare(room: Path) -> None:
    """A copy of the scripts at the top, beside one crate of one file, in which nothing is built."""
    for name in ("install", "verify", "wq", "wqd", "CHANGELOG.md", "crates.txt"):
        shutil.copy(built.TOP / name, room / name)
    shutil.copytree(built.TOP / "contrib", room / "contrib")
    for package in ("wq", "wqclient", "wqprogram"):
        shutil.copytree(built.TOP / "clients" / package, room / "clients" / package)
    for part in ("src", "specs", "proofs"):
        (room / "crates" / "wqd" / part).mkdir(parents=True)
    (room / "crates" / "wqd" / "src" / "main.rt").write_text("fn main() {}\n")


def path_of(name: str) -> str:
    """The path of a command."""
    found = shutil.which(name)
    assert found is not None, name
    return found


def tools(room: Path) -> Path:
    """A directory with the commands that the scripts need, and no other."""
    directory = room / "bin"
    directory.mkdir()
    for name in (
        "sh dirname sed head tail find cat awk wc date mktemp rm touch env python3 cp mkdir mv grep sleep id "
        "sha256sum sort xargs cut cmp nproc"
    ).split():
        (directory / name).symlink_to(path_of(name))
    return directory


def sources_of(place: Path) -> str:
    """The checksum of the sources in a clone, as `./wqd --build` notes it."""
    script = '. "$top/contrib/prove.sh"; room=$(mktemp -d); copy_crates "$room" && sources "$room"; rm -rf "$room"'
    return built.call(["sh", "-c", script], env={**os.environ, "top": str(place)}).output.decode().strip()


def make_clone(place: Path) -> bytes:
    """The sources of a release, with the program in the place to which `./wqd --build` writes it."""
    bare(place)
    for name in PARTS:
        copy(built.TOP / name, place / name)
    for name in CLIENTS:
        copy(built.TOP / "clients" / name, place / "clients" / name)
    copy(built.TOP / "HANDLES", place / "HANDLES")
    for line in (place / "crates.txt").read_text().splitlines():
        if not line.startswith("#"):
            (place / "crates" / line.partition(":")[0] / "src").mkdir(parents=True, exist_ok=True)
    program = built.program_path().read_bytes()
    out = place / "crates" / "wqd" / "out"
    out.mkdir()
    (out / "wqd").write_bytes(program)
    (out / "wqd").chmod(0o755)
    return program


def copy(source: Path, target: Path) -> None:
    if target.exists():
        return
    if source.is_dir():
        shutil.copytree(source, target, ignore=shutil.ignore_patterns("__pycache__", "node_modules"))
    else:
        shutil.copy(source, target)


def older_package(room: Path) -> Path:
    """A package of these sources with the number of an earlier version."""
    place = room / "clone"
    place.mkdir()
    make_clone(place)
    changes = place / "CHANGELOG.md"
    changes.write_text(changes.read_text().replace(f"## {version_of(room)}", f"## {OLDER}", 1))
    environment = {"PATH": os.environ["PATH"], "HOME": str(place)}
    done = subprocess.run(
        [str(place / "package"), str(room / "old")], stdout=subprocess.PIPE, check=True, env=environment
    )
    return Path(done.stdout.decode().strip())
