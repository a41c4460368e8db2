"""The packages of the clients. What cannot be installed beside what the machine has is unpacked, and laid over /usr for
the clients alone."""

import os
import subprocess
import sys
import tempfile
from pathlib import Path
from typing import Dict, List, Optional

# The distribution's own Python, for which pywatchman is built.
PYTHON = "/usr/bin/python3"
STATUS = "/var/lib/dpkg/status"
# Packages for Node.js need that of the distribution, which another one on the machine keeps away.
NODE = "nodejs"
OF_NODE = ("node-", "jest")
# Debian's Node.js says where it looks for packages.
NODE_IS_DEBIANS = "process.exit(process.config.variables.node_relative_path ? 0 : 1)"
OVER_USR = 'mount -t overlay overlay -o lowerdir="$1":/usr /usr && shift && exec "$@"'


def is_installed(package: str) -> bool:
    said = subprocess.run(
        ["dpkg-query", "-W", "-f", "${Status}", package], stdout=subprocess.PIPE, stderr=subprocess.DEVNULL
    )
    return said.stdout == b"install ok installed"


def version_of(package: str) -> str:
    """The version that is installed, or that would be."""
    said = subprocess.run(["apt-cache", "policy", package], stdout=subprocess.PIPE, stderr=subprocess.DEVNULL)
    lines = [line.split() for line in said.stdout.decode().splitlines()]
    found = {words[0]: words[1] for words in lines if len(words) == 2}
    version = found.get("Installed:", "(none)")
    return found.get("Candidate:", "?") if version == "(none)" else version


def is_of_node(package: str) -> bool:
    return package.startswith(OF_NODE)


def is_about_node(package: str) -> bool:
    return package == NODE or is_of_node(package)


def has_another_node() -> bool:
    """Whether there is a Node.js of others than the distribution."""
    try:
        return subprocess.run(["/usr/bin/node", "-e", NODE_IS_DEBIANS], stderr=subprocess.DEVNULL).returncode != 0
    except OSError:
        return False


def name_in(entry: str) -> str:
    """The package that an entry of dpkg's list is of."""
    return entry.split("\n", 1)[0].partition(": ")[2]


class Packages:
    """Installs packages, or unpacks them into a directory."""

    def __init__(self, room: Path) -> None:
        self.room = room
        self.unpacked: Optional[Path] = None
        self.faults: Dict[str, str] = {}

    def need(self, packages: List[str]) -> None:
        """Sees to it that the packages can be used. A fault is kept, and told by `fault_of`."""
        apart = [package for package in packages if is_of_node(package) and has_another_node()]
        missing = [package for package in packages if package not in apart and not is_installed(package)]
        if missing:
            print(f"installing {' '.join(missing)}", file=sys.stderr, flush=True)
            self.install(missing)
        fault = self.unpack(apart) if apart else None
        if fault:
            self.faults.update(dict.fromkeys(apart, fault))

    def install(self, packages: List[str]) -> None:
        ended = subprocess.run(
            ["apt-get", "install", "-y", *packages], stdout=subprocess.PIPE, stderr=subprocess.STDOUT
        )
        if ended.returncode != 0:
            reason = ended.stdout.decode("utf-8", "replace").splitlines()[-1]
            self.faults.update(dict.fromkeys(packages, reason))

    def fault_of(self, package: str) -> Optional[str]:
        return self.faults.get(package)

    def unpack(self, packages: List[str]) -> Optional[str]:
        """Unpacks the packages and all that they need, as if this machine had nothing of Node.js; the reason if that
        fails."""
        print(f"unpacking {' '.join(packages)} beside another Node.js", file=sys.stderr, flush=True)
        archives = self.room / "archives"
        fetched = self.fetch(packages, archives)
        if fetched.returncode != 0:
            return fetched.stdout.decode("utf-8", "replace").splitlines()[-1]
        root = self.room / "root"
        for archive in sorted(archives.glob("*.deb")):
            subprocess.run(["dpkg-deb", "-x", str(archive), str(root)], check=True)
        self.unpacked = root / "usr"
        if subprocess.run(self.words(["true"]), stderr=subprocess.DEVNULL).returncode != 0:
            self.unpacked = None
            return "it cannot be laid over /usr, which only the superuser may do"
        return None

    def fetch(self, packages: List[str], archives: Path) -> "subprocess.CompletedProcess[bytes]":
        """Fetches the archives of the packages and of all that they need."""
        (archives / "partial").mkdir(parents=True)
        status = self.room / "status"
        known = Path(STATUS).read_text(encoding="utf-8").split("\n\n")
        status.write_text("\n\n".join(entry for entry in known if not is_about_node(name_in(entry))))
        command = ["apt-get", "-y", "--download-only", "--no-install-recommends"]
        command += ["-o", f"Dir::State::status={status}", "-o", f"Dir::Cache::archives={archives}"]
        command += ["-o", f"Dir::Etc::PreferencesParts={self.room}", "install", NODE, *packages]
        return subprocess.run(command, stdout=subprocess.PIPE, stderr=subprocess.STDOUT)

    def words(self, command: List[str]) -> List[str]:
        """The command, run where the packages are."""
        if self.unpacked is None:
            return command
        return ["unshare", "-m", "sh", "-c", OVER_USR, "sh", str(self.unpacked), *command]


def rooms() -> "tempfile.TemporaryDirectory[str]":
    """A directory for one client. It has a short path, since sockets are in it."""
    return tempfile.TemporaryDirectory(prefix="wqd-", dir=os.environ.get("TMPDIR", "/tmp"))
