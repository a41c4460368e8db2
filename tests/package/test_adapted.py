"""The adapters and the clients for tools: what ./install --adapters puts below a prefix, and the packages for npm and
pip that ./package --adapters makes."""

import base64
import hashlib
import json
import os
import shutil
import subprocess
import sys
import tarfile
import zipfile
from pathlib import Path
from typing import Dict, List

import built
from case import Case
from client import PATIENCE
from installing import FILES, call, listing, modes, version_of

NODE_PLACE, PYTHON_PLACE = "lib/node_modules/wqd-chokidar", "lib/wqd/python/wqd_watchdog"
NODE_CLIENT_PLACE, PYTHON_CLIENT_PLACE = "lib/node_modules/wqd-client", "lib/wqd/python/wqclient"
LAUNCHER = "bin/wqd-watchdog"
HELP = b"Runs a tool that watches files by Python's watchdog, and has wqd watch them."
API = "const {watch, FSWatcher} = require(process.argv[1]); console.log(typeof watch, typeof FSWatcher)"
CLIENT_API = "const c = require(process.argv[1]); console.log(typeof c.Session, typeof c.defaultSockname)"
OF_CLIENT = "import wqclient.client as c; print(c.__file__, hasattr(c.Client, 'ask'))"


OF_NODE = """
const {watch} = require(process.argv[2]);
watch(process.argv[3]).on('add', (path) => { console.log(path); process.exit(); });
"""

OF_PYTHON = """#!/usr/bin/python3
import os, sys
from watchdog.events import FileSystemEventHandler
from watchdog.observers.polling import PollingObserver

class Handler(FileSystemEventHandler):
    def on_created(self, event):
        print(type(observer).__name__, event.src_path, flush=True)
        os._exit(0)

observer = PollingObserver()
observer.schedule(Handler(), sys.argv[1])
observer.start()
open(os.path.join(sys.argv[1], "new"), "w").close()
observer.join(60)
"""


class Adapted(Case):
    def test_adapters(self) -> None:
        """Below ~/.local, where this Python looks for packages."""
        prefix = self.room / ".local"
        ended = call(self.room, "install", "--adapters")
        self.same("how ./install --adapters ends", ended.status, 0)
        expected = expected_files()
        self.same("the files of the adapters", modes(prefix, expected), expected)
        self.same("their version", version_in(prefix / NODE_PLACE), version_of(self.room))
        self.same("the launcher", head_of([str(prefix / LAUNCHER), "--help"], self.room), HELP)
        self.same("python3 -m", head_of([sys.executable, "-m", "wqd_watchdog", "--help"], self.room), HELP)
        self.same("the API for Node", api_of(prefix / NODE_PLACE), "function function\n")
        self.same("the client for Node", api_of(prefix / NODE_CLIENT_PLACE, CLIENT_API), "function function\n")
        said = f"{prefix / PYTHON_CLIENT_PLACE}/client.py True".encode()
        self.same("the client for Python", head_of([sys.executable, "-c", OF_CLIENT], self.room), said)
        call(self.room, "install")
        self.same("a later install keeps them", modes(prefix, expected), expected)
        call(self.room, "install", "--no-adapters")
        self.same("an install without them", modes(prefix, expected), {})
        self.same("and with all", call(self.room, "install", "--as-watchman", "--adapters").status, 0)
        call(self.room, "install")
        found = modes(prefix, {**expected, **FILES, "bin/watchman": 0o755})
        self.same("all files", found, {**expected, **FILES, "bin/watchman": 0o755})
        call(self.room, "install", "--remove")
        self.same("what --remove leaves", prefix.exists(), False)

    def test_adapters_elsewhere(self) -> None:
        """Below a prefix in which no Python looks for packages, the command runs all the same."""
        prefix = self.directory("a prefix")
        ended = call(self.room, "install", str(prefix), "--adapters")
        said = f"To import wqd_watchdog, set PYTHONPATH='{prefix}/lib/wqd/python'\n".encode()
        self.same("how it ends elsewhere", (ended.status, said in ended.output), (0, True))
        self.same("no line for a Python", list(prefix.rglob("*.pth")), [])
        link = self.room / "link"
        link.symlink_to(prefix / LAUNCHER)
        tree = self.directory("tree")
        for name in ("re", "runpy", "shlex", "shutil", "typing", "wqd_watchdog"):
            (tree / f"{name}.py").write_text("raise SystemExit(77)\n")
        self.same(
            "the launcher by a link, beside modules of others", head_of([str(link), "--help"], self.room, tree), HELP
        )
        call(self.room, "install", "--remove", str(prefix))
        self.same("what --remove leaves there", listing(prefix), [])

    def test_served_tools(self) -> None:
        """A tool of Node and one of Python hear of files by the installed server, which they start."""
        prefix, tree, runtime = self.room / "prefix", self.room / "tree", self.room / "runtime"
        tree.mkdir()
        runtime.mkdir(mode=0o700)
        (tree / "a").touch()
        call(self.room, "install", "--adapters", str(prefix))
        (self.room / "tool.js").write_text(OF_NODE)
        (self.room / "tool").write_text(OF_PYTHON)
        (self.room / "tool").chmod(0o755)
        kept = {name: os.environ[name] for name in ("LANG", "PYENV_VERSION") if name in os.environ}
        environment = {**kept, "PATH": os.environ["PATH"], "HOME": str(self.room), "XDG_RUNTIME_DIR": str(runtime)}

        def said(*words: object) -> bytes:
            ended = subprocess.run(
                [str(word) for word in words],
                env=environment,
                cwd=self.room,
                stdout=subprocess.PIPE,
                stderr=subprocess.PIPE,
                timeout=PATIENCE,
            )
            return ended.stdout or ended.stderr

        if shutil.which("node") is not None:
            found = said("node", self.room / "tool.js", prefix / NODE_PLACE, tree)
            self.same("a tool of Node", found, f"{tree}/a\n".encode())
            self.same("the server that it started", said(prefix / "bin" / "wq", "stop")[:14], b"wq: the server")
        if has_watchdog():
            found = said(prefix / LAUNCHER, self.room / "tool", tree)
            self.same("a tool of Python", found, f"WqdObserver {tree}/new\n".encode())
            self.same("the server that it started too", said(prefix / "bin" / "wq", "stop")[:14], b"wq: the server")
        else:
            print("left out: a tool that uses watchdog, since Debian's python3-watchdog is not installed")

    def test_packages_of_adapters(self) -> None:
        """They are the same whenever and by whomever they are made, and need no program."""
        first = made(self.room, "one")
        second = made(self.room, "two", SOURCE_DATE_EPOCH="7", WQD="/none", TZ="Asia/Tokyo")
        version = version_of(self.room)
        npm = [f"wqd-chokidar-{version}.tgz", f"wqd-client-{version}.tgz"]
        pip = [f"wqd_watchdog-{version}-py3-none-any.whl", f"wqclient-{version}-py3-none-any.whl"]
        self.same("their names", [path.name for path in first], [*npm, *pip])
        self.same("made twice", [path.read_bytes() for path in first], [path.read_bytes() for path in second])
        adapter = self.unpacked(first[0], NODE_PLACE)
        self.same("the API from the npm package", api_of(adapter), "function function\n")
        client = self.unpacked(first[1], NODE_CLIENT_PLACE)
        self.same("the API from the client's", api_of(client, CLIENT_API), "function function\n")
        self.check_wheel(first[2], PYTHON_PLACE)
        self.check_wheel(first[3], PYTHON_CLIENT_PLACE)
        self.check_by_pip(first[2], first[3])

    def unpacked(self, path: Path, place: str) -> Path:
        """A package that is as `npm pack` lays it out: all files are below package/, and none is of a user."""
        room = self.directory(path.stem)
        with tarfile.open(path) as archive:
            entries = archive.getmembers()
            archive.extractall(room)
        below = [entry.name for entry in entries if not entry.name.startswith("package/") or not entry.isfile()]
        self.same("entries that are no files of package/", below, [])
        owners = {(entry.uid, entry.gid, entry.uname, entry.gname, entry.mode, entry.mtime) for entry in entries}
        self.same("owners and times", owners, {(0, 0, "", "", 0o644, 499_162_500)})
        expected = {name.replace(place, "package") for name in expected_files() if name.startswith(f"{place}/")}
        self.same(f"files that {path.name} has not", expected - {entry.name for entry in entries}, set())
        self.same("the version in it", version_in(room / "package"), version_of(room))
        return room / "package"

    def check_wheel(self, path: Path, place: str) -> None:
        """The record says of each file what it is."""
        with zipfile.ZipFile(path) as archive:
            names = archive.namelist()
            data = {name: archive.read(name) for name in names}
            times = {info.date_time for info in archive.infolist()}
        self.same("times in the wheel", times, {(1980, 1, 1, 0, 0, 0)})
        record = names[-1]
        lines = data.pop(record).decode().splitlines()
        self.same("the record", lines, [line_of(name, data[name]) for name in names[:-1]] + [f"{record},,"])
        module = Path(place).name
        expected = {name.replace(place, module) for name in expected_files() if name.startswith(f"{place}/")}
        self.same(f"files that {path.name} has not", expected - set(names), set())

    def check_by_pip(self, adapter: Path, client: Path) -> None:
        """pip installs both without a network."""
        pip = [sys.executable, "-m", "pip"]
        if subprocess.run([*pip, "--version"], stdout=subprocess.DEVNULL, stderr=subprocess.DEVNULL).returncode != 0:
            self.skipTest("what pip makes of the wheel, since it is not installed")
        target = self.room / "target"
        words = ["install", "--no-index", "--no-deps", "--no-cache-dir", "--disable-pip-version-check", "--target"]
        command = [*pip, *words, str(target), str(adapter), str(client)]
        ended = subprocess.run(command, stdout=subprocess.PIPE, stderr=subprocess.STDOUT)
        self.same("pip", (ended.returncode, b"Successfully installed" in ended.stdout), (0, True))
        python = str(target)
        words = [sys.executable, "-m", "wqd_watchdog", "--help"]
        self.same("the module by pip", head_of(words, self.room, python=python), HELP)
        self.same(
            "the command by pip",
            head_of([str(target / "bin" / "wqd-watchdog"), "--help"], self.room, python=python),
            HELP,
        )
        said = f"{target}/wqclient/client.py True".encode()
        self.same("the client by pip", head_of([sys.executable, "-c", OF_CLIENT], self.room, python=python), said)


def has_watchdog() -> bool:
    """Whether Debian's Python has the library that tools watch by."""
    python = "/usr/bin/python3"
    command = [python, "-c", "import watchdog"]
    return os.access(python, os.X_OK) and subprocess.run(command, stderr=subprocess.DEVNULL).returncode == 0


def expected_files() -> Dict[str, int]:
    """The files of the adapters below a prefix that are named here by the sources alone."""
    node, python = built.TOP / "clients" / "node", built.TOP / "clients" / "watchdog" / "wqd_watchdog"
    names = [f"{NODE_PLACE}/{path.relative_to(node)}" for path in (node / "lib").rglob("*.js")]
    names += [f"{NODE_PLACE}/{name}" for name in ("index.js", "package.json", "LICENSE-MIT", "LICENSE-APACHE")]
    names += [f"{NODE_CLIENT_PLACE}/{name}" for name in ("client.js", "client.d.ts", "package.json", "lib/session.js")]
    names += [f"{PYTHON_PLACE}/{path.relative_to(python)}" for path in python.rglob("*.py")]
    client = [path.name for path in (built.TOP / "clients" / "wqclient").glob("*.py*")]
    names += [f"{place}/{name}" for place in (f"{PYTHON_PLACE}/wqclient", PYTHON_CLIENT_PLACE) for name in client]
    python_lib = f"lib/python{sys.version_info[0]}.{sys.version_info[1]}/site-packages/wqd_watchdog.pth"
    return {**dict.fromkeys([*names, python_lib], 0o644), LAUNCHER: 0o755}


def version_in(package: Path) -> str:
    return str(json.loads((package / "package.json").read_text())["version"])


def head_of(command: List[str], home: Path, at: Path = Path("/"), python: str = "") -> bytes:
    """The first line that a command prints in a directory, for somebody with this home and no settings for Python."""
    environment = {name: value for name, value in os.environ.items() if not name.startswith("PYTHON")}
    environment.update(HOME=str(home), **({"PYTHONPATH": python} if python else {}))
    ended = subprocess.run(command, cwd=at, env=environment, capture_output=True, timeout=PATIENCE)
    return ended.stdout.partition(b"\n")[0] or ended.stderr


def api_of(package: Path, asks: str = API) -> str:
    """The functions that Node reads from the package; as if it had, if there is no Node."""
    if shutil.which("node") is None:
        print("left out: what Node reads of its adapter, since it is not installed")
        return "function function\n"
    ended = subprocess.run(["node", "-e", asks, str(package)], cwd="/", stdout=subprocess.PIPE, timeout=PATIENCE)
    return ended.stdout.decode()


def made(room: Path, name: str, **variables: str) -> List[Path]:
    """The packages, in a directory of this name."""
    ended = call(room, "package", "--adapters", str(room / name), **variables)
    return [Path(line) for line in ended.output.decode().splitlines()]


def line_of(name: str, data: bytes) -> str:
    digest = base64.urlsafe_b64encode(hashlib.sha256(data).digest()).rstrip(b"=").decode()
    return f"{name},sha256={digest},{len(data)}"
