"""What ./install and ./package put below a prefix: the files, a server that the unit starts, and nothing after
removal."""

import gzip
import hashlib
import json
import os
import re
import shutil
import subprocess
import sys
import tarfile
import time
from io import BytesIO
from pathlib import Path
from typing import Dict

import built
from case import Case
from client import MALLOC, PATIENCE, VERSION
from installing import (
    FILES,
    LIST,
    OF_DEBIAN,
    UNIT,
    added_by,
    call,
    client_of,
    environment_of,
    in_debian,
    install_package,
    listing,
    members_of,
    modes,
    present,
    text_in_debian,
    version_of,
    words_of,
)


# Which modules that it does not need Python reads for `wq find`, from an archive.
READ = """import sys
sys.path.insert(0, sys.argv[1])
from wq.command import function_of
function_of("find")
late = {"subprocess", "hashlib", "difflib", "tempfile", "wqprogram.terms", "wq.errors", "wq.run"}
print(sorted(late & set(sys.modules)))
"""


class Installed(Case):
    def test_install(self) -> None:
        """A prefix with a blank in it, in which somebody else has a file."""
        prefix = self.room / "a prefix"
        (prefix / "share" / "man").mkdir(parents=True)
        (prefix / "share" / "man" / "other").write_text("mine")
        before = listing(prefix)
        for turn in ("", ", over an earlier one"):
            ended = call(self.room, "install", str(prefix))
            named = f"The variable WQD names the program {built.program_path()}: nobody checks whether it is proved.\n"
            self.same(f"what ./install says of it{turn}", ended.errors.decode(), named)
            printed = ended.output.decode().split("\n\n")[0].splitlines()
            self.same(
                f"the files that ./install tells of{turn}", sorted(printed), [str(prefix / path) for path in FILES]
            )
            self.same(f"the files of ./install{turn}", modes(prefix, FILES), FILES)
            self.same(
                f"how many files are there{turn}", len(listing(prefix)) - len(before), len(added_by(prefix, before))
            )
        self.check_server("installed", self.room, (prefix / UNIT).read_text())
        self.check_tool(prefix)
        self.check_wq(prefix, self.room)
        self.check_read(prefix)
        removed = call(self.room, "install", "--remove", str(prefix))
        self.same("how ./install --remove ends", (removed.status, removed.errors), (0, b""))
        self.same("what ./install --remove leaves", listing(prefix), before)
        again = call(self.room, "install", "--remove", str(prefix))
        nothing = f"install: nothing is installed below {prefix}\n".encode()
        self.same("a second one", (again.status, again.errors), (1, nothing))
        self.same("words that are wrong", call(self.room, "install", "--frob").status, 2)
        bad = call(self.room, "install", str(self.room / "a$b"))
        found = (bad.status, bad.errors.count(b"\n"), (self.room / "a$b").exists())
        self.same("a prefix that no unit can name", found, (1, 1, False))

    def check_tool(self, prefix: Path) -> None:
        """The tool for programs is one file, which runs without the repository and from any directory."""
        command = [str(prefix / "bin" / "wqasm"), "assemble", str(built.TOP / "examples" / "large.wqasm")]
        found = built.call(command, cwd="/")
        expected = (built.TOP / "examples" / "large.program").read_bytes()
        self.same("the installed tool", found, built.Ended(expected, b"", 0))

    def check_wq(self, prefix: Path, room: Path) -> None:
        """The installed wq starts the installed server, asks it from any directory, and ends it."""
        runtime = room / "wq runtime"
        runtime.mkdir(mode=0o700)
        names = ("PATH", "LANG", "PYENV_VERSION")
        environment = {name: os.environ[name] for name in names if name in os.environ}
        environment.update(HOME=str(room), XDG_RUNTIME_DIR=str(runtime))

        def wq(*words: str) -> built.Ended:
            command = [str(prefix / "bin" / "wq"), *words]
            return built.call(command, cwd="/", env=environment, timeout=PATIENCE)

        started = f"wq: started a server at {runtime}/wqd.sock\n".encode()
        self.same(
            "the installed wq", wq("find", str(room / "root")), built.Ended(f"{room}/root/a.c\n".encode(), started, 0)
        )
        facts = json.loads(wq("status", "--json").output)
        program = str((prefix / "lib" / "wqd" / "wqd").resolve())
        found = (facts["program"], facts["version"], facts["roots"])
        self.same("its status", found, (program, f"wqd {version_of(room)}", []))
        self.same("its version", wq("--version").output, f"wq {version_of(room)}\n".encode())
        ended = f"wq: the server at {runtime}/wqd.sock has ended\n".encode()
        self.same("its end", wq("stop"), built.Ended(b"", ended, 0))
        other = room / "another program"
        other.write_text(f'#!/bin/sh\ntouch "$HOME/other"\nexec "{program}" "$@"\n')
        other.chmod(0o755)
        environment["WQD"] = str(other)
        self.same("the program of WQD", (wq("start").status, (room / "other").exists()), (0, True))
        self.same("its end too", wq("stop").status, 0)
        nobody = f"wq: no server listens on {runtime}/wqd.sock; `wq start` starts one\n".encode()
        self.same("another end", wq("stop"), built.Ended(b"", nobody, 1))

    def check_read(self, prefix: Path) -> None:
        """The installed wq starts quickly: each module is read only if it is needed."""
        read = subprocess.run(
            [sys.executable, "-I", "-S", "-c", READ, str(prefix / "bin" / "wq")], stdout=subprocess.PIPE
        )
        self.same("modules that the installed wq reads", read.stdout, b"[]\n")

    def test_default_prefix(self) -> None:
        """Without a prefix it is ~/.local, and the unit is the file of contrib/ as it is. The prefix may not be there
        before."""
        self.same("how ./install ends", call(self.room, "install").status, 0)
        prefix = self.room / ".local"
        unit = (prefix / UNIT).read_text()
        self.same("the unit for ~/.local", unit, (built.TOP / "contrib" / "wqd.service").read_text())
        self.check_server("installed at home", self.room, unit)
        link = self.room / "link"
        link.symlink_to(prefix / "bin" / "wqd")
        version = subprocess.run([link, "--version"], stdout=subprocess.PIPE).stdout
        self.same("a link to the command", version, call(self.room, "wqd", "--version").output)
        script = subprocess.run([link, "replay"], input=b'ask 1 ["version"]\n', stdout=subprocess.PIPE).stdout
        self.same("the program by a link", script, b'1 {"version":"wq-1"}\n')
        call(self.room, "install", "--remove")
        self.same("a prefix that was made", prefix.exists(), False)

    def test_as_watchman(self) -> None:
        """With --as-watchman there is a command watchman that starts the installed server. It replaces none of
        others."""
        prefix = self.room / "prefix"
        (prefix / "bin").mkdir(parents=True)
        (prefix / "bin" / "watchman").write_text("of others")
        refused = call(self.room, "install", "--as-watchman", str(prefix))
        self.same(
            "a watchman of others stays", (refused.status, (prefix / "bin" / "watchman").read_text()), (1, "of others")
        )
        (prefix / "bin" / "watchman").unlink()
        self.same(
            "how ./install --as-watchman ends", call(self.room, "install", "--as-watchman", str(prefix)).status, 0
        )
        environment = {**os.environ, "WATCHMAN_SOCK": str(self.room / "socket")}
        for name in ("WQD", "WQD_SOCK"):
            environment.pop(name, None)
        found = [
            subprocess.run(
                [prefix / "bin" / "watchman", "--no-pretty", word], stdout=subprocess.PIPE, env=environment
            ).stdout
            for word in ("get-sockname", "shutdown-server")
        ]
        self.same(
            "what the installed watchman says",
            [json.loads(line) for line in found],
            [
                {"sockname": str(self.room / "socket"), "version": "4.9.0"},
                {"shutdown-server": True, "version": "4.9.0"},
            ],
        )
        self.same("how ./install --remove ends after it", call(self.room, "install", "--remove", str(prefix)).status, 0)
        self.same("and leaves nothing of it", [name for name, _ in listing(prefix)], ["bin"])

    def test_package(self) -> None:
        """The package has the files of ./install. It is installed below a directory, by dpkg if that is there."""
        ended = call(self.room, "package", str(self.room / "out"), SOURCE_DATE_EPOCH="1000000000")
        path = Path(ended.output.decode().strip())
        self.same("the name of the package", path.name, f"wqd_{version_of(self.room)}_amd64.deb")
        call(self.room, "install", str(self.room / "prefix"))
        (self.room / "prefix" / LIST).unlink()
        self.check_members(path, self.room / "prefix")
        self.check_control(members_of(path)["control.tar.gz"])
        self.check_by_lintian(self.room)
        directory = self.room / "directory"
        remove = install_package(path, directory)
        expected = {in_debian(path): mode for path, mode in FILES.items() if path != LIST}
        expected.update({path: 0o644 for path in OF_DEBIAN})
        self.same("the files of the package", modes(directory / "usr", expected), expected)
        unit = (directory / "usr" / in_debian(UNIT)).read_text()
        self.same("the unit of the package", 'ExecStart="/usr/bin/wqd" serve' in unit, True)
        self.check_server("of the package", self.room, unit.replace("/usr/bin/wqd", f"{directory}/usr/bin/wqd"))
        self.check_commands(directory / "usr" / "bin")
        remove()
        self.same("what a removed package leaves", (directory / "usr").exists(), False)

    def check_commands(self, directory: Path) -> None:
        """The commands in Python run too, whose first line is another one than that of ./install."""
        for name in ("wq", "wqasm"):
            ended = built.call([sys.executable, "-I", str(directory / name), "--help"], cwd="/")
            self.same(f"{name} --help of the package", (ended.status, ended.errors), (0, b""))

    def check_by_lintian(self, room: Path) -> None:
        """Debian's own check of packages finds no error, and nothing to warn of."""
        if shutil.which("lintian") is None:
            self.skipTest("what lintian says of the package, since it is not installed")
        ended = call(room, "package", str(room / "named"), DEBFULLNAME="Somebody", DEBEMAIL="somebody@example.com")
        command = ["lintian", "--allow-root", ended.output.decode().strip()]
        found = subprocess.run(command, stdout=subprocess.PIPE, stderr=subprocess.STDOUT)
        self.same("what lintian says", (found.returncode, found.stdout.decode()), (0, ""))

    def check_members(self, package: Path, prefix: Path) -> None:
        """The archive of files, as Python reads it, against the files of ./install; all are root's, and of the second
        given."""
        members = members_of(package)
        self.same("the members of a package", list(members), ["debian-binary", "control.tar.gz", "data.tar.gz"])
        with tarfile.open(fileobj=BytesIO(members["data.tar.gz"])) as archive:
            entries = archive.getmembers()
            found = {entry.name: present(archive.extractfile(entry)).read() for entry in entries if entry.isfile()}
        installed = {
            f"./usr/{in_debian(path)}": text_in_debian(path, (prefix / path).read_bytes())
            for path in FILES
            if path not in (LIST, UNIT)
        }
        self.check_sums(members, found)
        for name in (in_debian(UNIT), *OF_DEBIAN):
            found.pop(f"./usr/{name}")
        found = {name: gzip.decompress(data) if name.endswith(".gz") else data for name, data in found.items()}
        self.check(
            "a package has what ./install writes", found == installed, [f"{sorted(found)}", f"{sorted(installed)}"]
        )
        owners = {(entry.uid, entry.gid, entry.uname, entry.gname, entry.mtime) for entry in entries}
        self.same("the owner and the second", owners, {(0, 0, "root", "root", 1_000_000_000)})

    def check_control(self, data: bytes) -> None:
        """It depends on the versions of the libraries that the program asks for."""
        with tarfile.open(fileobj=BytesIO(data)) as archive:
            lines = present(archive.extractfile("./control")).read().decode().splitlines()
        depends = next(line for line in lines if line.startswith("Depends: "))
        shape = r"Depends: libc6 \(>= 2\.\d+\)(, libgcc-s1 \(>= \d+\.\d+\))?, python3 \(>= 3\.9\)"
        self.check("what it depends on", re.fullmatch(shape, depends), [depends])
        if shutil.which("objdump"):
            said = subprocess.run(["objdump", "-T", str(built.program_path())], stdout=subprocess.PIPE).stdout.decode()
            newest = max(int(minor) for minor in re.findall(r"GLIBC_2\.(\d+)", said))
            self.check("glibc's version", f"libc6 (>= 2.{newest})" in depends, [depends])

    def check_sums(self, members: Dict[str, bytes], found: Dict[str, bytes]) -> None:
        """The checksums of the package are those of its files."""
        with tarfile.open(fileobj=BytesIO(members["control.tar.gz"])) as archive:
            lines = present(archive.extractfile("./md5sums")).read().decode().splitlines()
        sums = {f"./{name}": checksum for checksum, _, name in (line.partition("  ") for line in lines)}
        self.same("checksums", sums, {name: hashlib.md5(data).hexdigest() for name, data in found.items()})

    def check_server(self, name: str, room: Path, unit: str) -> None:
        """A server that the line of a unit starts: its socket, its two numbers, its environment, an answer, and its
        end."""
        runtime = room / "runtime"
        runtime.mkdir(mode=0o700, exist_ok=True)
        root = room / "root"
        root.mkdir(exist_ok=True)
        (root / "a.c").touch()
        began = int(time.time())
        environment = {"PATH": os.environ["PATH"], "HOME": str(room)}
        server = subprocess.Popen(words_of(unit, room, runtime), stderr=subprocess.DEVNULL, env=environment)
        try:
            with client_of(server, runtime / "wqd.sock") as client:
                client.ask("watch", str(root))
                reply = client.ask("query", str(root), {"fields": ["name"]})
                _, start, pid, _, _ = reply["clock"].split(":")
                is_named = began <= int(start) <= began + PATIENCE and int(pid) == server.pid
                self.same(f"{name}: the numbers of the run", is_named, True)
                self.same(f"{name}: the files", reply["files"], ["a.c"])
                self.same(f"{name}: the environment", MALLOC.items() <= environment_of(server).items(), True)
                self.same(f"{name}: its end", client.ask("shutdown-server"), {"shutdown-server": True, **VERSION})
            self.same(f"{name}: its status", server.wait(PATIENCE), 0)
        finally:
            server.kill()
            server.wait()
