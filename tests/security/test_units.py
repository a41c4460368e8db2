"""The unit for systemd, and the lines with which SERVER narrows it."""

import re
import shutil
import subprocess
import sys
from pathlib import Path
from typing import List, Set

import built
from case import Beside, needs
from client import PATIENCE, Server
from waiting import wait_until

# What a user that the lines narrow to calls of the system may call, as systemd names them.
FILTER = "@system-service"
# Gives up new privileges, and memory that is written and executed, as two of the lines do; then becomes the server.
HARDENED = """
import ctypes, os, sys
call = ctypes.CDLL(None).prctl
if call(38, 1, 0, 0, 0) or call(65, 1, 0, 0, 0):
    sys.exit("the kernel is too old")
os.execv(sys.argv[1], sys.argv[1:])
"""


def strict_lines() -> str:
    """The second unit on the page."""
    page = (built.TOP / "docs" / "SERVER.md").read_text()
    return re.findall(r"^```ini\n(.*?)^```$", page, re.DOTALL | re.MULTILINE)[1]


class Units(Beside):
    def test_units(self) -> None:
        """systemd takes each line, alone and with those that narrow it."""
        unit = (built.TOP / "contrib" / "wqd.service").read_text()
        for line in (
            "LimitNOFILE=4096:524288",
            "TasksMax=4096",
            "MemoryMax=80%",
            "OOMPolicy=continue",
            "RestartPreventExitStatus=1 2",
        ):
            self.same(f"the unit has {line}", f"\n{line}\n" in unit, True)
        if shutil.which("systemd-analyze") is None:
            self.skipTest("what systemd says of the unit, since it is not installed")
        path = self.room / "wqd.service"
        path.write_text(unit.replace("%h/.local/bin/wqd", "/bin/true"))
        self.same("the unit", said_of(path), "")
        (self.room / "wqd.service.d").mkdir()
        (self.room / "wqd.service.d" / "strict.conf").write_text(strict_lines())
        self.same("with the lines that narrow it", said_of(path), "")
        analyzed = subprocess.run(
            ["systemd-analyze", "security", "--offline=true", str(path)],
            stdout=subprocess.PIPE,
            stderr=subprocess.DEVNULL,
            timeout=PATIENCE,
        )
        level = re.search(r"exposure level for wqd.service: ([0-9.]+)", analyzed.stdout.decode())
        if level is not None:
            self.check("how exposed it is", float(level[1]) < 3, [level[0]])

    @needs("strace", "systemd-analyze")
    def test_calls(self) -> None:
        """The server makes no call of the system that these lines forbid."""
        trace = self.room / "trace"
        (self.room / "root").mkdir()
        (self.room / "root" / "a.c").touch()
        with Server(
            self.room, 50, through=["strace", "-f", "-qq", "-o", str(trace)], workers=2
        ) as server, server.client() as client:
            client.ask("watch", str(self.room / "root"))
            client.ask("query", str(self.room / "root"), {"fields": ["name"]})
            client.ask("subscribe", str(self.room / "root"), "s", {"fields": ["name"]})
            client.reply()
            (self.room / "root" / "b.c").touch()
            client.reply()
            client.ask("shutdown-server")
            server.process.wait(PATIENCE)
        made = set(re.findall(r"^[0-9]+ +([a-z_0-9]+)\(", trace.read_text(), re.MULTILINE))
        self.same("calls that are forbidden", sorted(made - allowed(FILTER)), [])
        self.same("calls that were seen", {"socket", "accept4", "getdents64"} <= made, True)

    def test_hardened(self) -> None:
        """Neither the server nor a trigger needs new privileges, or memory that is written and executed."""
        wrapped = [sys.executable, "-c", HARDENED]
        if subprocess.run([*wrapped, "/bin/true"], stderr=subprocess.DEVNULL).returncode != 0:
            self.skipTest("the kernel does not refuse such memory")
        root, out = self.room / "root", self.room / "out"
        root.mkdir()
        command = ["/bin/sh", "-c", f"cat > {out}"]
        trigger = {"name": "t", "command": command, "stdin": ["name"], "expression": ["suffix", "c"]}
        with Server(self.room, 50, through=wrapped) as server, server.client() as client:
            client.ask("watch", str(root))
            client.ask("trigger", str(root), trigger)
            (root / "a.c").touch()
            wait_until(lambda: out.exists() and out.read_text() == '["a.c"]\n')
        self.same("what the command got", out.read_text(), '["a.c"]\n')


def said_of(path: Path) -> str:
    ended = subprocess.run(
        ["systemd-analyze", "verify", "--man=no", str(path)],
        stdout=subprocess.PIPE,
        stderr=subprocess.STDOUT,
        timeout=PATIENCE,
    )
    return ended.stdout.decode()


def allowed(name: str) -> Set[str]:
    """The calls of a set of systemd, and of those in it."""
    listed = subprocess.run(
        ["systemd-analyze", "syscall-filter", name], stdout=subprocess.PIPE, check=True
    ).stdout.decode()
    lines: List[str] = [line.strip() for line in listed.splitlines()[1:]]
    found = {line for line in lines if line and line[0] not in "#@"}
    for inner in (line for line in lines if line.startswith("@")):
        found |= allowed(inner)
    return found
