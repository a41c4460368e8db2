"""Debian's base in a directory, booted by systemd-nspawn: a machine with a real service manager."""

import shutil
import subprocess
import time
from pathlib import Path
from typing import List, NamedTuple

RELEASE, MIRROR = "bookworm", "http://deb.debian.org/debian"
# The base has systemd with the managers of users; the others are what a person has who tries wqd.
BASE = ["systemd-sysv", "dbus-user-session", "libpam-systemd", "python3", "man-db", "git", "bash-completion", "fish"]
# Commands of triggers may use these, and lines of the unit could take them away.
BESIDE = ["sudo", "uidmap", "iputils-ping", "nodejs", "strace"]
USER = "stranger"
# In seconds: until it has booted, and until a command has ended.
BOOT, PATIENCE = 120.0, 300.0
GROUPS, NAME = Path("/sys/fs/cgroup"), "wqd-machine"
# Without systemd outside nobody can be asked for a control group.
ALONE = [] if Path("/run/systemd/system").is_dir() else ["--register=no", "--keep-unit"]


class Ended(NamedTuple):
    output: str
    errors: str
    status: int


def make_base(base: Path) -> None:
    """Takes Debian's base from the network, with a user who may become the superuser."""
    if base.exists():
        return
    making = base.with_name(f"{base.name}.part")
    shutil.rmtree(making, ignore_errors=True)
    subprocess.run(["debootstrap", "--variant=minbase", RELEASE, str(making), MIRROR], check=True)
    for command in (
        ["apt-get", "install", "--yes", "--no-install-recommends", *BASE, *BESIDE],
        ["useradd", "--create-home", "--shell", "/bin/bash", USER],
    ):
        subprocess.run(["chroot", str(making), *command], check=True)
    (making / "etc" / "sudoers.d" / USER).write_text(f"{USER} ALL=(ALL) NOPASSWD: ALL\n")
    making.rename(base)


class Machine:
    """A copy of the base that has booted. At its end the directory is removed."""

    def __init__(self, base: Path, root: Path) -> None:
        self.root = root
        shutil.rmtree(root, ignore_errors=True)
        subprocess.run(["cp", "-a", "--reflink=auto", str(base), str(root)], check=True)
        self.boot()

    def boot(self) -> None:
        command = [
            "systemd-nspawn",
            "--quiet",
            *ALONE,
            f"--machine={NAME}",
            "-D",
            str(self.root),
            "--boot",
            "--console=pipe",
        ]
        joined = "".join(f"echo $$ > '{group}/cgroup.procs'; " for group in groups() if ALONE)
        self.process = subprocess.Popen(
            ["sh", "-c", joined + 'exec "$@"', "sh", *command],
            stdin=subprocess.DEVNULL,
            stdout=subprocess.DEVNULL,
            stderr=subprocess.DEVNULL,
        )
        end = time.monotonic() + BOOT
        while self.call("root", "systemctl is-system-running").output.strip() not in ("running", "degraded"):
            if time.monotonic() > end or self.process.poll() is not None:
                raise OSError("the machine does not boot")
            time.sleep(1)

    def call(self, user: str, line: str) -> Ended:
        """Runs a line of bash in a login session of a user."""
        leader = children_of(self.process.pid)
        if not leader:
            return Ended("", "it does not run", 1)
        session = [
            "systemd-run",
            "--quiet",
            "--pipe",
            "--wait",
            "--collect",
            "-p",
            "PAMName=login",
            "-p",
            f"User={user}",
            "-p",
            "WorkingDirectory=~",
            "/bin/bash",
            "-lc",
            line,
        ]
        command = ["nsenter", "-t", leader[0], "-m", "-u", "-i", "-n", "-p", "-C", *session]
        ended = subprocess.run(
            command, stdin=subprocess.DEVNULL, stdout=subprocess.PIPE, stderr=subprocess.PIPE, timeout=PATIENCE
        )
        return Ended(ended.stdout.decode("utf-8", "replace"), ended.stderr.decode("utf-8", "replace"), ended.returncode)

    def end(self) -> None:
        self.call("root", "systemctl poweroff")
        try:
            self.process.wait(BOOT)
        finally:
            self.process.kill()
            self.process.wait()
            shutil.rmtree(f"/run/systemd/nspawn/propagate/{NAME}", ignore_errors=True)

    def reboot(self) -> None:
        self.end()
        self.boot()

    def __enter__(self) -> "Machine":
        return self

    def __exit__(self, *_: object) -> None:
        self.end()
        shutil.rmtree(self.root)
        for group in groups():
            subprocess.run(
                ["find", str(group), "-depth", "-type", "d", "-exec", "rmdir", "{}", "+"], stderr=subprocess.DEVNULL
            )


def groups() -> List[Path]:
    """A control group of its own in each hierarchy of systemd, made if it is not there."""
    found = [GROUPS / name for name in ("systemd", "unified") if (GROUPS / name / "cgroup.procs").exists()]
    made = [above / NAME for above in found or [GROUPS]]
    for group in made:
        group.mkdir(exist_ok=True)
    return made


def children_of(process: int) -> List[str]:
    try:
        return Path(f"/proc/{process}/task/{process}/children").read_text().split()
    except OSError:
        return []
