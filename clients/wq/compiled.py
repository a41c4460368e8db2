"""The program that the kit compiles from the sources of a clone without proof. It is kept in the user's cache under the
checksum of sources and kit, so it is compiled once."""

import contextlib
import hashlib
import os
import shutil
import signal
import subprocess
import tempfile
import time
from pathlib import Path
from typing import Callable, Dict, Iterator, List, Set, Union

from wqclient import cache
from wqclient.client import Client
from wqclient.sockets import is_listened_on
from wqclient.starting import PAUSE, Unstarted, alone, said

from .processes import children_of, processor_seconds, words_of

Tell = Callable[[str], None]
SIGNALS = {signal.SIGHUP, signal.SIGINT, signal.SIGTERM}
COMPILES = "nothing is built yet; the kit compiles the program without proof, in some minutes, and it is kept for later"
WAITS = "waiting for another command that compiles the program"
# After so many seconds, and again each time, a person hears how far the compiler is.
TELL = 15.0
# So many seconds of a processor the compiler takes, if it has not run on this machine.
USUAL = 150.0
# So many programs are kept: the ones that were used last.
KEPT = 3
# The program serves this long at most while it is copied, in seconds.
STAY = 600


def room() -> Path:
    """The directory below which programs without proof are kept, also those of `bench/apart`."""
    return Path(cache.room())


def program(top: str, tell: Tell) -> Path:
    """The path of the program for the sources as they are now. If it is not kept yet, the kit compiles it."""
    if shutil.which("rt") is None:
        missing = "nothing is built, and the Rattle kit is missing: its command rt is not on the PATH"
        raise Unstarted(
            f"{missing}\na release has the program: put that at {top}/release/wqd, or name it by the variable WQD"
        )
    programs = room() / "programs"
    path = programs / checksum(Path(top)) / "wqd"
    try:
        programs.mkdir(mode=0o700, parents=True, exist_ok=True)
        # What is in there is run.
        fault = cache.fault_of(str(programs))
        if fault:
            raise Unstarted(fault)
        with alone(str(programs / "compiling"), lambda: tell(WAITS)):
            if not path.exists():
                tell(COMPILES)
                compile_to(path, Path(top), tell)
            os.utime(path)
            drop_old(programs)
    except OSError as error:
        raise Unstarted(f"{error.filename}: {error.strerror}") from None
    return path


def checksum(top: Path) -> str:
    """The checksum of all that the program is compiled from."""
    found = hashlib.sha256(subprocess.run(["rt", "version"], stdout=subprocess.PIPE).stdout)
    for crate, line in crates(top / "crates.txt").items():
        found.update(line.encode())
        for file in sorted((top / "crates" / crate / "src").rglob("*.rt")):
            data = file.read_bytes()
            found.update(f"{file.relative_to(top)} {len(data)}\n".encode())
            found.update(data)
    return found.hexdigest()[:32]


def crates(table: Path) -> Dict[str, str]:
    """The crates that the program is made of, each with its line of the table."""
    lines = {line.partition(":")[0].strip(): line for line in table.read_text(encoding="utf-8").splitlines()}
    found: Dict[str, str] = {}
    wanted = ["wqd"]
    while wanted:
        crate = wanted.pop()
        if crate in lines and crate not in found:
            found[crate] = lines[crate]
            wanted += lines[crate].partition(":")[2].split()
    return found


def compile_to(path: Path, top: Path, tell: Tell) -> None:
    """Compiles the program. `rt try` keeps no file, so the program serves for a moment and is copied from there."""
    with tempfile.TemporaryDirectory(prefix="wqd-") as aside:
        sockname, log = os.path.join(aside, "s"), str(room() / "programs" / "log")
        words = ["serve", "--sockname", sockname, "--start", "1", "--pid", "1"]
        with begun(["rt", "try", "--seconds", str(STAY), "--", *words], top / "crates" / "wqd", log) as compiler:
            wait_for(compiler, sockname, log, tell)
            with Client(sockname) as client:
                words = words_of(client.peer().process)
            # The kit names a loader of programs first.
            copy(words[words.index("serve") - 1], path)


def copy(file: str, path: Path) -> None:
    path.parent.mkdir(mode=0o700, exist_ok=True)
    new = path.with_name("new")
    shutil.copyfile(file, new)
    new.chmod(0o700)
    new.replace(path)


@contextlib.contextmanager
def begun(command: List[str], directory: Path, log: str) -> "Iterator[subprocess.Popen[bytes]]":
    """A command in a session of its own, which ends with this context, however that ends."""
    # A signal that comes while it begins is held back until the command can be ended for that.
    before = signal.pthread_sigmask(signal.SIG_BLOCK, SIGNALS)
    try:
        process = begin(command, directory, log, before)
    except BaseException:
        signal.pthread_sigmask(signal.SIG_SETMASK, before)
        raise
    try:
        signal.pthread_sigmask(signal.SIG_SETMASK, before)
        yield process
    finally:
        process.terminate()
        process.wait()


def begin(
    command: List[str], directory: Path, log: str, signals: Set[Union[int, signal.Signals]]
) -> "subprocess.Popen[bytes]":
    """Begins a command, which blocks these signals alone."""
    with open(log, "wb") as output:
        return subprocess.Popen(
            command,
            cwd=directory,
            start_new_session=True,
            stdin=subprocess.DEVNULL,
            stdout=output,
            stderr=output,
            preexec_fn=lambda: signal.pthread_sigmask(signal.SIG_SETMASK, signals),
        )


def wait_for(compiler: "subprocess.Popen[bytes]", sockname: str, log: str, tell: Tell) -> None:
    """Waits until the compiled program listens, and tells how long that may take."""
    needs = usual_seconds()
    began = told = time.monotonic()
    while not is_listened_on(sockname):
        if compiler.poll() is not None:
            raise Unstarted(f"the program could not be compiled: {said(log)} (all of it is in {log})")
        if time.monotonic() - told >= TELL:
            told = time.monotonic()
            tell(how_far(told - began, used_for(sockname, compiler.pid), needs))
        time.sleep(PAUSE)
    note_seconds(used_for(sockname, compiler.pid))


def used_for(sockname: str, kit: int) -> float:
    """The seconds of a processor that the compiler took. The kit hands it the words of the program, and starts a check
    beside it that nobody waits for."""
    found = [process for process in children_of(kit) if sockname in words_of(process)]
    return processor_seconds(found[0] if found else kit)


def how_far(took: float, used: float, needs: float) -> str:
    """What a person hears. A compiler that shares its processor with others takes longer by that."""
    left = took * (needs - used) / max(used, 1.0)
    about = f"about {left:.0f} s left" if left < 90 else f"about {left / 60:.0f} minutes left"
    rest = "nearly done" if left < 5 else about
    return f"compiling for {took:.0f} s so far, {rest}"


def usual_seconds() -> float:
    """The seconds of a processor that the compiler took the last time."""
    try:
        return float((room() / "programs" / "seconds").read_text())
    except (OSError, ValueError):
        return USUAL


def note_seconds(seconds: float) -> None:
    (room() / "programs" / "seconds").write_text(f"{seconds:.0f}\n")


def drop_old(programs: Path) -> None:
    """Drops all but the programs that were used last."""
    found = sorted(programs.glob("*/wqd"), key=lambda path: path.stat().st_mtime, reverse=True)
    for path in found[KEPT:]:
        shutil.rmtree(path.parent, ignore_errors=True)
