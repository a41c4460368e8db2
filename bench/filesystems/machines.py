"""A machine inside this one that measures file systems: what was asked for, its rows, and its end."""

import argparse
import contextlib
import json
import os
import shutil
import signal
import subprocess
import sys
import tempfile
import threading
from pathlib import Path
from typing import Callable, ContextManager, Iterator, List

sys.path[:0] = [str(Path(__file__).resolve().parent.parent.parent / "tests")]

from built import program_path

# A machine prints this line before its rows, and after them.
MARK = "bench: the rows"
# If this program ends, so does what it starts.
WITH_THIS = ["setpriv", "--pdeathsig", "KILL"]
# The words that start a machine, whose files are in a directory. What it needs runs until the end of the context.
Starting = Callable[[Path], ContextManager[List[str]]]


def measured(text: str, entries: int, needs: List[str], starting: Starting) -> None:
    """Does what a bench of such a machine is asked for."""
    parser = argparse.ArgumentParser(description=text, formatter_class=argparse.RawDescriptionHelpFormatter)
    parser.add_argument("--entries", type=int, default=entries)
    parser.add_argument("--turns", type=int, default=6)
    parser.add_argument("--minutes", type=float, default=60)
    parser.add_argument("names", nargs="*", metavar="NAME")
    given = parser.parse_args()
    missing = [need for need in needs if not shutil.which(need, path=f"{os.environ['PATH']}:/usr/sbin:/usr/lib/qemu")]
    if missing:
        sys.exit(f"{sys.argv[0]}: not installed: {', '.join(missing)}; --help says what is needed")
    signal.signal(signal.SIGTERM, lambda *_: sys.exit(143))
    with tempfile.TemporaryDirectory() as path, contextlib.suppress(KeyboardInterrupt):
        room = Path(path).resolve()
        words = {**vars(given), "program": str(program_path()), "load": os.getloadavg()[0], "mark": MARK}
        (room / "words").write_text(json.dumps(words))
        with starting(room) as command, begun(command, subprocess.PIPE) as machine:
            limit = threading.Timer(given.minutes * 60, machine.kill)
            limit.start()
            try:
                sys.exit(0 if passed_on(machine) else 1)
            finally:
                limit.cancel()
    sys.exit(130)


@contextlib.contextmanager
def begun(command: List[str], output: int = subprocess.DEVNULL) -> "Iterator[subprocess.Popen[str]]":
    """A process that ends with this context, and with this program."""
    process = subprocess.Popen(
        [*WITH_THIS, *command],
        stdin=subprocess.DEVNULL,
        stdout=output,
        stderr=subprocess.STDOUT if output == subprocess.PIPE else output,
        errors="replace",
    )
    try:
        yield process
    finally:
        process.kill()
        process.wait()


def passed_on(machine: "subprocess.Popen[str]") -> bool:
    """Prints what comes between the two marks, and tells whether both came. If the first does not, all is printed."""
    assert machine.stdout
    before, marks = [], 0
    for line in map(str.rstrip, machine.stdout):
        marks += line == MARK
        if marks == 2:
            return True
        if marks == 0:
            before.append(line)
        elif line != MARK:
            print(line, flush=True)
    if marks == 0:
        print(*before, sep="\n", file=sys.stderr)
    return False
