"""A server and a tree that calls of wq ask about: each scene has a directory, a default socket and a home of its
own."""

import contextlib
import fcntl
import json
import os
import pty
import re
import select
import shlex
import signal
import struct
import subprocess
import termios
import time
from pathlib import Path
from typing import Any, Callable, Dict, List, NamedTuple, Optional, Sequence, Tuple, Union

import built
from case import Case
from client import PATIENCE, Client
from rows import Row, tables
from waiting import wait_until

COMMAND = str(built.TOP / "wq")
# A word of a command line.
Word = Union[str, bytes, Path]
# In milliseconds: how soon the server looks again, so that nothing waits for a second.
INTERVAL = "40"
# So long, in seconds, a scene waits for its server to be gone.
MOST_AT_END = 5.0
SLOW_CRAWL = re.compile(rb"wq: the server looks at all files below .*\n(wq: that took [0-9.]+ s\n)?")
# From five seconds on, as it is told.
LATE_REPLY = re.compile(
    rb"(?:\x1b\[33m)?wq: the server, process [0-9]+, has not answered for (?:[5-9]|[1-9][0-9]+) s: "
    rb"it (?:is busy|waits)[, ].*\n"
)
FILES = ["Makefile", "src/a.c", "src/b b.c", "src/deep/c.h", ".git/HEAD", "node_modules/x/y.c", "target/z.c"]


class Scene:
    """Calls of wq in a directory. The server that they start ends with the scene."""

    def __init__(self, room: Path, starts: bool = True) -> None:
        self.room = room
        # Whether calls show that a first crawl took over a second, and a reply over five, as on a machine with other
        # work.
        self.shows_delays = False
        self.tree = room / "tree"
        self.runtime = room / "run"
        self.runtime.mkdir(mode=0o700)
        self.sockname = str(self.runtime / "wqd.sock")
        for name in FILES:
            self.write(name, name)
        self.environment: Dict[str, str] = {
            **os.environ,
            "WQD": str(built.program_path()),
            "XDG_RUNTIME_DIR": str(self.runtime),
            "HOME": str(room),
            "XDG_STATE_HOME": str(room / "state"),
            "TMPDIR": str(room),
            "LC_ALL": "C.UTF-8",
            "TERM": "xterm",
        }
        for name in ("WQD_SOCK", "NO_COLOR"):
            self.environment.pop(name, None)
        if starts:
            self.wq("start", "--interval", INTERVAL, "--share", "100")

    def __enter__(self) -> "Scene":
        return self

    def __exit__(self, *_: object) -> None:
        with contextlib.suppress(OSError), self.client() as client:
            client.ask("shutdown-server")
            self.wait_for_end()

    def wait_for_end(self) -> None:
        """Waits until the server has taken its socket away, for which it makes a directory beside it."""
        wait_until(lambda: not any(map(is_of_socket, os.listdir(self.runtime))), MOST_AT_END)

    def client(self) -> Client:
        return Client(self.sockname)

    def write(self, name: str, text: str = "x") -> None:
        """Writes a file in one step. A scan may come between two, and would see a file that is new, or emptied first,
        change twice. So it is written in place by one write, or moved in whole where it is new or was longer."""
        path, data = self.tree / name, text.encode()
        path.parent.mkdir(parents=True, exist_ok=True)
        if path.is_file() and path.stat().st_size <= len(data):
            with open(path, "r+b", buffering=0) as file:
                file.write(data)
            return
        aside = self.room / "aside of the tree"
        aside.write_bytes(data)
        aside.replace(path)

    def call(self, words: Sequence[Word], enters: bytes = b"", **environment: str) -> built.Ended:
        """A call in the tree, with a standard input."""
        ended = built.call(
            [COMMAND, *words], input=enters, cwd=self.tree, env={**self.environment, **environment}, timeout=PATIENCE
        )
        return ended if self.shows_delays else ended._replace(errors=without_delays(ended.errors))

    def wq(self, *words: Word, **environment: str) -> built.Ended:
        return self.call(words, b"", **environment)

    def names(self, *words: Word) -> List[str]:
        """The lines that a call writes, if it ends well and says nothing else."""
        ended = self.wq(*words)
        return ended.output.decode().splitlines() if (ended.status, ended.errors) == (0, b"") else [str(ended)]

    def begin(
        self, *words: Word, output: Optional[int] = None, ignores: Optional[int] = None, **environment: str
    ) -> "Going":
        return Going(self, words, output, ignores, **environment)

    def roots(self) -> List[str]:
        """The roots that the server watches."""
        with self.client() as client:
            return [*client.ask("watch-list")["roots"]]

    def changes(self, root: Optional[Path] = None) -> int:
        """The tick of a root: how often its files changed."""
        with self.client() as client:
            return int(client.ask("clock", str(root or self.tree), {"sync_timeout": 1})["clock"].rsplit(":", 1)[1])


def check_names(case: Case, scene: Scene, table: str) -> None:
    """Calls of calls.rows print these names, and say nothing else."""
    for row in calls(scene, table):
        expected = "".join(f"{name}\n" for name in shlex.split(row.expected))
        ended = built.Ended(expected.encode(), b"", 0 if expected else 1)
        case.same(f"wq {row.given}", scene.wq(*row.words()), ended)


def check_wrong(case: Case, scene: Scene, table: str) -> None:
    """Calls of calls.rows are refused with these words."""
    for row in calls(scene, table):
        wrong(case, scene, row.words(), row.expected)


def calls(scene: Scene, table: str) -> List[Row]:
    return tables(Path(__file__).with_name("calls.rows"), TREE=str(scene.tree))[table]


def without_delays(errors: bytes) -> bytes:
    return LATE_REPLY.sub(b"", SLOW_CRAWL.sub(b"", errors))


def is_of_socket(name: str) -> bool:
    return name == "wqd.sock" or name.startswith(".wqd")


class Going:
    """A call that goes on, whose two streams are read as they come."""

    def __init__(
        self,
        scene: Scene,
        words: Sequence[Word],
        output: Optional[int] = None,
        ignores: Optional[int] = None,
        **environment: str,
    ) -> None:
        self.output, self.errors = b"", b""
        self.process = subprocess.Popen(
            [COMMAND, *words],
            cwd=scene.tree,
            stdin=subprocess.DEVNULL,
            stderr=subprocess.PIPE,
            stdout=subprocess.PIPE if output is None else output,
            env={**scene.environment, **environment},
            preexec_fn=lambda: hear(ignores),
            start_new_session=True,
        )

    def __enter__(self) -> "Going":
        return self

    def __exit__(self, *_: object) -> None:
        with contextlib.suppress(ProcessLookupError):
            os.killpg(self.process.pid, signal.SIGKILL)
        self.process.wait()
        for stream in (self.process.stdout, self.process.stderr):
            if stream is not None:
                stream.close()

    def read(self, seconds: float) -> None:
        """Reads what comes within some time."""
        streams = [stream for stream in (self.process.stdout, self.process.stderr) if stream is not None]
        for stream in select.select(streams, [], [], seconds)[0]:
            piece = os.read(stream.fileno(), 65_536)
            if stream is self.process.stdout:
                self.output += piece
            else:
                self.errors += piece
            if not piece:
                time.sleep(min(seconds, 0.01))

    def waits_for(self, is_so: Callable[["Going"], bool]) -> bool:
        """Whether this becomes so before the patience ends."""
        end = time.monotonic() + PATIENCE
        while not is_so(self):
            if time.monotonic() > end:
                return False
            self.read(0.05)
        return True

    def prints(self, text: str) -> bool:
        return self.waits_for(lambda going: text.encode() in going.output)

    def says(self, text: str, times: int = 1) -> bool:
        return self.waits_for(lambda going: going.errors.count(text.encode()) >= times)

    def ends(self, number: Optional[int] = None) -> int:
        """The status with which it ends, after a signal if one is given."""
        if number is not None:
            self.process.send_signal(number)
        end = time.monotonic() + PATIENCE
        while self.process.poll() is None and time.monotonic() < end:
            self.read(0.01)
        self.read(0)
        self.read(0)
        return self.process.wait(1)


def facts(scene: Scene) -> Dict[str, Any]:
    """What `wq status` says."""
    found: Dict[str, Any] = json.loads(scene.wq("status", "--json").output)
    return found


def write_until(scene: Scene, going: Going, name: str, is_so: Callable[[Going], object]) -> None:
    """Writes a file again and again until this is so: when a subscription begins is not told."""
    turns = iter(range(10_000))

    def has_come(one: Going) -> bool:
        if not is_so(one):
            scene.write(name, "x" * (next(turns) % 50 + 1))
        return bool(is_so(one))

    going.waits_for(has_come)


def touch_until(scene: Scene, going: Going, name: str) -> None:
    """Changes a file until that is told."""
    write_until(scene, going, name, lambda one: one.output)


def hear(ignored: Optional[int]) -> None:
    """A job in the background ignores SIGINT, and so would what it starts. A signal may be ignored on purpose."""
    signal.signal(signal.SIGINT, signal.SIG_DFL)
    if ignored is not None:
        signal.signal(ignored, signal.SIG_IGN)


class AtTerminal(NamedTuple):
    """The text that a call wrote to a terminal, on both of its streams, and the status with which it ended."""

    text: str
    status: int


def at_terminal(scene: Scene, *words: str, columns: int = 0, **environment: str) -> str:
    text = called_at_terminal(scene, list(words), environment, columns=columns).text
    return text if scene.shows_delays else LATE_REPLY.sub(b"", text.encode()).decode()


def called_at_terminal(
    scene: Scene,
    words: List[str],
    environment: Optional[Dict[str, str]] = None,
    keys: bytes = b"",
    after: str = "",
    more: Sequence[Tuple[str, bytes]] = (),
    columns: int = 0,
) -> AtTerminal:
    """A call at a terminal, which may say how wide it is. Keys are pressed when it has written a text, and more of them
    when it has written others after that."""
    presses = [(after, keys), *more] if keys else []
    looked = 0
    number, terminal = pty.fork()
    if number == 0:
        fcntl.ioctl(0, termios.TIOCSWINSZ, struct.pack("HHHH", 0, columns, 0, 0))
        os.chdir(scene.tree)
        os.execve(COMMAND, [COMMAND, *words], {**scene.environment, **(environment or {})})
    found = b""
    end = time.monotonic() + PATIENCE
    while time.monotonic() < end:
        if not select.select([terminal], [], [], 1)[0]:
            continue
        try:
            piece = os.read(terminal, 65_536)
        except OSError:
            break
        if not piece:
            break
        found += piece
        if presses and presses[0][0].encode() in found[looked:]:
            looked = len(found)
            os.write(terminal, presses.pop(0)[1])
    os.close(terminal)
    status = os.waitpid(number, 0)[1]
    code = os.WEXITSTATUS(status) if os.WIFEXITED(status) else -os.WTERMSIG(status)
    return AtTerminal(found.decode("utf-8", "backslashreplace").replace("\r\n", "\n"), code)


FOLLOWING = re.compile(
    rb"wq: following [0-9,]+ files? below \S+; changes show within about [0-9.]+ s, later under load\n"
)


def following(going: Going) -> bytes:
    """What a window says after its first line, which says what it follows."""
    errors = without_delays(going.errors)
    found = FOLLOWING.match(errors)
    return errors[found.end() :] if found else b"no first line: " + errors


def said(*lines: str) -> bytes:
    """Lines of standard error."""
    return "".join(f"wq: {line}\n" for line in lines).encode()


def wrong(case: Case, scene: Scene, words: Sequence[Word], *lines: str, status: int = 2) -> None:
    """A call that is refused with these lines."""
    case.same(f"wq {words}", scene.call(words), built.Ended(b"", said(*lines), status))
