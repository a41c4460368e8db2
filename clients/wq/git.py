"""git, which says what is ignored and which files it tracks, of the repository that a directory is in."""

import contextlib
import errno
import os
import select
from typing import TYPE_CHECKING, Dict, Iterator, List, NamedTuple, Optional

from wqclient.harmless import harmless

if TYPE_CHECKING:
    import subprocess

# A repository could name a program that git runs for its index.
SAFELY = ("git", "-c", "core.fsmonitor=false")
# And one that fetches what is missing: git takes no protocol, whatever a repository allows.
NO_PROTOCOL = {"GIT_ALLOW_PROTOCOL": "", "GIT_NO_LAZY_FETCH": "1"}
# A file of a repository, such as one with rules, may be a pipe, for which git would wait. It is ended after so many
# seconds in which it says nothing.
PATIENCE = 10
LATE = f"it took over {PATIENCE} s"
# Few enough bytes are asked at once to fit into a pipe, with their answers.
AT_ONCE = 4_096
FIELDS = 4
# So often may git end within one list.
MOST_ENDS = 100


class Unanswered(Exception):
    """git does not answer, for this reason."""


class Refused(Unanswered):
    """git looked, and does not take the repository, or has no value of that name."""


class Repository(NamedTuple):
    """The repository of a directory: where it is, and files whose lines say what it ignores."""

    directory: str
    index_file: str
    excludes: List[str]


def environment() -> Dict[str, str]:
    """Without the variables by which git gives its own commands another repository."""
    kept = [name for name in os.environ if not name.startswith("GIT_") or name.startswith("GIT_CONFIG")]
    return {**{name: os.environ[name] for name in kept}, "LC_ALL": "C", "GIT_OPTIONAL_LOCKS": "0", **NO_PROTOCOL}


def answer(words: List[str], directory: str) -> bytes:
    import subprocess  # it is slow to read, and most searches do not ask git

    try:
        ended = subprocess.run(
            [*SAFELY, *words],
            cwd=directory,
            env=environment(),
            stdin=subprocess.DEVNULL,
            capture_output=True,
            timeout=PATIENCE,
        )
    except subprocess.TimeoutExpired:
        raise Unanswered(LATE) from None
    except OSError as error:
        raise Unanswered("it is not installed" if error.errno == errno.ENOENT else str(error.strerror)) from None
    if ended.returncode != 0:
        lines = ended.stderr.decode("utf-8", "replace").strip().split("\n")
        raise Refused(harmless(lines[0].replace("fatal: ", "", 1)))
    return ended.stdout


def is_repository(directory: str) -> bool:
    """Whether a directory has a `.git` that git would take: a directory with these parts, or a file that names one."""
    path = os.path.join(directory, ".git")
    if os.path.isfile(path):
        return True
    return all(os.path.exists(os.path.join(path, name)) for name in ("HEAD", "objects", "refs"))


def top_of(root: str) -> Optional[str]:
    """The directory at or above a root that is a repository of git."""
    path = root
    while not is_repository(path):
        if path == "/":
            return None
        path = os.path.dirname(path)
    return path


def is_installed() -> bool:
    directories = os.environ.get("PATH", os.defpath).split(os.pathsep)
    return any(os.access(os.path.join(directory, "git"), os.X_OK) for directory in directories)


def repository_of(directory: str) -> Repository:
    found = answer(["rev-parse", "--absolute-git-dir", "--git-path", "index", "--git-path", "info/exclude"], directory)
    git, index, exclude = (os.path.join(directory, os.fsdecode(line)) for line in found.split(b"\n")[:3])
    return Repository(git, index, [exclude, everywhere(directory)])


def no_repository(directory: str, room: str) -> Repository:
    """For a directory that is in no repository: an empty one, which is made in another directory."""
    answer(["init", "--quiet", "--bare", "--template=", room], directory)
    return Repository(room, os.path.join(room, "index"), [everywhere(directory)])


def everywhere(directory: str) -> str:
    """The file that says what a user ignores in each repository."""
    with contextlib.suppress(Refused):
        found = answer(["config", "--type=path", "--get", "core.excludesFile"], directory)
        return os.path.join(directory, os.fsdecode(found[:-1]))
    home = os.environ.get("XDG_CONFIG_HOME") or os.path.join(os.path.expanduser("~"), ".config")
    return os.path.join(home, "git", "ignore")


def tracked_in(directory: str) -> List[bytes]:
    """The names of the files that git tracks below a directory, from there on, sorted."""
    return sorted(answer(["ls-files", "-z"], directory).split(b"\0")[:-1])


class Judge:
    """`git check-ignore`, which goes on and is asked names below a directory, whether git tracks them or not. The
    repository may be said, with a directory that counts as its work tree."""

    def __init__(self, directory: str, repository: Optional[str] = None, tree: Optional[str] = None) -> None:
        self.directory = directory
        said = [f"--git-dir={repository}", f"--work-tree={tree}"] if repository else []
        self.words = [*SAFELY, *said, "check-ignore", "--no-index", "--stdin", "-z", "--verbose", "--non-matching"]
        self.process: Optional["subprocess.Popen[bytes]"] = None

    def patterns(self, names: List[str]) -> Iterator[str]:
        """Of each name the last pattern that decides about it or a directory that it lies in; "" if there is none. git
        ends at a name beyond a link, about which nothing is decided."""
        place = ends = 0
        while place < len(names):
            for pattern in self.answers(pieces(names, place)):
                yield pattern
                place += 1
            if self.process is None and place < len(names):
                ends += 1
                if ends > MOST_ENDS:
                    raise Unanswered("git check-ignore ends again and again")
                yield ""
                place += 1

    def answers(self, names: List[str]) -> Iterator[str]:
        self.process = self.process or self.begun()
        assert self.process.stdin is not None and self.process.stdout is not None
        written = memoryview(b"".join(b"./" + os.fsencode(name) + b"\0" for name in names))
        with contextlib.suppress(BrokenPipeError):
            while written:
                written = written[os.write(self.process.stdin.fileno(), written) :]
        held, left = b"", len(names)
        while left:
            poll = select.poll()
            poll.register(self.process.stdout, select.POLLIN)
            if not poll.poll(PATIENCE * 1000):
                raise Unanswered(LATE)
            piece = os.read(self.process.stdout.fileno(), 65_536)
            if not piece:
                self.close()
                return
            *fields, held = (held + piece).split(b"\0")
            whole = len(fields) - len(fields) % FIELDS
            held = b"\0".join([*fields[whole:], held])
            for at in range(2, whole, FIELDS):
                left -= 1
                yield os.fsdecode(fields[at])

    def begun(self) -> "subprocess.Popen[bytes]":
        import subprocess

        try:
            return subprocess.Popen(
                self.words,
                cwd=self.directory,
                env=environment(),
                stdin=subprocess.PIPE,
                stdout=subprocess.PIPE,
                stderr=subprocess.DEVNULL,
                bufsize=0,
            )
        except OSError as error:
            raise Unanswered(f"it does not start: {error.strerror}") from None

    def close(self) -> None:
        if self.process is not None:
            for stream in (self.process.stdin, self.process.stdout):
                if stream is not None:
                    stream.close()
            self.process.kill()
            self.process.wait()
            self.process = None


def pieces(names: List[str], place: int) -> List[str]:
    """The next names, as many as are asked at once."""
    size, end = 0, place
    while end < len(names) and (end == place or size + len(names[end]) < AT_ONCE):
        size += 4 * len(names[end]) + 3
        end += 1
    return names[place:end]
