"""The rules by which git ignores files of a root: which repositories there are, where their rules are, and what git
says of names."""

import bisect
import contextlib
import os
from typing import TYPE_CHECKING, Any, Callable, Dict, List, NamedTuple, Optional, Tuple

from .git import Judge, Refused, Repository, Unanswered, is_repository, no_repository, repository_of, tracked_in
from .ignore_lines import Terms, terms_of
from .shadow import GITIGNORE, IGNORE, LONGEST, Shadow, is_directory, is_plain, text_of

if TYPE_CHECKING:
    import tempfile

# The rules of a root have at most so many bytes together.
MOST = 67_108_864

Ask = Callable[[Dict[str, Any]], Any]
# A name, and whether it is a directory that is gone.
Name = Tuple[str, bool]


class Said(NamedTuple):
    """What the rules of a root say: the text of each file with rules by its path, and by the directory of each
    repository what that ignores apart from the tree."""

    files: Dict[str, str]
    excludes: Dict[str, str]


class Rules:
    """The rules of a root. It belongs to the repository at or above it, if there is one, and others may lie in it."""

    def __init__(self, ask: Ask, root: str, top: Optional[str], said: Optional[Said] = None) -> None:
        """`ask` asks the server of the root."""
        self.root = root
        self.top = top
        self.said = said or Said({}, {})
        # All of this is by the directories of the repositories; "" is that of the root.
        self.repositories: Dict[str, Repository] = {}
        self.judges: Dict[str, Judge] = {}
        self.tracked: Dict[str, List[bytes]] = {}
        # All that a rule could mean, and how long the rules are.
        self.lines: Terms = []
        self.size = 0
        self.room: Optional["tempfile.TemporaryDirectory[str]"] = None
        self.shadow: Optional[Shadow] = None
        try:
            self.read(ask)
        except BaseException:
            self.close()
            raise
        self.seen = self.state()

    def read(self, ask: Ask) -> None:
        names: List[str] = ask(
            {
                "suffix": ["git", "gitignore", "ignore"],
                "fields": ["name"],
                "expression": ["name", [".git", GITIGNORE, IGNORE]],
            }
        )["files"]
        if self.top is None:
            import tempfile  # it is slow to read, and seldom needed

            self.room = tempfile.TemporaryDirectory(prefix="wq-")
            self.repositories[""] = no_repository(self.root, self.room.name)
            self.tracked[""] = []
        else:
            self.repositories[""] = repository_of(self.root)
        self.find_repositories([name.rpartition("/")[0] for name in names if name.endswith("/.git")])
        for directory, repository in self.repositories.items():
            # The last line that fits decides, and those of the repository come after the user's own.
            self.said.excludes[directory] = "\n".join(map(text_of, reversed(repository.excludes)))
            self.add(self.said.excludes[directory], directory)
        self.read_files([name for name in names if not name.endswith(".git")])

    def find_repositories(self, directories: List[str]) -> None:
        """The repositories that lie in another one, unless that ignores them, or git does not take them."""
        for directory in directories:
            path = os.path.join(self.root, directory)
            if ".git" in directory.split("/") or not is_repository(path):
                continue
            if not self.judged([(directory, False)])[0] or self.is_tracked(directory):
                with contextlib.suppress(Refused):
                    self.repositories[directory] = repository_of(path)

    def read_files(self, names: List[str]) -> None:
        """The files with rules that the server named, and those between the root and its repository."""
        files = [(os.path.join(self.root, name), name.rpartition("/")[0]) for name in names]
        above: List[str] = []
        path = self.root
        while self.top is not None and path != self.top:
            path = os.path.dirname(path)
            above += [os.path.join(path, last) for last in (GITIGNORE, IGNORE)]
        for path, within in [*files, *((path, None) for path in above)]:
            self.said.files[path] = text_of(path)
            self.add(self.said.files[path], within)
        found = [path for path, _ in files] + [path for path in above if os.path.exists(path)]
        paths = [path for path in found if not is_directory(path)]
        if any(path.endswith(f"/{IGNORE}") or not is_plain(path) for path in paths):
            self.end_judges()
            self.shadow = Shadow(self.top or self.root, sorted({os.path.dirname(path) for path in paths}))

    def add(self, text: str, directory: Optional[str]) -> None:
        """Adds what the rules of a file could mean. More of them than a query may have could mean anything."""
        self.size += len(text)
        if self.size > MOST:
            raise Unanswered(f"its rules have over {MOST:,} bytes")
        if self.size <= LONGEST:
            self.lines += terms_of(text, directory)
        else:
            self.lines = ["true"]

    # What git says.

    def judged(self, names: List[Name]) -> List[bool]:
        """Whether the rules leave out each name, whether git tracks it or not."""
        groups: Dict[str, List[int]] = {}
        links: Dict[str, bool] = {"": False}
        for number, (name, is_gone) in enumerate(names):
            if not self.is_beyond_link(name.rpartition("/")[0], links):
                if self.shadow:
                    self.add_to_shadow(self.shadow, name, is_gone)
                groups.setdefault(self.repository(name), []).append(number)
        found = [False] * len(names)
        for directory, numbers in groups.items():
            # A rule for directories alone means one that is gone only with a slash at its end.
            asked = [(number, name) for number in numbers for name in forms_of(names[number])]
            front = len(directory) + 1 if directory else 0
            patterns = self.judge(directory).patterns([name[front:] for _, name in asked])
            for (number, name), pattern in zip(asked, patterns):
                if pattern and (pattern.endswith("/") or not name.endswith("/")):
                    found[number] = not pattern.startswith("!")
        return found

    def judge(self, directory: str) -> Judge:
        if directory not in self.judges:
            path = os.path.join(self.root, directory) if directory else self.root
            tree = path if directory else self.top or path
            if self.shadow:
                self.shadow.add(path)
                path, tree = self.shadow.path(path), self.shadow.path(tree)
            is_said = self.shadow is not None or self.top is None and not directory
            self.judges[directory] = Judge(path, self.repositories[directory].directory if is_said else None, tree)
        return self.judges[directory]

    def add_to_shadow(self, shadow: Shadow, name: str, is_gone: bool) -> None:
        path = os.path.join(self.root, name)
        if is_gone or is_directory(path):
            shadow.add(path)

    def repository(self, name: str) -> str:
        """The nearest repository in which a name lies. A repository itself lies in another one."""
        return next((above for above in directories_of(name) if above in self.repositories), "")

    def is_tracked(self, name: str) -> bool:
        """Whether git tracks a file, or one below a directory."""
        directory = self.repository(name)
        if directory not in self.tracked:
            self.tracked[directory] = tracked_in(os.path.join(self.root, directory))
        names, data = self.tracked[directory], os.fsencode(name[len(directory) + 1 if directory else 0 :])
        place = bisect.bisect_left(names, data)
        if names[place : place + 1] == [data]:
            return True
        place = bisect.bisect_left(names, data + b"/")
        return place < len(names) and names[place].startswith(data + b"/")

    def is_beyond_link(self, directory: str, links: Dict[str, bool]) -> bool:
        """Whether a directory is one by a link now, or lies in one; `links` has what was found before."""
        if directory not in links:
            links[directory] = self.is_beyond_link(directory.rpartition("/")[0], links) or os.path.islink(
                os.path.join(self.root, directory)
            )
        return links[directory]

    def state(self) -> List[Any]:
        """The state of git's files: its indexes, and what it ignores apart from the tree."""
        paths = [path for one in self.repositories.values() for path in (one.index_file, *one.excludes)]
        return [state_of(path) for path in paths]

    def end_judges(self) -> None:
        for judge in self.judges.values():
            judge.close()
        self.judges = {}

    def close(self) -> None:
        self.end_judges()
        if self.room:
            self.room.cleanup()
        if self.shadow:
            self.shadow.close()


class PastRules(Rules):
    """The rules of a root as they were. Git judges by the texts that their files had then."""

    def read(self, ask: Ask) -> None:
        import tempfile  # rules seldom change

        self.room = tempfile.TemporaryDirectory(prefix="wq-")
        for number, (directory, text) in enumerate(self.said.excludes.items()):
            path = os.path.join(self.room.name, str(number))
            self.repositories[directory] = no_repository(self.root, path)
            exclude_alone(path, text)
        directories = sorted({os.path.dirname(path) for path in self.said.files})
        self.shadow = Shadow(self.top or self.root, directories, self.said.files)


def exclude_alone(repository: str, text: str) -> None:
    """Has a repository ignore what the lines of this text say, and nothing of the user's own."""
    os.mkdir(os.path.join(repository, "info"))
    for name, mode, lines in (("info/exclude", "w", text), ("config", "a", "[core]\n\texcludesFile = /dev/null\n")):
        with open(os.path.join(repository, name), mode, encoding="utf-8", errors="surrogateescape") as stream:
            stream.write(lines)


def forms_of(name: Name) -> List[str]:
    return [name[0], f"{name[0]}/"] if name[1] else [name[0]]


def directories_of(name: str) -> List[str]:
    """The directories in which a name lies, the nearest first."""
    parts = name.split("/")
    return ["/".join(parts[:count]) for count in range(len(parts) - 1, 0, -1)]


def state_of(path: str) -> Any:
    try:
        found = os.stat(path)
        return found.st_mtime_ns, found.st_size, found.st_ino
    except OSError:
        return None
