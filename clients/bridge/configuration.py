"""Settings that users wrote for Watchman: the file `.watchmanconfig` of a root, and the file of the whole system."""

import json
import math
import os
import threading
from typing import Callable, Dict, List, Optional

from bridge.expressions import Term
from bridge.faults import Refused
from bridge.filesystems import kind_of
from wqclient.files import bytes_of

OF_A_ROOT = ".watchmanconfig"
# The variable names the file of the system, as for Watchman; Debian's Watchman reads this one without it.
OF_THE_SYSTEM_BY, OF_THE_SYSTEM = "WATCHMAN_CONFIG_FILE", "/etc/watchman.json"
# Of these directories Watchman looks no deeper than at what lies in them, unless a root says otherwise.
OF_SOURCE_CONTROL = (".git", ".svn", ".hg")
ROOT_FILES = (OF_A_ROOT, ".hg", ".git", ".svn")
ADVICE = "relocate the dir to an allowed filesystem type"
# A longer file, and one with a longer number, holds no settings. A number counts as at most a day of milliseconds.
LONGEST, MOST_DIGITS, MOST_NUMBER = 1_048_576, 18, 86_400_000
FORBIDDEN = (
    "Your watchman administrator has configured watchman to prevent watching this path.  None of the files "
    "listed in "
    "global config root_files are present and enforce_root_files is set to true"
)


def read(path: str, say: Callable[[str], None]) -> Dict[str, object]:
    """The object that a file holds. One that is not there, or holds none, is as an empty one."""
    try:
        text = bytes_of(path, LONGEST).decode("utf-8")
        found = json.loads(text, parse_int=integer_of, parse_float=float_of, parse_constant=float_of)
    except FileNotFoundError:
        return {}
    except (OSError, ValueError, RecursionError) as error:
        say(f"{json.dumps(path)} is not read: {error}")
        return {}
    return found if isinstance(found, dict) else {}


def integer_of(digits: str) -> int:
    if len(digits) > MOST_DIGITS:
        raise ValueError(f"a number has over {MOST_DIGITS} digits")
    return int(digits)


def float_of(text: str) -> float:
    value = float(text)
    if not math.isfinite(value):
        raise ValueError(f"a number is {value}")
    return value


def texts_in(value: object) -> List[str]:
    return [each for each in value if isinstance(each, str) and each] if isinstance(value, list) else []


class Configuration:
    """The settings of a root, as they were when it was first asked for."""

    def __init__(self, root: str, settings: Dict[str, object]) -> None:
        self.root = root
        self.settings = settings
        self.left_out = [path.strip("/") for path in texts_in(settings.get("ignore_dirs"))]
        control = settings.get("ignore_vcs", list(OF_SOURCE_CONTROL))
        if not isinstance(control, list) or not all(isinstance(each, str) for each in control):
            raise Refused(f"unable to resolve root {root}: ignore_vcs must be an array of strings")
        self.control = [path.strip("/") for path in texts_in(control) if path.strip("/") not in self.left_out]
        # Those of `control` that were seen in the root. Most roots have one of them, and each costs a term.
        self.seen: List[str] = []

    def number(self, key: str) -> int:
        value = self.settings.get(key, 0)
        return min(value, MOST_NUMBER) if isinstance(value, int) and not isinstance(value, bool) and value > 0 else 0

    def is_true(self, key: str) -> bool:
        return self.settings.get(key) is True

    def terms(self) -> List[Term]:
        """That a file is not one that the root leaves out of every list."""
        for name in self.control:
            if name not in self.seen and os.path.lexists(f"{self.root}/{name}"):
                self.seen.append(name)
        terms: List[Term] = [["dirname", name, ["depth", "ge", 1]] for name in self.seen]
        if self.left_out:
            terms += [["name", list(self.left_out), "wholename"], *(["dirname", name] for name in self.left_out)]
        if not terms:
            return []
        return [["not", terms[0] if len(terms) == 1 else ["anyof", *terms]]]


class Configurations:
    """The settings of the system, and those of the roots. As in Watchman, a root's are read anew if it is watched
    anew."""

    def __init__(self, say: Callable[[str], None]) -> None:
        self.say = say
        self.lock = threading.Lock()
        self.roots: Dict[str, Configuration] = {}
        self.system = read(os.environ.get(OF_THE_SYSTEM_BY) or OF_THE_SYSTEM, say)

    def of(self, root: str) -> Configuration:
        """The settings of a root. No other session waits while they are read."""
        with self.lock:
            found = self.roots.get(root)
        if found is None:
            found = Configuration(root, read(os.path.join(root, OF_A_ROOT), self.say))
            with self.lock:
                found = self.roots.setdefault(root, found)
        return found

    def forget(self, root: str) -> None:
        with self.lock:
            self.roots.pop(root, None)

    def root_files(self) -> List[str]:
        """The names of files that make a directory a project, in their order."""
        for key in ("root_files", "root_restrict_files"):
            if isinstance(self.system.get(key), list):
                found = texts_in(self.system[key])
                return found if found[:1] == [OF_A_ROOT] else [OF_A_ROOT, *found]
        return list(ROOT_FILES)

    def enforces(self) -> bool:
        """Whether only directories with one of these files may be watched."""
        enforced: Optional[object] = self.system.get("enforce_root_files")
        if "root_files" not in self.system and "root_restrict_files" in self.system:
            return True
        return enforced is True

    def check(self, root: str) -> None:
        """Refuses a directory that may not be watched."""
        kind = kind_of(root)
        if kind in texts_in(self.system.get("illegal_fstypes")):
            advice = self.system.get("illegal_fstypes_advice")
            raise Refused(
                f'unable to resolve root {root}: path uses the "{kind}" filesystem and is disallowed by '
                f"global config "
                f"illegal_fstypes: {advice if isinstance(advice, str) else ADVICE}"
            )
        if self.enforces() and not any(os.path.lexists(os.path.join(root, name)) for name in self.root_files()):
            raise Refused(f"unable to resolve root {root}: {FORBIDDEN}")
