"""Which socket is this user's, by each that decides it: one table for all."""

import os
import re
import shutil
import socket
import subprocess
from pathlib import Path
from typing import Callable, Dict, List, NamedTuple

import built
from case import Case
from client import PATIENCE
from neighbours import environment_of
from users import OTHER

UID = os.getuid()
CLIENTS = built.TOP / "clients"
REFUSED = "refused"
Decider = Callable[[Path, Dict[str, str]], str]
Change = Callable[[Path], object]

PYTHON = f"import sys; sys.path.insert(0, {str(CLIENTS)!r})\n"
OF_CLIENTS = """
from wqclient.sockets import default_sockname
try: print(default_sockname())
except OSError: print("refused")
"""
OF_BRIDGE = """
from bridge.sockets import sockname_by_default
try: print(sockname_by_default())
except SystemExit: print("refused")
"""
SHELL = f'program=/none version=0; . "{built.TOP}/contrib/command.sh"; default_sockname 2> /dev/null || echo refused'
NODE = f"""
const {{ defaultSockname, throughOwnDirectory }} = require({str(CLIENTS / "node" / "lib" / "sockname")!r});
let found = defaultSockname();
try {{ throughOwnDirectory(found, () => {{}})(); }} catch (fault) {{ if (fault.code === "EPERM") found = "refused"; }}
console.log(found);
"""
# The functions of a script that is no module. It says nothing if the bridge has to look closer.
QUICK = f"""
eval "$(sed -n '/^is_own()/,/^}}/p; /^find_socket()/,/^}}/p; /^is_closed()/,/^}}/p' "{CLIENTS}/watchman")"
find_socket 2> /dev/null && echo "$sock"
"""


def said(words: List[str], room: Path, variables: Dict[str, str]) -> str:
    environment = environment_of(room, **variables)
    ended = subprocess.run(
        words, cwd=room, env=environment, timeout=PATIENCE, stdout=subprocess.PIPE, stderr=subprocess.STDOUT
    )
    return ended.stdout.decode().strip()


def by(*words: str) -> Decider:
    return lambda room, variables: said([*words], room, variables)


def by_its_error(words: List[str], path: str) -> Decider:
    """A command that says at which socket nobody listens."""

    def decide(room: Path, variables: Dict[str, str]) -> str:
        text = said(words, room, variables)
        found = re.search(path, text)
        return REFUSED if "no directory of yours alone" in text else found[1] if found else text

    return decide


def by_the_command(word: str, program: str, path: str) -> Decider:
    """The command around a program, with this word. `echo` in place of the program shows what it would get."""
    return lambda room, variables: by_its_error(
        ["env", f"WQD={program or built.program_path()}", str(built.TOP / "wqd"), word], path
    )(room, variables)


HOOK = [str(built.TOP / "contrib" / "git-fsmonitor-hook"), "2", ""]
EXAMPLE = [str(built.TOP / "examples" / "client.py"), "."]
OF_SERVER: Dict[str, Decider] = {
    "wqclient/sockets.py": by("python3", "-IBc", PYTHON + OF_CLIENTS),
    "contrib/command.sh": by("sh", "-c", SHELL),
    "wqd serve": by_the_command("serve", "/bin/echo", "--sockname ([^ ]*)"),
    "wqd sockname": by_the_command("sockname", "", "^(.*)$"),
    "git-fsmonitor-hook": by_its_error(HOOK, "since (.*) does not answer"),
    "examples/client.py": by_its_error(EXAMPLE, "^(.*): No such file"),
    **({"node/lib/sockname.js": by("node", "-e", NODE)} if shutil.which("node") else {}),
}
OF_BRIDGES: Dict[str, Decider] = {
    "bridge/sockets.py": by("python3", "-IBc", PYTHON + OF_BRIDGE),
    "clients/watchman": by("sh", "-c", QUICK),
}


class Row(NamedTuple):
    """The variables, in which @ is the room of a test; where the socket is; and what is different in a directory."""

    variables: Dict[str, str]
    place: str
    changed: str = ""
    change: Change = lambda path: None


def mode(bits: int) -> Change:
    return lambda path: path.chmod(bits)


def replaced(make: Callable[[Path, Path], object]) -> Change:
    """Something else is in the place of a directory, which has another name then."""

    def change(path: Path) -> None:
        aside = path.with_name("aside")
        path.rename(aside)
        make(path, aside)

    return change


def of_another(path: Path) -> None:
    os.chown(path, OTHER, OTHER)


a_file = replaced(lambda path, aside: path.touch())
a_link = replaced(lambda path, aside: path.symlink_to(aside))
# The directory of the session, and the one of the user's own below TMPDIR.
SESSION, OWN = "run", "own"
BOTH = {"XDG_RUNTIME_DIR": "@/run", "TMPDIR": "@/tmp"}
ALONE = {"TMPDIR": "@/tmp"}
ROWS: Dict[str, Row] = {
    "a session": Row(BOTH, SESSION),
    "one that others may read": Row(BOTH, SESSION, SESSION, mode(0o755)),
    "one by a link": Row({**BOTH, "XDG_RUNTIME_DIR": "@/link"}, "link"),
    "one by a relative path": Row({**BOTH, "XDG_RUNTIME_DIR": "run"}, SESSION),
    "one with slashes": Row({**BOTH, "XDG_RUNTIME_DIR": "@/run//"}, SESSION),
    "one that a group may write to": Row(BOTH, OWN, SESSION, mode(0o770)),
    "one that all may write to": Row(BOTH, OWN, SESSION, mode(0o1777)),
    "one that is not there": Row({**BOTH, "XDG_RUNTIME_DIR": "@/none"}, OWN),
    "a file": Row(BOTH, OWN, SESSION, a_file),
    "no session": Row(ALONE, OWN),
    "an empty one": Row({**BOTH, "XDG_RUNTIME_DIR": ""}, OWN),
    "a relative TMPDIR": Row({"TMPDIR": "tmp"}, OWN),
    "TMPDIR with a slash": Row({"TMPDIR": "@/tmp/"}, OWN),
    "an own directory that others may read": Row(ALONE, REFUSED, OWN, mode(0o755)),
    "one that a group may enter": Row(ALONE, REFUSED, OWN, mode(0o710)),
    "a link to an own directory": Row(ALONE, REFUSED, OWN, a_link),
    "a file in its place": Row(ALONE, REFUSED, OWN, a_file),
    "a named socket": Row({**BOTH, "NAMED": "@/below/s"}, "below/s"),
    "one that is named from here": Row({**BOTH, "NAMED": "below/s"}, "below/s"),
    "an empty name": Row({**BOTH, "NAMED": ""}, SESSION),
}
OF_TWO_USERS: Dict[str, Row] = {
    "a session of another user": Row(BOTH, OWN, SESSION, of_another),
    "an own directory of another user": Row(ALONE, REFUSED, OWN, of_another),
}


class Socknames(Case):
    def test_server(self) -> None:
        for name, row in rows().items():
            for decider, decide in OF_SERVER.items():
                room = made(self.room / plain(decider) / plain(name), f"tmp/wqd-{UID}")
                places = {SESSION: "run/wqd.sock", "link": "link/wqd.sock", OWN: f"tmp/wqd-{UID}/wqd.sock"}
                found = decided(decide, row, room, "WQD_SOCK", f"tmp/wqd-{UID}")
                self.same(f"{name}: {decider}", found, expected(row, room, places))

    def test_bridge(self) -> None:
        """The quick answer of the command is the same, if it gives one, which needs the socket and lock of a bridge."""
        own = f"wqd-watchman-{UID}"
        places = {SESSION: f"run/{own}/sock", "link": f"link/{own}/sock", OWN: f"tmp/{own}/sock"}
        quick = []
        for name, row in rows().items():
            for decider, decide in OF_BRIDGES.items():
                room = made(self.room / plain(decider) / plain(name), f"tmp/{own}")
                (room / "run" / own).mkdir(mode=0o700)
                for place in (*places.values(), "below/s"):
                    listen(room / place)
                found = decided(decide, row, room, "WATCHMAN_SOCK", f"tmp/{own}")
                if found or decider != "clients/watchman":
                    self.same(f"{name}: {decider}", found, expected(row, room, places))
                    quick += [name] if decider == "clients/watchman" else []
        self.same(
            "quick answers", [name for name in ("a session", "no session", "a named socket") if name in quick], QUICKLY
        )


QUICKLY = ["a session", "no session", "a named socket"]


def plain(name: str) -> str:
    """A name of a directory: a path with other letters needs a closer look."""
    return re.sub("[^a-z]", "-", name)


def rows() -> Dict[str, Row]:
    return {**ROWS, **(OF_TWO_USERS if UID == 0 else {})}


def made(room: Path, own: str) -> Path:
    """A room with a session, a link to it, and a directory of the user's own."""
    for name in ("run", "below", own):
        (room / name).mkdir(parents=True, mode=0o700)
    (room / "link").symlink_to("run")
    return room


def listen(path: Path) -> None:
    """A socket with a lock beside it, as a bridge has them."""
    if not path.exists():
        here = os.getcwd()
        os.chdir(path.parent)
        with socket.socket(socket.AF_UNIX) as stream:
            stream.bind(path.name)
        os.chdir(here)
    path.with_name(path.name + ".lock").touch()


def decided(decide: Decider, row: Row, room: Path, variable: str, own: str) -> str:
    """What somebody decides for a row: an absolute path, REFUSED, or nothing."""
    if row.changed:
        row.change(room / (own if row.changed == OWN else row.changed))
    variables = {key.replace("NAMED", variable): text.replace("@", str(room)) for key, text in row.variables.items()}
    found = decide(room, variables)
    return found if found in ("", REFUSED) else os.path.normpath(room / found)


def expected(row: Row, room: Path, places: Dict[str, str]) -> str:
    return REFUSED if row.place == REFUSED else str(room / places.get(row.place, row.place))
