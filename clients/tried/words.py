"""Words of Watchman that the bridge keeps: each is said to both, and the answers are compared."""

import json
import os
import re
import shutil
import time
from pathlib import Path
from typing import Callable, Dict, List, NamedTuple

from rows import tables
from tried.both import Peer, pywatchman

CLOCK = re.compile(r"c:[0-9]+:[0-9]+:[0-9]+:[0-9]+")
# How long nothing more has to come, so that a step is over, in seconds.
QUIET = 0.7
# Keys whose values are each server's own.
OWN = ("version", "wqd", "watcher", "capabilities", "clock", "since")
ROOT = "ROOT"

TABLES = {name: [row.value() for row in rows] for name, rows in tables(Path(__file__).with_suffix(".rows")).items()}
NAMED = {"name": "x", "command": ["true"]}


class Word(NamedTuple):
    name: str
    # The answer of one of the two, in the same words for both.
    answer: Callable[[Peer, Path], object]


class Heard:
    """A client that subscribed, and the files and notices that it gets in each step."""

    def __init__(self, peer: Peer, root: Path, query: Dict[str, object]) -> None:
        self.peer = peer
        self.root = str(root)
        self.answers: List[object] = []
        self.ask("subscribe", self.root, "s", {"fields": ["name"], "expression": ["type", "f"], **query})
        self.step()

    def ask(self, *command: object) -> None:
        reply = plain(self.peer.ask(*command), self.root)
        self.answers.append({key: value for key, value in reply.items() if key not in ("pid", "sockname")})

    def step(self, change: Callable[[], object] = lambda: None) -> None:
        """Makes a change, and notes which files and notices come after it."""
        change()
        while self.receives():
            pass
        files, notices = set(), []
        for value in self.peer.client.getSubscription("s", root=self.root) or []:
            files.update(value.pop("files", []))
            if set(value) - {"is_fresh_instance", "root", "subscription", "unilateral", *OWN}:
                notices.append(plain(value, self.root))
        self.answers.append([sorted(files), notices])

    def receives(self) -> bool:
        self.peer.client.setTimeout(QUIET)
        try:
            self.peer.client.receive()
        except pywatchman.SocketTimeout:
            return False
        finally:
            self.peer.client.setTimeout(60)
        return True


def plain(reply: Dict[str, object], root: str) -> Dict[str, object]:
    """A reply without what each server has of its own."""
    text = json.dumps({key: value for key, value in reply.items() if key not in OWN}, sort_keys=True)
    found: Dict[str, object] = json.loads(CLOCK.sub("CLOCK", text.replace(root, ROOT)))
    return found


def at_root(command: List[object], root: Path) -> List[object]:
    return [str(root) if word == ROOT else word for word in command]


def answer_to(command: List[object]) -> Callable[[Peer, Path], object]:
    def answer(peer: Peer, root: Path) -> object:
        reply = plain(peer.ask(*at_root(command, root)), str(root))
        return {key: value for key, value in reply.items() if key not in ("pid", "sockname", "roots")}

    return answer


def answer_to_query(query: object) -> Callable[[Peer, Path], object]:
    def answer(peer: Peer, root: Path) -> object:
        if isinstance(query, dict):
            reply = peer.ask("query", str(root), {"fields": ["name"], **query})
        else:
            reply = peer.ask("query", str(root), query)
        return sorted(map(repr, reply["files"])) if "files" in reply else plain(reply, str(root))

    return answer


def put(root: Path, name: str) -> None:
    aside = root.parent / "aside"
    (root / name).parent.mkdir(parents=True, exist_ok=True)
    aside.write_text("x")
    aside.rename(root / name)


def deferring(peer: Peer, root: Path) -> object:
    heard = Heard(peer, root, {"defer": ["x"]})
    heard.ask("state-enter", str(root), {"name": "x", "metadata": {"a": 1}})
    heard.step()
    heard.step(lambda: put(root, "one"))
    heard.step(lambda: put(root, "two"))
    heard.ask("state-leave", str(root), {"name": "x", "metadata": 2})
    heard.step()
    heard.step(lambda: put(root, "three"))
    return heard.answers


def dropping(peer: Peer, root: Path) -> object:
    heard = Heard(peer, root, {"drop": ["x"]})
    heard.ask("state-enter", str(root), "x")
    heard.step(lambda: put(root, "one"))
    heard.ask("flush-subscriptions", str(root), {"sync_timeout": 1000})
    heard.ask("state-leave", str(root), "x")
    heard.step()
    heard.step(lambda: put(root, "two"))
    return heard.answers


def flushing(peer: Peer, root: Path) -> object:
    heard = Heard(peer, root, {})
    heard.ask("debug-set-subscriptions-paused", {"s": True})
    heard.step(lambda: put(root, "one"))
    heard.ask("flush-subscriptions", str(root), {"sync_timeout": 1000})
    heard.step()
    heard.ask("flush-subscriptions", str(root), {"sync_timeout": 1000, "subscriptions": ["s"]})
    heard.ask("debug-set-subscriptions-paused", {"s": False})
    heard.step(lambda: put(root, "two"))
    return heard.answers


def source_control(peer: Peer, root: Path) -> object:
    heard = Heard(peer, root, {"expression": ["suffix", "c"]})
    heard.step(lambda: put(root, ".git/index.lock"))
    heard.step(lambda: put(root, "new.c"))
    heard.step(lambda: (root / ".git" / "index.lock").unlink())
    return heard.answers


def generators_of_subscriptions(peer: Peer, root: Path) -> object:
    heard = Heard(peer, root, {"suffix": ["h"], "path": ["d"], "glob": ["x"]})
    heard.step(lambda: put(root, "new.c"))
    return heard.answers


def subscription_from_a_cursor(peer: Peer, root: Path) -> object:
    peer.ask("query", str(root), {"since": "n:k", "fields": ["name"]})
    put(root, "before")
    peer.ask("query", str(root), {"fields": ["name"]})
    heard = Heard(peer, root, {"since": "n:k"})
    heard.step(lambda: put(root, "after"))
    return heard.answers


def recrawl(peer: Peer, root: Path) -> object:
    found = [plain(peer.ask("debug-recrawl", str(root)), str(root))]
    warning = str(peer.ask("query", str(root), {"fields": ["name"]}).get("warning"))
    commands = (["clock", ROOT], ["find", ROOT], ["since", ROOT, "c:0:0"], ["watch", ROOT], ["watch-project", ROOT])
    warned = [command[0] for command in commands if "warning" in peer.ask(*at_root(list(command), root))]
    return [*found, warning.replace(str(root), ROOT), warned]


def globs_below_what_has_gone(peer: Peer, root: Path) -> object:
    shutil.rmtree(root / "d")
    return [answer_to_query({"glob": ["*"], "relative_root": name})(peer, root) for name in ("d", "d/e", "none")]


def seconds(peer: Peer, root: Path) -> object:
    """The files of a second, of that before it, and of that after it, by the term."""
    second = 1_700_000_000
    for number, name in enumerate(("a.c", "d/b.c", "d/x.h"), second - 1):
        os.utime(root / name, (number, number))
    peer.ask("clock", str(root), {"sync_timeout": 60_000})
    terms = [["since", number, "mtime"] for number in range(second - 2, second + 3)]
    return [answer_to_query({"expression": ["allof", ["type", "f"], term]})(peer, root) for term in terms]


def left_out(peer: Peer, root: Path) -> object:
    found = [
        answer_to_query(query)(peer, root)
        for query in (
            {},
            {"relative_root": "d"},
            {"path": ["out", "d"]},
            {"suffix": ["c"]},
            {"expression": ["dirname", ".git"]},
        )
    ]
    heard = Heard(peer, root, {})
    heard.step(lambda: put(root, "out/new"))
    heard.step(lambda: put(root, ".git/objects/new"))
    return [*found, *heard.answers, answer_to(["get-config", ROOT])(peer, root)]


def triggers(peer: Peer, root: Path) -> object:
    given = {
        **NAMED,
        "expression": ["suffix", "none"],
        "chdir": "d",
        "stdout": ">out",
        "stderr": ">>err",
        "relative_root": "d",
        "stdin": ["name", "mode"],
        "max_files_stdin": 2,
    }
    commands = [
        ["trigger", ROOT, given],
        ["trigger", ROOT, given],
        ["trigger", ROOT, {**given, "chdir": "e"}],
        ["trigger", ROOT, "old", "*.none", "-X", "a*", "--", "true", "x"],
        ["trigger-list", ROOT],
        ["trigger-del", ROOT, "x"],
        ["trigger-del", ROOT, "old"],
        ["trigger-list", ROOT],
    ]
    found = [answer_to(command)(peer, root) for command in commands]
    return json.loads(json.dumps([by_name(each) for each in found]))


def by_name(reply: object) -> object:
    """Triggers in the order of their names: Watchman has none."""
    if isinstance(reply, dict) and isinstance(reply.get("triggers"), list):
        reply["triggers"].sort(key=lambda trigger: trigger["name"])
    return reply


def root_that_goes(peer: Peer, root: Path) -> object:
    heard = Heard(peer, root, {"expression": ["name", "none"]})
    shutil.rmtree(root)
    time.sleep(2)
    heard.step()
    return [heard.answers[-1], plain(peer.ask("clock", str(root)), str(root)).get("error", "").replace("lstat: ", "")]


WORDS = [
    *(Word(f"the term {json.dumps(term)}", answer_to_query({"expression": term})) for term in TABLES["terms"]),
    *(Word(f"the query {json.dumps(query)[:80]}", answer_to_query(query)) for query in TABLES["queries"]),
    *(Word(f"the command {json.dumps(command)}", answer_to(command)) for command in TABLES["commands"]),
    *(
        Word(answer.__name__.replace("_", " "), answer)
        for answer in (
            deferring,
            dropping,
            flushing,
            source_control,
            generators_of_subscriptions,
            subscription_from_a_cursor,
            recrawl,
            left_out,
            globs_below_what_has_gone,
            seconds,
            triggers,
            root_that_goes,
        )
    ),
]


def make(root: Path) -> None:
    """A tree with settings."""
    for name in ("a.c", "d/b.c", "d/e/c.h", "d/x.h", "out/o", ".git/HEAD", ".git/objects/aa/x"):
        put(root, name)
    (root / ".watchmanconfig").write_text('{"ignore_dirs": ["out"]}')


def differing(own: Callable[[], Peer], bridged: Callable[[], Peer], room: Path) -> List[str]:
    """The words that the two answer in another way, each asked by a client of its own of a root of its own."""
    found = []
    for number, word in enumerate(WORDS):
        answers = []
        for kind, connect in (("own", own), ("bridged", bridged)):
            root = room / f"{kind}{number}" / "root"
            make(root)
            peer = connect()
            peer.ask("watch", str(root))
            try:
                answers.append(word.answer(peer, root))
            except Exception as error:
                answers.append(repr(error))
            peer.ask("watch-del", str(root))
            peer.client.close()
        if answers[0] != answers[1]:
            found.append(f"{word.name}\n  Watchman: {answers[0]}\n  wqd: {answers[1]}")
    return found
