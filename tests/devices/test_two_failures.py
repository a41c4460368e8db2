"""Servers of which two calls fail in one run: of the disk, of a stream or of a start of a command. Each pair has a
server of its own. `strace` counts the calls of each thread by itself, so each thread's own calls of these numbers
fail."""

import itertools
from concurrent.futures import ThreadPoolExecutor
from pathlib import Path
from typing import Callable, Dict, Iterator, List, NamedTuple, Optional, Sequence, Set, Tuple, Type, Union

from case import Case
from client import A_HOUR, Client, Server
from following import Caller, Follower, Subscriber, watched
from injected import STRACE
from waiting import look_until

LANES = 4
# How often one walk of the tree makes each call.
WALK = {"openat": 2, "getdents64": 4, "statx": 4}
# The first reply of each session is written, and the first line of each is read. Before a reply with files a write of
# nothing looks whether the client is there: that fails with the reply. A subscriber has its first list too.
STREAMS: Dict[str, Sequence[Union[int, str]]] = {"recvfrom": range(2, 5), "sendto": ["3..4", "5..6", "7..8"]}
LISTS: Dict[str, Sequence[Union[int, str]]] = {"sendto": range(3, 6)}
# The first of these start the crawler, the thread of idle moments and a session, in the thread that accepts; the
# crawler's own start commands.
STARTS = {"openat": range(1, 7), "getdents64": range(1, 5), "clone3": range(4, 8)}
INTERVAL = 10
ERRORS = {"clone3": "EAGAIN"}
Call = Tuple[str, Union[int, str]]


class Pair(NamedTuple):
    """Two calls that fail."""

    first: Call
    second: Call

    def __str__(self) -> str:
        return " and ".join(f"{call} {number}" for call, number in self)

    def lost(self) -> Set[str]:
        """The files that a walk may not see for these calls."""
        calls = {call for call, _ in self}
        return {"a", "d", "d/b"} if "statx" in calls else {"d/b"} if calls & WALK.keys() else set()

    def is_cut(self) -> bool:
        return bool({call for call, _ in self} & {"recvfrom", "sendto"})

    def through(self, log: Path) -> List[str]:
        names = sorted({call for call, _ in self})
        if len(names) == 1:
            low, high = int(self.first[1]), int(self.second[1])
            rules = [rule(names[0], f"{low}..{high}+{high - low}")]
        else:
            rules = [rule(call, str(number)) for call, number in self]
        return [
            *STRACE,
            "-D",
            "-o",
            str(log),
            "-e",
            "trace=" + ",".join(names),
            *itertools.chain(*(("-e", it) for it in rules)),
        ]


def rule(call: str, when: str) -> str:
    return f"inject={call}:error={ERRORS.get(call, 'EIO')}:when={when}"


def walk_pairs() -> Iterator[Pair]:
    """Two calls of one kind within two walks, and two of different kinds within one."""
    for call, count in WALK.items():
        yield from (Pair((call, low), (call, high)) for low, high in itertools.combinations(range(1, 2 * count + 1), 2))
    for (one, count), (other, others) in itertools.combinations(WALK.items(), 2):
        yield from (Pair((one, low), (other, high)) for low in range(1, count + 1) for high in range(1, others + 1))


def stream_pairs(streams: Dict[str, Sequence[Union[int, str]]]) -> Iterator[Pair]:
    """A call of a walk and one of a stream, and one of each stream."""
    for (call, count), (stream, numbers) in itertools.product(WALK.items(), streams.items()):
        yield from (Pair((call, low), (stream, high)) for low in range(1, count + 1) for high in numbers)
    for (one, numbers), (other, others) in itertools.combinations(streams.items(), 2):
        yield from (Pair((one, low), (other, high)) for low in numbers for high in others)


def start_pairs() -> Iterator[Pair]:
    for call, numbers in STARTS.items():
        yield from (Pair((call, low), (call, high)) for low, high in itertools.combinations(numbers, 2))
    for (one, numbers), (other, others) in itertools.combinations(STARTS.items(), 2):
        yield from (Pair((one, low), (other, high)) for low in numbers for high in others)


Part = Callable[[Path, Pair], List[str]]


class Pairs(Case):
    def test_pairs(self) -> None:
        """A query, a cursor and a `watch`; a subscription and idle moments; a trigger."""
        self.check_installed("strace")
        parts: Dict[Part, List[Pair]] = {
            queries: [*walk_pairs(), *stream_pairs(STREAMS)],
            subscriptions: [*walk_pairs(), *stream_pairs(LISTS)],
            triggers: [*start_pairs()],
        }
        tasks = [(part, pair) for part, pairs in parts.items() for pair in pairs]
        with ThreadPoolExecutor(LANES) as pool:
            found = pool.map(lambda task: attempt(self.room, *task), tasks)
            for (part, pair), wrong in zip(tasks, found):
                self.check(f"{part.__name__}, {pair} fail", not wrong, wrong)


def attempt(room: Path, part: Part, pair: Pair) -> List[str]:
    """What is wrong in a run with this pair."""
    inside = room / f"{part.__name__} {pair}"
    inside.mkdir()
    try:
        return part(inside, pair)
    except ValueError as error:
        # The start may meet the first call. Then it leaves nothing behind.
        is_start = "cannot listen" in str(error) and pair.first[0] in WALK and not (inside / "socket").exists()
        return [] if is_start else [repr(error)]
    except Exception as error:
        return [repr(error)]


def make_tree(root: Path) -> None:
    """The directory comes with its file, so that it does not change after a walk."""
    beside = root.parent / "made"
    beside.mkdir()
    (beside / "b").touch()
    (root / "a").touch()
    beside.rename(root / "d")


def is_met(log: Path) -> bool:
    return log.read_bytes().count(b"(INJECTED)") > 1


def queries(room: Path, pair: Pair) -> List[str]:
    """A follower by a clock and by a cursor, in as many sessions as it takes. It hears of all, and of nothing twice."""
    root, log = room / "tree", room / "log"
    root.mkdir()
    with Server(room, interval=A_HOUR, through=pair.through(log)) as server:
        if not watched(server, root):
            return ["the root is not watched"]
        make_tree(root)
        kind: Type[Union[Caller, Follower]] = Caller if pair.is_cut() else Follower
        follower = kind(server, root, pair.lost())
        follower.follow({"a", "d", "d/b"})
        (root / "a").unlink()
        follower.follow({"d", "d/b"})
        return [*follower.wrong, *ended(server)]


def subscriptions(room: Path, pair: Pair) -> List[str]:
    """A subscriber that begins anew where its session ended. It hears of all, and of nothing twice."""
    root, log = room / "tree", room / "log"
    root.mkdir()
    with Server(room, interval=INTERVAL, through=pair.through(log)) as server:
        if not watched(server, root):
            return ["the root is not watched"]
        subscriber = Subscriber(server, root, pair.lost())
        make_tree(root)
        subscriber.hear({"a", "d", "d/b"})
        (root / "a").unlink()
        subscriber.hear({"d", "d/b"})
        return [*subscriber.wrong, *ended(server)]


def triggers(room: Path, pair: Pair) -> List[str]:
    """A trigger that writes down the files of its batches. Each file comes once, in their order."""
    root, log, told = room / "tree", room / "log", room / "told"
    root.mkdir()
    # The shell's own first calls of a name may fail too: so it opens some files before.
    script = f'for n in 1 2 3 4 5 6; do true < /dev/null; done; for file; do echo "$file" >> "{told}"; done'
    command = {"name": "t", "command": ["/bin/sh", "-c", script, "sh"], "append_files": True}
    with Server(room, interval=INTERVAL, through=pair.through(log)) as server, server.client() as client:
        if not watched(server, root, client):
            return ["the root is not watched"]
        reply = client.ask("trigger", str(root), command)
        if reply.get("disposition") != "created":
            return [f"the trigger: {reply}"]
        wrong = []
        for count, name in enumerate("abcd", 1):
            (root / name).touch()
            lines = come_to(told, count)
            if lines != list("abcd")[:count]:
                wrong.append(f"told after {name}: {lines}")
        if not is_met(log):
            wrong.append("the calls were not met")
        return [*wrong, *ended(server, client)]


def come_to(told: Path, count: int) -> List[str]:
    """The lines of a file, when there are so many or the patience ends."""
    return look_until(lambda: told.read_text().splitlines() if told.exists() else [], lambda lines: len(lines) >= count)


def ended(server: Server, client: Optional[Client] = None) -> List[str]:
    """What is wrong with the end of the server, which is asked for by a new client, or by this one."""
    asking = client or server.client()
    status = server.shut_down(asking)
    return [] if status == 0 else [f"the end: {status}"]
