"""A round: six clients at once, whose requests are about the same few programs and one cursor, while files come."""

import itertools
import json
import selectors
import time
from pathlib import Path
from typing import Iterator, List, NamedTuple, Sequence, Tuple

from client import PATIENCE, Client
from draws import Draws
from history import NEW, VERSIONS, Asked, Coming, Request, own_file
from shelves import Tree

CLIENTS = 6
# How many requests each of them sends.
TURNS = 6
NAMES = ["a", "b", "c"]
# A file comes after so many replies.
REPLIES = 4


class Played(NamedTuple):
    """The requests of a round, the files that came meanwhile, and the tick at which each file was seen."""

    requests: List[Request]
    coming: List[Coming]
    tree: Tree


class Speaker:
    """A client with the requests that it has still to send. It sends one when the one before is answered."""

    def __init__(self, number: int, client: Client, asked: Sequence[Asked], root: str) -> None:
        self.number = number
        self.client = client
        self.left = [(one, json.dumps(one.command(root)).encode() + b"\n") for one in reversed(asked)]

    def send(self) -> None:
        self.asked, line = self.left.pop()
        self.sent = time.monotonic_ns()
        self.client.send_bytes(line)

    def receive(self) -> Request:
        line = self.client.line()
        return Request(self.number, self.asked, self.sent, time.monotonic_ns(), json.loads(line))


def make_tree(root: Path) -> None:
    """The files by which replies tell which program answered."""
    root.mkdir()
    for version in range(VERSIONS):
        (root / own_file(version)).touch()


def play(root: Path, clients: Sequence[Client], seed: int) -> Played:
    """A round of the requests that a seed says, on a root that is watched for it. After it no program is kept."""
    clients[0].ask("watch", str(root))
    draws, versions = Draws(seed), itertools.cycle(range(VERSIONS))
    plans = [[drawn(draws, versions) for _ in range(TURNS)] for _ in clients]
    speakers = [Speaker(number, *each, str(root)) for number, each in enumerate(zip(clients, plans), 1)]
    requests, coming = spoken(root, speakers)
    last = Speaker(1, clients[0], last_requests(), str(root))
    while last.left:
        last.send()
        requests.append(last.receive())
    tree = tree_of(clients[0], root)
    clean(clients[0], root, coming)
    return Played(requests, coming, tree)


def drawn(draws: Draws, versions: Iterator[int]) -> Asked:
    """A request. Each program that is added is another one."""
    kind = draws.below(20)
    name = draws.pick(NAMES)
    if kind < 6:
        return Asked("add", name, version=next(versions))
    if kind < 10:
        return Asked("delete", name)
    if kind < 13:
        return Asked("list")
    has_cursor = kind >= 16
    return Asked("query", name if kind < 18 else None, has_cursor=has_cursor, scans=draws.one_in(3))


def last_requests() -> List[Asked]:
    """Requests at the end of a round that show all that it left."""
    return [Asked("list"), *[Asked("query", name) for name in NAMES], Asked("query", has_cursor=True, scans=True)]


def spoken(root: Path, speakers: Sequence[Speaker]) -> Tuple[List[Request], List[Coming]]:
    """Each client's requests, all clients at once. One thread sends and receives, so that the times are near."""
    requests: List[Request] = []
    coming: List[Coming] = []
    with selectors.DefaultSelector() as selector:
        for speaker in speakers:
            selector.register(speaker.client, selectors.EVENT_READ, speaker)
            speaker.send()
        while selector.get_map():
            for key, _ in wait(selector):
                speaker = key.data
                requests.append(speaker.receive())
                if len(requests) % REPLIES == 0:
                    coming.append(make_file(root, len(coming)))
                if speaker.left:
                    speaker.send()
                else:
                    selector.unregister(speaker.client)
    return requests, coming


def wait(selector: selectors.BaseSelector) -> List[Tuple[selectors.SelectorKey, int]]:
    ready = selector.select(PATIENCE)
    if not ready:
        raise ValueError("the server did not answer")
    return ready


def make_file(root: Path, number: int) -> Coming:
    name = f"{NEW}{number:02}"
    (root / name).touch()
    return Coming(name, time.monotonic_ns())


def tree_of(client: Client, root: Path) -> Tree:
    """The files of a root and the tick at which each came, as the server says after the round."""
    reply = client.ask("query", str(root), {"fields": ["name", "oclock"]})
    clocks = {file["name"]: file["oclock"].rsplit(":", 2)[1:] for file in reply["files"]}
    numbers = {int(number) for number, _ in clocks.values()}
    return Tree(numbers.pop(), {name: int(tick) for name, (_, tick) in clocks.items()})


def clean(client: Client, root: Path, coming: Sequence[Coming]) -> None:
    """Takes away what the round left: its programs, its files, and with the watch of the root its cursor."""
    for name in NAMES:
        client.ask("program-del", name)
    client.ask("watch-del", str(root))
    for file in coming:
        (root / file.name).unlink()
