"""Judges observers over one history: each change has an event, no event is of a file that never was, and the events
lead to the tree."""

import os
import random
import time
from pathlib import Path
from typing import Callable, Dict, List, NamedTuple, Set, Tuple

from watchdog.observers.api import BaseObserver

from .drawing import Drawn
from .following import Follower, Picture, picture_of
from .served import Served

# In seconds: how long an event may take, how often it is looked for, and how long an event is waited for that should
# not come.
PATIENCE, LOOK, SILENCE = 10.0, 0.02, 0.4
STEPS = 5
RESTARTS, BURSTS = 0.1, 0.25
Found = Tuple[Picture, Dict[str, Tuple[int, int]]]
# The one that is judged strictly; another one may say that a file came twice.
OWN = "wqd"
# The kernel says nothing of what is behind a link.
BY_KERNEL = "inotify"


class Fault(NamedTuple):
    observer: str
    kind: str
    details: str


class History:
    """One tree, the observers that follow it, and what was wrong."""

    def __init__(self, room: Path, seed: str, observers: Dict[str, Callable[[], BaseObserver]], served: Served) -> None:
        self.draw = random.Random(seed)
        self.served = served
        self.drawn = Drawn(room, self.draw)
        for _ in range(6):
            self.drawn.step()
        self.root = self.drawn.root
        self.steps: List[str] = []
        self.faults: List[Fault] = []
        self.ever: Set[Tuple[str, bool]] = set(picture_of(self.root)[0].items())
        # An observer that begins without a server would start one.
        with served.lock:
            self.followers = [Follower(name, make(), self.root) for name, make in observers.items()]

    def run(self) -> List[Fault]:
        try:
            for _ in range(STEPS):
                self.step()
            time.sleep(SILENCE)
            self.judge_ends()
        finally:
            for follower in self.followers:
                follower.close()
        return self.faults

    def step(self) -> None:
        before = picture_of(self.root)
        places = [len(follower.events) for follower in self.followers]
        chance = self.draw.random()
        if chance < RESTARTS:
            with self.served.lock:
                self.served.kill()
                self.steps.append(f"without a server: {self.burst()}")
                self.served.start()
        else:
            self.steps.append(self.burst() if chance < RESTARTS + BURSTS else self.drawn.step())
        after = picture_of(self.root)
        self.ever |= set(after[0].items())
        for follower, place in zip(self.followers, places):
            self.wait_for(follower, place, changed(before, after))

    def burst(self) -> str:
        """Several changes. What is there between them counts too."""
        done = []
        for _ in range(self.draw.randrange(4, 16)):
            done.append(self.drawn.step())
            self.ever |= set(picture_of(self.root)[0].items())
        return "; ".join(done)

    def wait_for(self, follower: Follower, place: int, wanted: Set[str]) -> None:
        if follower.name == BY_KERNEL:
            wanted = {path for path in wanted if not is_behind_a_link(path, str(self.root))}
        end = time.monotonic() + PATIENCE
        while not wanted <= follower.told_since(place):
            if time.monotonic() > end:
                missed = sorted(wanted - follower.told_since(place))
                self.faults.append(Fault(follower.name, "a change is not told", f"{missed} after {self.steps}"))
                return
            time.sleep(LOOK)

    def judge_ends(self) -> None:
        there = picture_of(self.root)[0]
        for follower in self.followers:
            strange = [str(event) for event in follower.events if not self.is_known(event, follower.name)]
            if strange:
                self.faults.append(Fault(follower.name, "an event of a file that never was", f"{strange} {self.steps}"))
            found, expected = self.comparable(follower.picture, follower.name), self.comparable(there, follower.name)
            if found != expected:
                differing = sorted(found.items() ^ expected.items())
                self.faults.append(Fault(follower.name, "another picture at the end", f"{differing} {self.steps}"))
            if follower.twice:
                self.faults.append(Fault(follower.name, "a file came or went twice", f"{follower.twice} {self.steps}"))

    def is_known(self, event: object, observer: str) -> bool:
        """Whether a file of this kind was once at the path. The file aside of a save is there for a moment; by the
        kernel a link is no directory."""
        path, is_directory = getattr(event, "src_path"), getattr(event, "is_directory")
        if path == str(self.root) or path.endswith("/.aside"):
            return True
        return (path, is_directory) in self.ever or (observer == BY_KERNEL and (path, not is_directory) in self.ever)

    def comparable(self, picture: Picture, observer: str) -> Picture:
        if observer != BY_KERNEL:
            return picture
        return {path: kind for path, kind in picture.items() if not is_behind_a_link(path, str(self.root))}


def changed(before: Found, after: Found) -> Set[str]:
    """The paths that came, went, or have another size or time; of a directory the time says nothing that its files do
    not."""
    came_or_went = {path for path, _ in before[0].items() ^ after[0].items()}
    written = {
        path
        for path, is_directory in after[0].items()
        if not is_directory and path in before[1] and before[1][path] != after[1][path]
    }
    return came_or_went | written


def is_behind_a_link(path: str, root: str) -> bool:
    """Whether the path, or a directory above it, is a link. One that is gone may have been a link."""
    while path != root:
        if os.path.islink(path) or not os.path.lexists(path):
            return True
        path = os.path.dirname(path)
    return False
