"""The observer beside watchdog's own polling."""

import shutil
import subprocess
import sys
import time
from pathlib import Path
from typing import Callable, List, Set, Tuple

import built
from case import Case
from client import Server
from serving import made, needs_watchdog, served, write_longer

needs_watchdog()

from recording import TIMEOUT, Recorder
from watchdog.observers.polling import PollingObserver
from wqd_watchdog import WqdObserver
from wqd_watchdog.wqclient.kept import STOPS, keep, run_of

HISTORIES = "6"
# How long an event is waited for that should not come.
SILENCE = 0.5


STEPS: List[Tuple[Callable[[Path], object], Set[str]]] = [
    (lambda root: (root / "new").touch(), {"created new"}),
    (lambda root: write_longer(root / "a"), {"modified a"}),
    (lambda root: (root / "d" / "e" / "c").unlink(), {"deleted d/e/c"}),
    (lambda root: (root / "m" / "n").mkdir(parents=True), {"created m/", "created m/n/"}),
    (lambda root: shutil.rmtree(root / "d"), {"deleted d/", "deleted d/b", "deleted d/e/"}),
    (lambda root: (root / "new").rename(root / "newer"), {"deleted new", "created newer"}),
]


class Observers(Case):
    def test_events(self) -> None:
        """For each change the events are those of polling, but for a file that moves."""
        root = made(self.room)
        with served(self.room):
            own, polling = WqdObserver(timeout=TIMEOUT), PollingObserver(timeout=TIMEOUT)
            recorders = [Recorder(own, root), Recorder(polling, root)]
            flat, file = Recorder(own, root, False), Recorder(own, root / "a")
            for observer in (own, polling):
                observer.start()
            for number, (change, expected) in enumerate(STEPS):
                change(root)
                self.same(f"the events of change {number}", recorders[0].waits_for(expected), expected)
                if number < len(STEPS) - 1:
                    self.same(f"those of polling {number}", recorders[1].waits_for(expected), expected)
            expected = {"created new", "modified a", "created m/", "deleted d/", "deleted new", "created newer"}
            self.same("of a watch that is not recursive", flat.waits_for(expected), expected)
            self.same("of a single file", file.waits_for({"modified ."}), {"modified ."})
            shutil.rmtree(root)
            self.same("a directory that goes", "deleted ./" in recorders[0].waits_for({"deleted ./"}), True)
            for observer in (own, polling):
                observer.stop()
                observer.join()

    def test_missing_directories(self) -> None:
        """The error of a directory that is not there is that of polling."""
        with served(self.room):
            for kind in (PollingObserver, WqdObserver):
                observer = kind(timeout=TIMEOUT)
                Recorder(observer, self.room / "none")
                try:
                    observer.start()
                    found = "no error"
                except OSError as error:
                    found = type(error).__name__
                self.same(f"a directory that is missing, {kind.__name__}", found, "FileNotFoundError")

    def test_unscheduling(self) -> None:
        root = made(self.room)
        with served(self.room) as running, running.client() as client:
            observer = WqdObserver(timeout=TIMEOUT)
            observer.start()
            first, second = Recorder(observer, root / "d"), Recorder(observer, root)
            self.same("one root", client.ask("watch-list")["roots"], [str(root)])
            (root / "d" / "new").touch()
            self.same(
                "both hear",
                [first.waits_for({"created new"}), second.waits_for({"created d/new"})],
                [{"created new"}, {"created d/new"}],
            )
            observer.unschedule(second.watch)
            (root / "d" / "newer").touch()
            self.same("one hears", first.waits_for({"created newer"}), {"created newer"})
            self.same("the other does not", second.said(), set())
            observer.unschedule_all()
            self.same("no root is left", client.ask("watch-list")["roots"], [])
            observer.stop()
            observer.join()

    def test_a_stopped_server(self) -> None:
        """After a server that was stopped on purpose none is started; another one that listens is asked, and nothing is
        missed."""
        root = made(self.room)
        with served(self.room) as running:
            observer = WqdObserver(timeout=TIMEOUT)
            recorder = Recorder(observer, root)
            observer.start()
            keep({"run": run_of(running.process.pid)}, STOPS, running.sockname)
            running.kill()
            (root / "a").unlink()
            (root / "new").touch()
            time.sleep(SILENCE)
            self.same("without a server", recorder.said(), set())
            with Server(self.room, interval=50, share=50):
                expected = {"deleted a", "created new"}
                self.same("what changed meanwhile", recorder.waits_for(expected), expected)
                observer.stop()
                observer.join()

    def test_histories(self) -> None:
        command = [sys.executable, str(built.TOP / "clients" / "watchdog" / "compare"), "--histories", HISTORIES]
        ended = subprocess.run(command, stdout=subprocess.PIPE, stderr=subprocess.DEVNULL)
        lines = ended.stdout.decode().splitlines()
        self.check("drawn histories", ended.returncode == 0 and lines[-1].endswith("wqd has 0 faults"), lines)
