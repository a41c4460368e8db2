"""Watches for which the server has no place: watchdog's own polling takes them until it has one."""

import contextlib
import io
import os
import time
from pathlib import Path
from typing import Iterator, List
from unittest.mock import patch

import built
from case import Case
from client import PATIENCE, Server
from serving import needs_watchdog, served
from waiting import look_until, wait_until

needs_watchdog()

from recording import TIMEOUT, Recorder
from wqd_watchdog import WqdObserver, emitter, server
from wqd_watchdog.wqclient.kept import STOPS, keep, run_of
from wqd_watchdog.wqclient.own_roots import set_own_root

RETRY = 0.3
POLLS = "watchdog's own polling watches until the server can"


@contextlib.contextmanager
def heard() -> Iterator[io.StringIO]:
    """What a person hears; a server that had no place is asked again soon."""
    with contextlib.redirect_stderr(io.StringIO()) as stream, patch.object(emitter, "RETRY", RETRY):
        yield stream


def made(room: Path, count: int) -> List[Path]:
    paths = [room / f"tree{number}" for number in range(count)]
    for path in paths:
        path.mkdir()
    return paths


@contextlib.contextmanager
def observed(*paths: Path) -> Iterator[List[Recorder]]:
    observer = WqdObserver(timeout=TIMEOUT)
    recorders = [Recorder(observer, path) for path in paths]
    observer.start()
    try:
        yield recorders
    finally:
        observer.stop()
        observer.join()


class Places(Case):
    def check_told(self, name: str, recorder: Recorder) -> None:
        file = f"{name} is told".replace(" ", "-")
        (recorder.path / file).touch()
        self.same(name, recorder.waits_for({f"created {file}"}), {f"created {file}"})

    def test_no_root(self) -> None:
        others, own = made(self.room, 17)[1:], self.room / "tree0"
        with served(self.room) as running, running.client() as client, heard() as stream:
            for path in others:
                client.ask("watch", str(path))
            with observed(own, own) as (recorder, _):
                self.check_told("by polling", recorder)
                said = stream.getvalue().splitlines()
                self.check("it is said once", len(said) == 1 and POLLS in said[0] and "16 directories" in said[0], said)
                client.ask("watch-del", str(others[0]))
                wait_until(lambda: str(own) in client.ask("watch-list")["roots"])
                self.check_told("by the server", recorder)
                self.same("nothing else is said", stream.getvalue().splitlines(), said)

    def test_no_client(self) -> None:
        own = made(self.room, 1)[0]
        with served(self.room) as running, heard() as stream:
            with contextlib.ExitStack() as others:
                for _ in range(32):
                    others.enter_context(running.client()).ask("version")
                observing = contextlib.ExitStack()
                self.addCleanup(observing.close)
                recorder = observing.enter_context(observed(own))[0]
                self.check_told("by polling", recorder)
                self.check("why", "32 clients are connected" in stream.getvalue(), [stream.getvalue()])
            (own / "meanwhile").touch()
            self.same("a change meanwhile", recorder.waits_for({"created meanwhile"}), {"created meanwhile"})
            with running.client_when_free() as client:
                wait_until(lambda: str(own) in client.ask("watch-list")["roots"])
            self.check_told("by the server", recorder)
            observing.close()

    def test_no_server(self) -> None:
        """One that cannot be started, and one that was stopped on purpose."""
        own, later, program = made(self.room, 1)[0], self.room / "later", str(built.program_path())
        named = {"WQD_SOCK": str(later / "socket"), "WQD": "/bin/false", "XDG_STATE_HOME": str(self.room)}
        with heard() as stream, patch.dict(os.environ, named), observed(own) as (recorder,):
            self.check_told("without a server", recorder)
            self.check("that is said", POLLS in stream.getvalue(), [stream.getvalue()])
            later.mkdir()
            with patch.object(server, "start_server"), patch.dict(os.environ, WQD=program):
                running = Server(later, interval=50, share=50)
            with running, running.client() as client:
                wait_until(lambda: str(own) in client.ask("watch-list")["roots"])
                self.check_told("by one that comes", recorder)
                keep({"run": run_of(running.process.pid)}, STOPS, running.sockname)
                running.kill()
                (own / "gone").touch()
                time.sleep(server.OTHERS)
                self.same("after it was stopped", recorder.waits_for({"created gone"}), {"created gone"})
                self.check_told("and later", recorder)

    def test_own_roots(self) -> None:
        """What `wq watch --root` made a root serves all watches below it, although the project is watched."""
        own = self.room / "tree0" / "own"
        parts = [own / "a" / "b", own / "c"]
        for path in parts:
            path.mkdir(parents=True)
        with served(self.room) as running, running.client() as client, heard() as stream:
            set_own_root(str(own), True)
            client.ask("watch", str(own.parent))
            with observed(*parts) as recorders:
                for number, recorder in enumerate(recorders):
                    self.check_told(f"watch {number}", recorder)
                roots = client.ask("watch-list")["roots"]
                self.same("the roots", roots, [str(own.parent), str(own)])
            self.same("it is given back", client.ask("watch-list")["roots"], [str(own.parent)])
            self.same("nothing is said", stream.getvalue(), "")

    def test_many_roots(self) -> None:
        """The roots of all observers of a process count: what their directories have in common is watched then."""
        paths = made(self.directory("many"), 20)
        with served(self.room) as running, running.client() as client, heard() as stream:
            with observed(*paths[:10]) as first, observed(*paths[10:]) as second:
                for number, recorder in enumerate([*first, *second]):
                    self.check_told(f"tree {number}", recorder)
                roots = look_until(lambda: client.ask("watch-list")["roots"], lambda roots: len(roots) < 6, PATIENCE)
                self.check("some roots", str(self.room / "many") in roots and len(roots) < 6, roots)
                self.same("nothing is said", stream.getvalue(), "")
