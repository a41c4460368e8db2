"""The runs of `wq run`, one at a time: when one begins, what a change does to it, and how it ends."""

import argparse
import contextlib
import os
import select
import signal
import sys
import time
from typing import Dict, List, NamedTuple, Optional

from .changes import File, counted
from .commands_run import GRACE, Command, Run, Unrunnable, status_words
from .keys import Keys
from .left_behind import PAUSE
from .names_handed import variables
from .notifying import notify
from .own_changes import OwnChanges, sentence
from .pending import NEVER, Pending
from .terminal import is_terminal, say, write
from .trouble import FOUND, NOTHING, Trouble
from .window import Window

# The ways in which a change may count while the command runs.
WAIT, RESTART, IGNORE, SIGNAL = WAYS = ("wait", "restart", "ignore", "signal")
# A run that begins so soon after the last one, and that much after a scan, may be caused by it, in seconds.
SOON = 1.0
# Runs that cause each other have at least this pause, in seconds.
LEAST_PAUSE = 0.1
# File systems note times by a clock that may be so much behind, in milliseconds.
BEHIND = 10
SIGNALS = {signal.SIGHUP, signal.SIGINT, signal.SIGTERM}
CLEAR = b"\x1b[H\x1b[2J\x1b[3J"


class Manner(NamedTuple):
    """How a change counts while the command runs: what it does to that run, by which signal, and whether changes of
    that time are left out."""

    on_busy: str
    stop_signal: signal.Signals
    leaves_out: bool


class Runner:
    """Starts runs, and waits for their ends, for changes and for keys."""

    def __init__(self, window: Window, command: Command, manner: Manner, options: argparse.Namespace) -> None:
        self.window = window
        self.command = command
        self.manner = manner
        self.options = options
        self.run: Optional[Run] = None
        # The last run, if it has ended and its group has not: with `restart` that ends before the next one begins.
        self.left: Optional[Run] = None
        self.pending = Pending(options.debounce / 1000, options.delay / 1000)
        self.own = OwnChanges()
        self.keys = Keys()
        self.directory = os.getcwd()
        # The names of the last run, and when it began and ended by the clock of the system, in milliseconds.
        self.last_names: Dict[str, None] = {}
        self.began_ms = self.ended_ms = 0.0
        # When a run that is to end is killed, and when the last one ended.
        self.killed_at, self.ended_at = NEVER, -NEVER
        # Ends of children come as bytes in this pipe.
        self.ended, self.wakeup = os.pipe()
        if not options.postpone:
            self.pending.add_all(self.meant(window.first))

    def loop(self) -> int:
        os.set_blocking(self.wakeup, False)
        os.set_blocking(self.ended, False)
        signal.set_wakeup_fd(self.wakeup, warn_on_full_buffer=False)
        # A shell that lets this go on has the terminal as it likes it.
        for number in (signal.SIGCHLD, signal.SIGCONT):
            signal.signal(number, lambda *_: None)
        try:
            while True:
                status = self.step()
                if status is not None:
                    return status
        finally:
            signal.set_wakeup_fd(-1)
            self.keys.give()
            run = self.run or self.left
            if run is not None:
                by_stop = self.manner.on_busy != SIGNAL
                run.end_at_once(self.manner.stop_signal if by_stop else signal.SIGTERM, GRACE)

    def step(self) -> Optional[int]:
        """Does what is due now, and waits for what comes next. Gives the status, if that was the last run."""
        now = time.monotonic()
        if self.run is not None and now >= self.killed_at:
            self.killed_at = NEVER if self.run.is_killed else now + GRACE
            self.run.kill()
        if self.pending.is_due and self.may_act() and now >= self.pending.begins_at():
            self.act(now)
        if self.wait(self.seconds_left(time.monotonic())):
            return FOUND
        return self.take_end()

    def may_act(self) -> bool:
        """Whether a change can do something now: to begin a run, or to one that goes on."""
        if self.run is None or self.manner.on_busy == SIGNAL:
            return True
        return self.manner.on_busy == RESTART and not self.run.is_ending

    def act(self, now: float) -> None:
        if self.run is None:
            self.run, self.left = self.left, None
        if self.run is None:
            self.start()
            return
        if self.manner.on_busy == SIGNAL:
            self.run.signal(self.manner.stop_signal, to_all=False)
            self.pending.clear()
            return
        self.run.signal(self.manner.stop_signal)
        self.run.is_ending = True
        self.killed_at = now + GRACE

    def seconds_left(self, now: float) -> Optional[float]:
        """How long to wait at most: until it is quiet, or until a run is killed."""
        moments = [self.killed_at] if self.run is not None else []
        # Nobody tells when the processes that a run started have ended.
        if self.run is not None and self.run.is_ending and self.run.has_led():
            moments.append(now + PAUSE)
        if self.pending.is_due and self.may_act():
            moments.append(self.pending.begins_at())
        nearest = min(moments, default=NEVER)
        return None if nearest == NEVER else max(0.0, nearest - now)

    def wait(self, seconds: Optional[float]) -> bool:
        """Waits for lists, ends and keys. Gives whether a person ends this by a key."""
        others = {self.ended: select.POLLIN}
        if self.run is not None and self.command.has_terminal:
            self.keys.give()
        else:
            number = self.keys.take()
            if number is not None:
                others[number] = select.POLLIN
        events = self.window.wait(others, seconds)
        if self.ended in events:
            os.read(self.ended, 4096)
        self.take_lists()
        return any(number != self.ended for number in events) and self.take_keys()

    def take_lists(self) -> None:
        if self.run is not None and self.manner.leaves_out:
            self.window.drop_lists()
        for found in self.window.lists():
            self.pending.add(self.meant(found["files"]))
        files = self.window.fresh_files()
        if files is not None:
            self.pending.add_all(self.meant(files))

    def take_keys(self) -> bool:
        for key in self.keys.read():
            if key in "qQ":
                return True
            if key in "\r\n":
                self.pending.names = {**self.last_names, **self.pending.names}
                self.pending.add_all([])
            elif key in "cC" and is_terminal(sys.stdout):
                write(CLEAR)
        return False

    def meant(self, files: List[File]) -> List[File]:
        """Of files that changed those that count. A directory does if its kind is asked for alone."""
        files = counted(files, self.options)
        return files if self.options.type else [file for file in files if file["type"] != "d"]

    def start(self) -> None:
        """Starts a run, unless its command takes names and there are none: what changed is gone."""
        names, changed = self.pending.names, self.pending.changed
        self.pending.clear()
        if self.command.takes_names and not names:
            if self.options.once and not self.options.postpone:
                raise Trouble("no file matches", status=NOTHING)
            return
        self.tell_of_own(changed)
        # The directory may have been made anew since.
        with contextlib.suppress(OSError):
            os.chdir(self.directory)
        if self.options.clear and is_terminal(sys.stdout):
            write(CLEAR)
        self.keys.give()
        place = self.window.places.places[0]
        added = variables(place.root, self.window.clocks[0], list(changed))
        # A signal that comes while it begins is held back until the run can be ended for that.
        before = signal.pthread_sigmask(signal.SIG_BLOCK, SIGNALS)
        try:
            run = self.command.run(list(names), added, before)
            self.began_ms, self.last_names, self.killed_at = time.time() * 1000, names, NEVER
            run.begin()
            self.run = run
        except Unrunnable as reason:
            raise Trouble(str(reason), status=reason.status) from None
        finally:
            signal.pthread_sigmask(signal.SIG_SETMASK, before)

    def tell_of_own(self, changed: Dict[str, Optional[int]]) -> None:
        """Says once that the command may cause its own runs, and has them begin later. A change that acts on a run that
        goes on is no such cause."""
        if self.manner.on_busy in (RESTART, SIGNAL):
            return
        times = {name: time_ms for name, time_ms in changed.items() if time_ms is not None}
        is_of_run = all(map(self.is_of_run, times.values()))
        latest = SOON + self.pending.quiet + self.pending.delay + self.window.pace()
        found = self.own.add(set(times), is_of_run and time.monotonic() - self.ended_at <= latest)
        if found:
            self.pending.quiet = max(2 * self.pending.quiet, LEAST_PAUSE)
            fronts = [place.front for place in self.window.places.places]
            say(sentence(self.command.name, sorted(found), fronts, self.pending.quiet), "yellow")

    def is_of_run(self, time_ms: int) -> bool:
        """Whether a time of a file is one while the last run went on."""
        return self.began_ms - BEHIND <= time_ms <= self.ended_ms

    def take_end(self) -> Optional[int]:
        """Tells how the run ended, if it did; its status, if it was to be the only one."""
        if self.run is None:
            return None
        try:
            if not self.run.has_ended():
                return None
        except Unrunnable as reason:
            raise Trouble(str(reason), status=reason.status) from None
        ended, self.run = self.run, None
        if ended.is_told:
            return None
        ended.is_told = True
        if self.manner.on_busy == RESTART and not self.options.once and ended.has_left():
            self.left = ended
        # Before a person reads of the end, who may press a key then.
        self.keys.take()
        self.ended_at, self.ended_ms = time.monotonic(), time.time() * 1000
        text = f"{self.command.name} {status_words(ended.fault)}"
        if not self.options.quiet:
            say(text, "green" if ended.fault == 0 else "red")
        if self.options.notify:
            notify(text)
        if self.manner.leaves_out:
            self.add_others()
        return ended.status() if self.options.once and not (ended.is_ending and self.pending.is_due) else None

    def add_others(self) -> None:
        """Adds what changed before the run began and was not listed then. What changed while it ran is left out."""
        files = self.meant(self.window.later())
        self.pending.add([file for file in files if file["exists"] and file["mtime_ms"] < self.began_ms - BEHIND])
