"""A command that `wq run` starts: where the names of files go, and how it is started and ends."""

import errno
import os
import signal
import subprocess
import tempfile
from typing import IO, Dict, List, Optional, Set, Tuple, Union

from .left_behind import end_all, of_group
from .names_handed import as_argument, batches
from .processes import state_of
from .shell_text import with_names
from .terminal import say
from .trouble import Trouble

PLACE = "{}"
SHELL = "/bin/sh"
# A run that is to end gets a signal, and SIGKILL after this time, in seconds.
GRACE = 5.0
# As shells end if a command is not there, or cannot be started.
NOT_FOUND, CANNOT_START = 127, 126


# As Python tells which signals were blocked.
Signals = Set[Union[int, signal.Signals]]


class Unrunnable(Exception):
    """The command cannot be started, for this reason."""

    def __init__(self, reason: str, status: int) -> None:
        super().__init__(reason)
        self.status = status


class Command:
    """The words of a command. The names take the place of the word `{}`, or come on standard input."""

    def __init__(self, words: List[str], on_input: bool, with_zeros: bool, is_alone: bool, by_shell: bool) -> None:
        self.name = words[0].split()[0] if by_shell and words[0].split() else words[0]
        self.words = shell_words(" ".join(words)) if by_shell else words
        self.on_input = on_input
        self.ending = "\0" if with_zeros else "\n"
        # Whether each run has a process group of its own, which a signal ends as a whole.
        self.is_alone = is_alone
        self.takes_names = on_input or PLACE in self.words
        # Whether it may read the terminal.
        self.has_terminal = not on_input and not is_alone

    def run(self, names: List[str], variables: Dict[str, str], signals: Signals) -> "Run":
        """A run that has not begun, which blocks these signals alone."""
        paths = [as_argument(name) for name in names]
        environment = {**os.environ, **variables}
        parts = batches(paths, self.words, environment) if PLACE in self.words else [[]]
        lines = [[word for given in self.words for word in (part if given == PLACE else [given])] for part in parts]
        return Run(self, lines, paths, environment, signals)

    def reason_of(self, error: OSError) -> Tuple[str, int]:
        if isinstance(error, FileNotFoundError):
            return f"{self.name}: {missing(self.words[0])}", NOT_FOUND
        if error.errno == errno.E2BIG:
            return f"{self.name}: its words are too long for a command", CANNOT_START
        return f"{self.name}: {error.strerror}", CANNOT_START

    def input_of(self, paths: List[str]) -> "Optional[IO[bytes]]":
        """Standard input of a run, if it is not this command's own: its names, or nothing for a group of its own, which
        may not read the terminal."""
        if not self.on_input:
            return open(os.devnull, "rb") if self.is_alone else None
        stream = tempfile.TemporaryFile()
        stream.write(b"".join(os.fsencode(path + self.ending) for path in paths))
        stream.seek(0)
        return stream


def missing(command: str) -> str:
    """Says that there is no such command. A space in it is from quotes around all words, as other tools take them."""
    are_all_quoted = " " in command and not os.path.lexists(command)
    return f"there is no such command{'; write its words without quotes around them all' if are_all_quoted else ''}"


def shell_words(text: str) -> List[str]:
    """The words of a shell that runs a text, in which `{}` is for the names."""
    filled = with_names(text)
    return [SHELL, "-c", filled, "sh", PLACE] if filled != text else [SHELL, "-c", text]


def prepare(is_alone: bool, signals: Signals) -> None:
    """Prepares the process of a run, before it becomes the command."""
    if is_alone:
        os.setpgid(0, 0)
    signal.pthread_sigmask(signal.SIG_SETMASK, signals)


class Run:
    """A run of the command. If its names are too long for one process, several run one after the other."""

    def __init__(
        self,
        command: Command,
        lines: List[List[str]],
        paths: List[str],
        environment: Dict[str, str],
        signals: Signals,
    ) -> None:
        self.command = command
        self.lines = lines
        self.paths = paths
        self.environment = environment
        self.signals = signals
        self.process: "Optional[subprocess.Popen[bytes]]" = None
        self.is_ending = self.is_killed = False
        # Whether a person heard how it ended.
        self.is_told = False
        # How the first process ended that did not end well.
        self.fault = 0

    def begin(self) -> None:
        """Begins the next process. A signal that comes meanwhile is held back until the process can be ended for it."""
        words, self.lines = self.lines[0], self.lines[1:]
        before = signal.pthread_sigmask(signal.SIG_BLOCK, {signal.SIGHUP, signal.SIGINT, signal.SIGTERM})
        stream = self.command.input_of(self.paths)
        try:
            self.process = subprocess.Popen(
                words,
                stdin=stream,
                env=self.environment,
                preexec_fn=lambda: prepare(self.command.is_alone, self.signals),
            )
        except OSError as error:
            raise Unrunnable(*self.command.reason_of(error)) from None
        finally:
            if stream is not None:
                stream.close()
            signal.pthread_sigmask(signal.SIG_SETMASK, before)

    def has_ended(self) -> bool:
        """Whether the last process has ended, and for a run that was to end its whole group. After each of the other
        processes the next one begins."""
        return self.has_led() and not self.is_group_left()

    def is_group_left(self) -> bool:
        """Whether a part goes on of the group of a run that was to end."""
        return self.is_ending and not self.is_killed and self.has_left()

    def has_left(self) -> bool:
        """Whether processes of its group go on."""
        return self.command.is_alone and self.process is not None and bool(of_group(self.process.pid))

    def has_led(self) -> bool:
        """Whether the last process has ended that was started here."""
        while self.process is None or self.process.poll() is not None:
            if self.process is not None:
                self.fault = self.fault or self.process.returncode
            if not self.lines or self.is_ending or self.fault < 0:
                return True
            self.begin()
        return False

    def status(self) -> int:
        """The status, as a shell says it: a signal counts from 128 on."""
        return self.fault if self.fault >= 0 else 128 - self.fault

    def signal(self, number: int, to_all: bool = True) -> None:
        """Sends a signal to the run, and to all that it started if it has a group and they are meant."""
        if self.process is None:
            return
        try:
            if self.command.is_alone and to_all:
                os.killpg(self.process.pid, number)
            else:
                self.process.send_signal(number)
        except ProcessLookupError:
            pass

    def kill(self) -> None:
        """Kills the run; the second time a person hears that it does not end, as while a file system hangs."""
        if not self.is_killed:
            self.is_killed = True
            self.signal(signal.SIGKILL)
        elif self.process is not None:
            state = state_of(self.process.pid)
            say(
                f"{self.command.name}, process {self.process.pid}, was killed and does not end: state {state}", "yellow"
            )

    def end_at_once(self, number: int, grace: float) -> None:
        """Ends the run, since this command ends, with its group if it has one: what does not go by itself is killed,
        and then left alone."""
        self.is_ending = True
        if self.process is None or self.has_ended():
            return
        if self.has_led():
            self.signal(number)
        else:
            self.end_first(self.process, number, grace)
        if self.command.is_alone and not self.is_killed:
            end_all(self.process.pid, grace)

    def end_first(self, process: "subprocess.Popen[bytes]", number: int, grace: float) -> None:
        """Ends the process that was started here, which perhaps ends the others itself."""
        self.signal(number)
        was_killed = False
        while not was_killed:
            try:
                process.wait(grace)
                return
            except (subprocess.TimeoutExpired, KeyboardInterrupt):
                was_killed = self.is_killed
                self.kill()


def run_once(command: Command, names: List[str], variables: Dict[str, str]) -> int:
    """Runs the command to its end, and gives its status."""
    run = command.run(names, variables, set())
    try:
        while not run.has_ended():
            if run.process is not None:
                run.process.wait()
        return run.status()
    except Unrunnable as reason:
        raise Trouble(str(reason), status=reason.status) from None
    finally:
        run.end_at_once(signal.SIGTERM, GRACE)


def status_words(code: int) -> str:
    """How a run ended, in words."""
    if code < 0:
        try:
            return f"was ended by {signal.Signals(-code).name}"
        except ValueError:
            return f"was ended by signal {-code}"
    return f"ended with status {code}"
