"""A server that does not answer: after some seconds a person hears which process that is, and why."""

import time

from .processes import own_processor_seconds, state_of, states_of

# A reply is late after this time, in seconds.
LATE = 5.0
# A process that took this part of one processor meanwhile is busy.
BUSY = 0.02
STOPPED, RUNS, WAITS_FOR_A_DISK, ENDED = "Tt", "R", "D", "Z"


class Silence:
    """A wait for the reply of one process, which has gone on for some seconds."""

    def __init__(self, sockname: str, process: int, seconds: float = 0.0) -> None:
        self.sockname = sockname
        self.process = process
        self.began = time.monotonic() - seconds
        self.used = own_processor_seconds(process)
        self.is_told = False

    def sentence(self, is_at_work: bool = False) -> str:
        """Says once that the reply is late, and why. If the server is known to be at work, only a stop is said."""
        seconds = time.monotonic() - self.began
        if self.is_told or seconds < LATE:
            return ""
        if is_at_work and not is_stopped(self.process):
            return ""
        self.is_told = True
        words = server_words(self.sockname, self.process)
        return f"{words} has not answered for {seconds:.0f} s: {self.reason()}; {way_out(self.process)}"

    def reason(self) -> str:
        used, seconds = own_processor_seconds(self.process) - self.used, time.monotonic() - self.began
        if is_stopped(self.process):
            return "it is stopped"
        states = states_of(self.process)
        if used >= BUSY * seconds:
            return f"it is busy, and took {used:.1f} s of processor time meanwhile"
        if WAITS_FOR_A_DISK in states:
            return "it waits for a disk or another file system"
        if RUNS in states:
            return f"it waits for a processor, and got {used:.1f} s of one meanwhile"
        return "it waits, and took no processor time"


def server_words(sockname: str, process: int) -> str:
    return f"the server, process {process}," if process > 0 else f"the server at {sockname}"


def is_stopped(process: int) -> bool:
    state = state_of(process)
    return bool(state) and state in STOPPED


def way_out(process: int) -> str:
    return (f"`kill -CONT {process}` lets it go on, and " if is_stopped(process) else "") + "`wq stop` ends it"
