"""How a command ends, and what it says if it cannot do what it was asked."""

# The exit statuses.
FOUND, NOTHING, WRONG_WORDS, FAILED = 0, 1, 2, 3
INTERRUPTED = 130
# As xargs ends if a command failed that it ran: what `-x` and `-X` run has other statuses than wq.
COMMAND_FAILED = 123
# As a shell says that SIGPIPE ended a command.
BROKEN_PIPE = 141


class Trouble(Exception):
    """Lines for a person on what is wrong, and the exit status."""

    def __init__(self, *lines: str, status: int = FAILED) -> None:
        super().__init__("\n".join(lines))
        self.lines = lines
        self.status = status


class WrongWords(Trouble):
    """The words of the command line are wrong."""

    def __init__(self, *lines: str) -> None:
        super().__init__(*lines, status=WRONG_WORDS)
