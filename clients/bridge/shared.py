"""What the sessions of a bridge share."""

import os
from typing import Callable

from bridge.configuration import Configurations
from bridge.first_runs import FirstRuns
from bridge.held import Held
from bridge.keeper import Keeper
from bridge.notices import Mailboxes
from bridge.recrawls import Recrawls
from bridge.running import Running
from bridge.states import States
from bridge.symlinks import Follower


class Shared:
    def __init__(self, sockname: str, grace: float, running: Running, say: Callable[[str], None]) -> None:
        self.sockname = sockname
        self.running = running
        self.server = running.sockname
        self.configurations = Configurations(say)
        self.recrawls = Recrawls(self.configurations)
        self.states = States()
        self.mailboxes = Mailboxes()
        self.messages = Held()
        self.first_runs = FirstRuns(self.server, say)
        self.keeper = Keeper(self.server, grace, say, self.forget)
        self.follower = Follower(self.server, self.configurations, self.keeper, say)
        # A byte in this pipe ends the bridge.
        self.end_seen, self.end_told = os.pipe()

    def end(self) -> None:
        """Ends the bridge, as when its server has ended."""
        os.write(self.end_told, b".")

    def forget(self, root: str) -> None:
        """The root is watched no longer: nothing that was set for it stays."""
        self.keeper.remove(root)
        self.configurations.forget(root)
        self.recrawls.forget(root)
        self.states.forget(root)
