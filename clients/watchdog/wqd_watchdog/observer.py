"""The observer, which takes the place of watchdog's `PollingObserver`."""

import atexit
import os
from typing import Any

from watchdog.observers.api import DEFAULT_EMITTER_TIMEOUT, DEFAULT_OBSERVER_TIMEOUT, BaseObserver, EventEmitter
from watchdog.observers.polling import PollingEmitter

from .emitter import WqdEmitter
from .roots import real_directory
from .server import Server


class WqdObserver(BaseObserver):
    """Watches directories by one server, which it shares with other programs. A watch of a single file is polled as
    watchdog does: one call a timeout, where the server would scan the whole directory."""

    def __init__(self, timeout: float = DEFAULT_OBSERVER_TIMEOUT, **given: Any) -> None:
        super().__init__(self.new_emitter, timeout=timeout, **given)
        self.server = Server()
        # Some tools end without stopping it.
        atexit.register(self.server.close)

    def new_emitter(
        self, event_queue: Any, watch: Any, timeout: float = DEFAULT_EMITTER_TIMEOUT, **given: Any
    ) -> EventEmitter:
        if os.path.exists(watch.path) and not os.path.isdir(watch.path):
            return PollingEmitter(event_queue, watch, timeout=timeout, **given)
        return WqdEmitter(self.server, event_queue, watch, timeout=timeout, **given)

    def start(self) -> None:
        """Watches what was scheduled. Of directories inside one another, the outermost is the root of all."""
        paths = [emitter.watch.path for emitter in self.emitters if isinstance(emitter, WqdEmitter)]
        self.server.expect([real_directory(path) for path in paths])
        super().start()
        self.server.expect([])

    def on_thread_stop(self) -> None:
        super().on_thread_stop()
        self.server.close()
        atexit.unregister(self.server.close)
