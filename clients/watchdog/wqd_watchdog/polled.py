"""What watchdog's own polling does for a watch while the server has no place for it."""

from typing import Dict

from watchdog.observers.polling import PollingEmitter

from .rows import Row, row_of


class Polled(PollingEmitter):
    """An emitter without a thread, of which another one asks for the events."""

    def rows(self) -> Dict[str, Row]:
        """The files that it told of, with their paths."""
        found = self._snapshot
        return {path: row_of(found.stat_info(path)) for path in found.paths}
