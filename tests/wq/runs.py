"""The runs of a command of `wq run`, which it notes in a log."""

from pathlib import Path
from typing import Callable, List

from scene import Going, Scene, write_until

# Appends a line at each run. A file `hold` keeps the run going until it is gone.
SCRIPT = 'echo run >> "$LOG"; echo "$@" >> "$LOG.names"; while [ -e "$LOG.hold" ]; do sleep 0.01; done'


class Log:
    """The lines that the runs of a command wrote."""

    def __init__(self, scene: Scene) -> None:
        self.path = scene.room / "log"
        self.hold = scene.room / "log.hold"
        scene.environment["LOG"] = str(self.path)

    def runs(self) -> int:
        return len(self.path.read_text().splitlines()) if self.path.exists() else 0

    def names(self) -> List[str]:
        path = Path(f"{self.path}.names")
        return path.read_text().splitlines() if path.exists() else []

    def clear(self) -> None:
        for path in (self.path, Path(f"{self.path}.names")):
            if path.exists():
                path.unlink()


def command(*words: str) -> List[str]:
    return ["--", "sh", "-c", SCRIPT, "sh", *words]


def has_runs(log: Log, count: int) -> Callable[[Going], bool]:
    return lambda _: log.runs() >= count


def change_until(scene: Scene, going: Going, log: Log, runs: int) -> None:
    """Changes a file until so many runs began."""
    write_until(scene, going, "src/a.c", lambda _: log.runs() >= runs)
