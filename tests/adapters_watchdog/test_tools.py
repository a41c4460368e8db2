"""Real tools of Debian, served by the adapter: each builds once for each save."""

import os
import signal
import subprocess
import sys
from pathlib import Path
from typing import Callable, List, Sequence

from case import Timed, needs
from client import PATIENCE, Server
from judged.tools import (
    DETECTED,
    MKDOCS,
    READY,
    REBUILT,
    STRACE,
    WATCHMEDO,
    Tool,
    delayed,
    make_project,
    mkdocs_words,
)
from judged.tools import served as by_server
from serving import needs_watchdog, served

needs_watchdog()
SILENCE = 0.7
# Of the slow file system: how many files there are, how much longer a call of the server and one of the tool takes in
# microseconds, and in how many seconds a save is noticed. Their scan by one thread takes longer: where other work slows
# both down, a save is noticed within such a scan.
SOURCES, OF_SERVER, OF_TOOL, NOTICED = 2_000, 2_000, 300, 3.0
SAVES = 3
SCAN = """import os, sys, time
began = time.monotonic()
for directory, _, names in os.walk(sys.argv[1]):
    for name in names:
        os.stat(os.path.join(directory, name))
print(time.monotonic() - began)
"""


def saves(path: Path) -> List[Callable[[], object]]:
    """Ways in which editors save."""
    aside = path.with_name(".aside")
    return [
        lambda: path.write_text("# in place\n"),
        lambda: (aside.write_text("# by a rename\n"), aside.replace(path)),
        lambda: (path.rename(path.with_name("kept~")), path.write_text("# beside what it was\n")),
    ]


CHILD = """import subprocess, sys
code = "import watchdog.observers as o, watchdog.observers.polling as p; print(o.Observer, p.PollingObserver)"
for words in ([], ["-I"]):
    subprocess.run([sys.executable, *words, "-c", code])
print("hidden" in sys.argv, sys.path[0])
"""

WQD, INOTIFY, POLLING = (
    f"<class '{name}'>"
    for name in (
        "wqd_watchdog.observer.WqdObserver",
        "watchdog.observers.inotify.InotifyObserver",
        "watchdog.observers.polling.PollingObserver",
    )
)

HIDDEN = "import sys; print('a sitecustomize of others', any('children' in each for each in sys.path), flush=True)\n"


class Tools(Timed):
    def test_children(self) -> None:
        """A Python that the tool starts has the observer too, unless it is isolated; and its own sitecustomize."""
        others = self.directory("others")
        (others / "sitecustomize.py").write_text(HIDDEN)
        (self.room / "tool.py").write_text(CHILD)
        environment = {**os.environ, "PYTHONPATH": str(others)}
        command = [*by_server(str(self.room / "tool.py")), "hidden"]
        ended = subprocess.run(command, env=environment, stdout=subprocess.PIPE)
        self.same(
            "processes that a tool starts",
            ended.stdout.decode().splitlines(),
            [
                "a sitecustomize of others False",
                "a sitecustomize of others False",
                f"{WQD} {WQD}",
                f"{INOTIFY} {POLLING}",
                f"True {self.room}",
            ],
        )

    @needs(MKDOCS)
    def test_mkdocs(self) -> None:
        """`mkdocs serve` builds once for each save of a page, of a watched source, and of its settings."""
        project = self.room / "project"
        source = make_project(project, 20)
        with served(self.room) as running, Tool([*by_server(MKDOCS), *mkdocs_words()], project) as tool:
            tool.waits_for(READY)
            self.same(
                "its roots",
                sorted(running.client().ask("watch-list")["roots"]),
                [str(project / "docs"), str(project / "src")],
            )
            changes = [
                *saves(project / "docs" / "one.md"),
                lambda: source.write_text("a = 1\n"),
                lambda: (project / "mkdocs.yml").open("a").write("site_author: me\n"),
            ]
            for number, save in enumerate(changes, 1):
                save()
                tool.waits_for(REBUILT, number)
                tool.rests(SILENCE)
                self.same(f"builds after save {number}", tool.said.count(REBUILT), number)
            self.check_an_end(running, tool)

    def check_an_end(self, running: Server, tool: Tool) -> None:
        """A tool that ends by an interrupt gives its roots back."""
        tool.process.send_signal(signal.SIGINT)
        tool.process.wait(PATIENCE)
        with running.client() as client:
            self.same("roots after the end", client.ask("watch-list")["roots"], [])

    @needs(WATCHMEDO)
    def test_watchmedo(self) -> None:
        """`watchmedo shell-command` runs once for each write."""
        root = self.directory("root")
        (root / "a").touch()
        words = ["shell-command", "--recursive", "--command", "echo ran ${watch_event_type} ${watch_src_path}", "."]
        with served(self.room) as running, Tool([*by_server(WATCHMEDO), *words], root) as tool:
            while running.client().ask("watch-list")["roots"] != [str(root)]:
                tool.rests(0.05)
            for number in range(1, 4):
                tool.rests(SILENCE)
                (root / "a").write_text("x" * number)
                tool.waits_for("ran modified ./a", number)
            self.same("commands", tool.rests(SILENCE).count("ran"), 0)
            self.same("all commands", tool.said.count("ran"), 3)
            self.check_an_end(running, tool)

    @needs(MKDOCS, STRACE)
    def test_a_slow_file_system(self) -> None:
        """mkdocs notices a save soon, though each call takes long and a scan by one thread several times as long."""
        source = make_project(self.room / "project", SOURCES)
        os.environ.update(WQD_SOCK=str(self.room / "socket"), XDG_STATE_HOME=str(self.room))
        try:
            with Server(self.room, interval=100, share=10, through=delayed(OF_SERVER)):
                self.check_slow_saves([*delayed(OF_TOOL), *by_server(MKDOCS), *mkdocs_words()], source)
        finally:
            del os.environ["WQD_SOCK"], os.environ["XDG_STATE_HOME"]

    def check_slow_saves(self, command: Sequence[str], source: Path) -> None:
        with Tool(command, source.parents[2]) as tool:
            tool.waits_for(READY)
            noticed = []
            for number in range(1, SAVES + 1):
                tool.rests(SILENCE)
                with source.open("a") as file:
                    file.write("pass\n")
                noticed.append(tool.waits_for(DETECTED, number))
                tool.waits_for(REBUILT, number)
            tool.rests(SILENCE)
            self.same("builds on a slow file system", tool.said.count(REBUILT), SAVES)
        most = max(NOTICED, seconds_of_a_scan(source.parents[1]))
        soon = [f"{seconds:.2f}" for seconds in noticed]
        self.check(
            "saves are noticed soon", sorted(noticed)[SAVES // 2] < most, [f"{soon} s, and {most:.2f} s at most"]
        )


def seconds_of_a_scan(directory: Path) -> float:
    """How long one thread looks at all files, if each call takes as long as one of the server."""
    command = [*delayed(OF_SERVER), sys.executable, "-S", "-c", SCAN, str(directory)]
    return float(subprocess.run(command, stdout=subprocess.PIPE, check=True).stdout)
