"""Many commands that do not read: their inputs leave handles and memory for all else, and what was put off is tried
again."""

from pathlib import Path
from typing import List

from case import Case
from client import Server, query_of_names
from triggered import INTERVAL, Scene
from waiting import wait_until

# The server may have so many handles, of which a quarter may be pipes to commands.
HANDLES = 256
MOST = 64
# More triggers than that, on two roots, whose inputs no pipe holds whole.
ON_A_ROOT = 40
NAMES = 2_000
# So many bytes of inputs may wait together. Each input has some 4 million, so that not all of these triggers' inputs
# may.
MOST_BYTES = 67_108_864
LARGE = 24
LONG_NAMES = 20_000
LONG = 200
# How much more memory than those bytes the server may have meanwhile.
MORE_MEMORY = 40_000_000


class FewHandles(Scene):
    """A scene whose server may have few handles."""

    def serve(self, room: Path) -> Server:
        through = ["sh", "-c", f'ulimit -Sn {HANDLES}; exec "$@"', "sh"]
        return Server(room, interval=INTERVAL, through=through)


class Inputs(Case):
    def test_more_pipes_than_handles(self) -> None:
        with FewHandles(self.room) as scene:
            scene.make(*(f"a-file-with-a-name-of-this-length-{number:06}" for number in range(NAMES)))
            second = self.room / "second"
            second.symlink_to(scene.root)
            scene.client.ask("watch", str(second))
            for number in range(ON_A_ROOT):
                for root in (scene.root, second):
                    add_reader(scene, root, f"{number}")
            self.check(
                "as many commands run as may",
                wait_until(lambda: len(scene.children()) == MOST),
                [f"{len(scene.children())}"],
            )
            replies = [
                scene.client.ask("query", str(root), {"expression": ["name", "no"], **query_of_names()})
                for root in (scene.root, second) * 3
            ]
            self.check("scans go on beside them", all(reply.get("files") == [] for reply in replies), [f"{replies}"])
            self.check("no more commands run then", len(scene.children()) == MOST, [f"{len(scene.children())}"])
            self.finish(scene, 2 * ON_A_ROOT)

    def test_more_bytes_than_may_wait(self) -> None:
        with Scene(self.room) as scene:
            scene.make(*(f"{number:0{LONG}}" for number in range(LONG_NAMES)))
            scene.client.ask("clock", str(scene.root), {"sync_timeout": 1})
            before = scene.server.least_memory()
            for number in range(LARGE):
                add_reader(scene, scene.root, f"{number}")
            most = MOST_BYTES // (LONG_NAMES * (LONG + 1))
            self.check(
                "as many run as inputs may wait",
                wait_until(lambda: len(scene.children()) == most),
                [f"{len(scene.children())}"],
            )
            is_small = scene.server.has_memory_below(before + MOST_BYTES + MORE_MEMORY)
            self.check("memory beside them", is_small, [f"{scene.server.memory()} bytes, before {before}"])
            self.check("no more run then", len(scene.children()) == most, [f"{len(scene.children())}"])
            self.finish(scene, LARGE)

    def finish(self, scene: Scene, count: int) -> None:
        """Has the commands read, and looks whether each trigger's command came to run, with a whole input."""
        scene.go()
        self.check("each command runs in the end", scene.has_lines(count), [f"{len(scene.lines())} of {count}"])
        lengths: List[str] = sorted(set(scene.lines()))
        self.check("each reads the whole input", len(lengths) == 1, lengths)
        self.check("the operator hears of it", b"too many commands run" in scene.server.errors(), [])


def add_reader(scene: Scene, root: Path, name: str) -> None:
    """Adds a trigger whose command waits, and then reads its input and logs how long that was."""
    script = f"{scene.waits()}; {scene.log('$(wc -c)')}"
    command = ["sh", "-c", script, "sh"]
    scene.client.ask("trigger", str(root), {"name": name, "command": command, "stdin": "NAME_PER_LINE"})
