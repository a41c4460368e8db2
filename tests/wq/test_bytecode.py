"""The command of a clone keeps bytecode in the user's cache, if nobody else may write there."""

import os
from pathlib import Path
from typing import Callable, Dict, List, Set

import built
import files
from case import Beside
from client import PATIENCE
from scene import COMMAND, Scene


class Bytecode(Beside):
    def test_kept(self) -> None:
        with Scene(self.room, starts=False) as scene:
            before = beside_sources()
            cache = scene.room / "cache"
            self.check("it is kept", bool(kept_in(scene, cache)), [])
            time = module_in(cache).stat().st_mtime_ns
            kept_in(scene, cache)
            self.same("it is taken", module_in(cache).stat().st_mtime_ns, time)
            self.same("its mode", (cache / "wqd" / "bytecode").stat().st_mode & 0o777, 0o700)
            self.same("nothing beside the sources", beside_sources(), before)

    def test_cut(self) -> None:
        """Of bytecode a part alone is there, as when no space was left: that is made anew, and wq answers."""
        with Scene(self.room, starts=False) as scene:
            cache = scene.room / "cache"
            whole = {path: path.read_bytes() for path in kept_in(scene, cache)}
            for part, size in (("a half", 2), ("the head", 16), ("nothing", 0)):
                for path, data in whole.items():
                    path.write_bytes(data[: len(data) // size if size == 2 else size])
                ended = scene.wq("sockname", XDG_CACHE_HOME=str(cache))
                self.same(f"{part} is there", (ended.status, ended.errors), (1, b""))
                again = {path: path.read_bytes() for path in whole}
                self.same(
                    f"{part} is there: as before", [path.name for path in whole if again[path] != whole[path]], []
                )

    def test_no_space(self) -> None:
        """No space is left for bytecode: Python keeps parts, and wq answers, then and later."""
        with Scene(self.room, starts=False) as scene:
            cache = scene.room / "cache"
            for blocks in (1, 4, 16, 0):
                for _ in range(2):
                    words = ["sh", "-c", f'ulimit -f {blocks}; exec "$0" sockname', COMMAND]
                    environment = {**scene.environment, "XDG_CACHE_HOME": str(cache)}
                    ended = built.call(words, cwd=scene.tree, env=environment, timeout=PATIENCE)
                    self.same(f"{blocks} blocks for a file", (ended.status, ended.errors), (1, b""))
            ended = scene.wq("sockname", XDG_CACHE_HOME=str(cache))
            self.same("there is space again", (ended.status, ended.errors), (1, b""))

    def test_not_kept(self) -> None:
        """In a directory that others could change nothing is kept, and nothing is taken from there."""
        with Scene(self.room, starts=False) as scene:
            for name, change in WRONG.items():
                cache = scene.room / f"cache {name}"
                (cache / "wqd" / "bytecode").mkdir(parents=True, mode=0o700)
                change(cache / "wqd" / "bytecode")
                self.same(name, kept_in(scene, cache), [])
            ended = scene.wq("sockname", XDG_CACHE_HOME="/dev/null")
            self.same("no directory", (ended.status, ended.errors), (1, b""))

    def test_archive(self) -> None:
        """The installed command keeps that of the modules in it, as long as it is the same archive."""
        with Scene(self.room, starts=False) as scene:
            cache, command = scene.room / "cache", scene.room / "wq"
            for turn, main in enumerate((files.WQ_MAIN, files.WQ_MAIN + "# another one\n")):
                command.write_bytes(files.archive(["wq", "wqprogram", "wqclient"], main))
                command.chmod(0o755)
                times: Set[int] = set()
                for _ in range(2):
                    ended = self.called(scene, command, cache)
                    self.same(f"archive {turn}", (ended.status, ended.errors), (1, b""))
                    times |= {path.stat().st_mtime_ns for path in cache.rglob("wq.command")}
                self.same(f"archive {turn}: its main module is kept once", len(times), 1)
            for name, change in WRONG.items():
                cache = scene.room / f"cache {name}"
                (cache / "wqd" / "bytecode").mkdir(parents=True, mode=0o700)
                change(cache / "wqd" / "bytecode")
                self.same(name, (self.called(scene, command, cache).status, list(cache.rglob("wq.command"))), (1, []))

    def test_interrupted(self) -> None:
        """Ctrl-C while Python loads modules ends wq by the signal, without a trace, and site is not loaded before."""
        with Scene(self.room, starts=False) as scene:
            for name, main in (("clone", (built.TOP / "wq").read_text()), ("archive", files.WQ_MAIN)):
                ended = self.begun(scene, main, "import _signal; _signal.raise_signal(2)")
                self.same(f"Ctrl-C at the start of the {name}", ended, built.Ended(b"", b"", -2))
                ended = self.begun(scene, main, 'assert "site" in sys.modules, "no site"')
                self.same(f"another error of the {name}", (ended.status, ended.errors[-8:]), (1, b"no site\n"))

    def begun(self, scene: Scene, main: str, line: str) -> built.Ended:
        """The end of a command with this main module, in which a line stands before the modules that it imports."""
        text = main.replace("import os\n", f"{line}\nimport os\n", 1)
        command = scene.room / "begun"
        command.write_bytes(text.encode() if text.startswith("#!") else files.archive([], text))
        command.chmod(0o755)
        return built.call([str(command), "sockname"], env=scene.environment, timeout=PATIENCE)

    def called(self, scene: Scene, command: Path, cache: Path) -> built.Ended:
        environment = {**scene.environment, "XDG_CACHE_HOME": str(cache)}
        return built.call([str(command), "sockname"], env=environment, timeout=PATIENCE)


def open_to_all(directory: Path) -> None:
    directory.chmod(0o777)


def open_to_group(directory: Path) -> None:
    directory.chmod(0o770)


def below_open(directory: Path) -> None:
    directory.parent.chmod(0o777)


def as_link(directory: Path) -> None:
    aside = directory.with_name("aside")
    directory.rename(aside)
    directory.symlink_to(aside)


WRONG: Dict[str, Callable[[Path], None]] = {
    "others may write there": open_to_all,
    "a group may": open_to_group,
    "others may rename it": below_open,
    "a link": as_link,
}


def kept_in(scene: Scene, cache: Path) -> List[Path]:
    """The bytecode in a cache after a call."""
    scene.wq("sockname", XDG_CACHE_HOME=str(cache))
    return list(cache.rglob("*.pyc"))


def module_in(cache: Path) -> Path:
    """The bytecode of the command's main module."""
    place = cache / "wqd" / "bytecode" / str(built.TOP / "clients" / "wq").lstrip("/")
    return next(place.glob("command.*.pyc"))


def beside_sources() -> List[str]:
    """The bytecode beside the sources of the clone."""
    return sorted(
        os.path.join(above, name)
        for above, _, names in os.walk(built.TOP / "clients")
        for name in names
        if name.endswith(".pyc")
    )
