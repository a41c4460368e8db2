"""Draws changes of a tree: files, directories, links, and bursts of them."""

import os
import random
import shutil
from pathlib import Path
from typing import Callable, List, Sequence

NAMES = "abcdefgh"
MOST_DEEP = 3


class Drawn:
    """A tree, and a directory outside of it to which links lead."""

    def __init__(self, room: Path, draw: random.Random) -> None:
        self.root, self.outside = room / "root", room / "outside"
        self.draw = draw
        for directory in (self.root, self.outside / "d"):
            directory.mkdir(parents=True)
        (self.outside / "f").write_text("f")
        (self.outside / "d" / "g").write_text("g")
        self.count = 0

    def step(self) -> str:
        """Makes one change, and says which."""
        changes: List[Callable[[], str]] = [
            self.create,
            self.create,
            self.write,
            self.write,
            self.save,
            self.rename,
            self.delete,
            self.make_directories,
            self.rename_directory,
            self.delete_directory,
            self.link,
            self.change_outside,
        ]
        done = ""
        while not done:
            done = self.draw.choice(changes)()
        return done

    def burst(self) -> str:
        return "; ".join(self.step() for _ in range(self.draw.randrange(5, 20)))

    def text(self) -> str:
        """Another text than before, of another length."""
        self.count += 1
        return "x" * self.count

    def one(self, of: Sequence[Path]) -> Path:
        return self.draw.choice(sorted(of))

    def directories(self) -> List[Path]:
        """The directories in which a file may come. Linked ones are left to `change_outside`."""
        return [Path(path) for path, _, _ in os.walk(self.root)]

    def files(self) -> List[Path]:
        return [
            Path(path) / name
            for path, _, names in os.walk(self.root)
            for name in names
            if not (Path(path) / name).is_symlink()
        ]

    def free(self) -> Path:
        return self.one(self.directories()) / f"{self.draw.choice(NAMES)}{self.draw.randrange(100)}"

    def create(self) -> str:
        path = self.free()
        if os.path.lexists(path):
            return ""
        path.write_text(self.text())
        return f"create {path.name}"

    def write(self) -> str:
        files = self.files()
        if not files:
            return ""
        path = self.one(files)
        with path.open(self.draw.choice("wa")) as file:
            file.write(self.text())
        return f"write {path.name}"

    def save(self) -> str:
        """As an editor does, by a file aside that takes the name."""
        files = self.files()
        if not files:
            return ""
        path = self.one(files)
        aside = path.with_name(".aside")
        aside.write_text(self.text())
        aside.replace(path)
        return f"save {path.name}"

    def rename(self) -> str:
        files, to = self.files(), self.free()
        if not files or os.path.lexists(to):
            return ""
        path = self.one(files)
        path.rename(to)
        return f"rename {path.name} {to.name}"

    def delete(self) -> str:
        files = self.files() + [path for path in self.root.rglob("*") if path.is_symlink()]
        if not files:
            return ""
        path = self.one(files)
        path.unlink()
        return f"delete {path.name}"

    def make_directories(self) -> str:
        path = self.free()
        if os.path.lexists(path) or len(path.relative_to(self.root).parts) > MOST_DEEP:
            return ""
        (path / "n").mkdir(parents=True)
        (path / "n" / "m").write_text(self.text())
        return f"make directories {path.name}"

    def rename_directory(self) -> str:
        directories, to = self.directories()[1:], self.free()
        if not directories or os.path.lexists(to):
            return ""
        path = self.one(directories)
        if path in to.parents:
            return ""
        path.rename(to)
        return f"rename directory {path.name} {to.name}"

    def delete_directory(self) -> str:
        directories = self.directories()[1:]
        if not directories:
            return ""
        path = self.one(directories)
        shutil.rmtree(path)
        return f"delete directory {path.name}"

    def link(self) -> str:
        path, to = self.free(), self.draw.choice([self.outside / "f", self.outside / "d", self.outside / "none"])
        if os.path.lexists(path):
            return ""
        path.symlink_to(to)
        return f"link {path.name} to {to.name}"

    def change_outside(self) -> str:
        """Targets of links change."""
        path = self.draw.choice([self.outside / "f", self.outside / "d" / "g", self.outside / "d" / "h"])
        path.write_text(self.text())
        return f"write {path.name} outside"
