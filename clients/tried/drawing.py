"""Draws trees that change, and queries of them."""

import os
import random
from pathlib import Path
from typing import Dict, List

DIRECTORIES = [
    "",
    "src",
    "src/deep",
    "src/deep/er",
    "Lib",
    "Lib/deep",
    "src/out",
    "src/out/deep",
    ".hid",
    "src/.hid",
    "s p",
]
STEMS = ["a", "b", "A", "main", "x_test", "ü", "a.b", ".dot", "q1", "README"]
SUFFIXES = ["", ".c", ".h", ".C", ".py", ".txt"]
FIELDS = [
    "name",
    "exists",
    "type",
    "size",
    "mode",
    "mtime",
    "mtime_ms",
    "mtime_ns",
    "uid",
    "nlink",
    "ino",
    "symlink_target",
    "content.sha1hex",
]
# Watchman looks at these of a directory only when a file comes, and not when one goes.
OF_DIRECTORIES = {"mtime", "mtime_ms", "mtime_ns", "nlink"}


class Tree:
    """A tree in which files come, change and go. Within one round each file does so once."""

    def __init__(self, root: Path, draw: random.Random) -> None:
        self.root = root
        self.draw = draw
        self.aside = root.parent / "aside"
        for directory in DIRECTORIES:
            (root / directory).mkdir(parents=True, exist_ok=True)

    def path(self) -> Path:
        draw = self.draw
        return self.root / draw.choice(DIRECTORIES) / (draw.choice(STEMS) + draw.choice(SUFFIXES))

    def change(self, count: int) -> None:
        touched = set()
        for _ in range(count):
            path = self.path()
            if path in touched or path.is_dir():
                continue
            touched.add(path)
            if os.path.lexists(path) and self.draw.random() < 0.4:
                path.unlink()
            else:
                self.put(path)

    def second(self) -> int:
        """The second in which a file of the tree changed, or one beside it."""
        files = [path for path in self.root.rglob("*") if path.is_symlink() or path.is_file()]
        changed = int(self.draw.choice(sorted(files)).lstat().st_mtime) if files else 0
        return changed + self.draw.choice([-1, 0, 0, 1])

    def put(self, path: Path) -> None:
        """A file, or now and then a link, comes whole to its place."""
        if self.draw.random() < 0.1:
            os.symlink(self.draw.choice(["a", "../b", "/none"]), self.aside)
        else:
            self.aside.write_text("x" * self.draw.choice([0, 0, 1, 10, 100, 5000]))
        self.aside.rename(path)


class Queries:
    """Draws queries whose answers are the same by the rules of both servers."""

    def __init__(self, draw: random.Random, tree: Tree) -> None:
        self.draw = draw
        self.tree = tree

    def query(self) -> Dict[str, object]:
        draw = self.draw
        fields = self.fields()
        query: Dict[str, object] = {"fields": fields, "dedup_results": True}
        if draw.random() < 0.85:
            query["expression"] = self.term(0)
        if OF_DIRECTORIES.intersection(fields):
            query["expression"] = ["allof", ["not", ["type", "d"]], query.get("expression", "true")]
        if draw.random() < 0.35:
            query["relative_root"] = draw.choice(["src", "src/deep", "Lib", "none", "s p", ".hid"])
        if draw.random() < 0.2:
            query["suffix"] = draw.choice(["c", ["c", "h"], ["py"], []])
        if draw.random() < 0.25:
            query["path"] = draw.choice([["src"], ["a.c", "deep"], [{"path": "src", "depth": 0}], [""], []])
        if draw.random() < 0.2 and query.get("relative_root") != "none":
            query["glob"] = draw.choice([["**/*.h", "src/**/a.*"], ["**/*.c"], ["**/main*"], ["deep/**/*.py"], []])
            query["glob_includedotfiles"] = draw.random() < 0.5
        if draw.random() < 0.15:
            query["case_sensitive"] = False
        return query

    def fields(self) -> List[str]:
        if self.draw.random() < 0.5:
            return ["name"]
        return self.draw.sample(FIELDS, self.draw.randrange(1, 5))

    def term(self, depth: int) -> object:
        draw = self.draw
        if depth < 3 and draw.random() < 0.4:
            head = draw.choice(["not", "allof", "anyof"])
            return [head, *(self.term(depth + 1) for _ in range(1 if head == "not" else draw.randrange(1, 4)))]
        i, scope = draw.choice(["", "i"]), draw.choice([[], ["basename"], ["wholename"]])
        name = draw.choice(STEMS) + draw.choice(SUFFIXES)
        whole = draw.choice(["src/", "deep/", "SRC/Deep/"]) + name
        return draw.choice(
            [
                "true",
                "false",
                "exists",
                "empty",
                ["type", draw.choice("fdl")],
                ["suffix", draw.choice(["c", "C", "h", "py"])],
                ["size", draw.choice(["eq", "ne", "gt", "ge", "lt", "le"]), draw.choice([0, 1, 10, 4096])],
                [f"{i}name", draw.choice([name, whole, [name, whole, "main.c"]]), *scope],
                [f"{i}match", *self.pattern(scope)],
                [
                    f"{i}dirname",
                    draw.choice(["src", "src/deep", "SRC", "", "none"]),
                    *draw.choice([[], [["depth", "ge", 1]]]),
                ],
                ["since", draw.choice([0, -1, 1_000_000_000, 4_000_000_000]), "mtime"],
                # Watchman has the times of directories as they were when a file last came.
                ["allof", ["not", ["type", "d"]], ["since", self.tree.second(), "mtime"]],
            ]
        )

    def pattern(self, scope: List[str]) -> List[object]:
        """Patterns without a star at their beginning that a dot alone could follow, and without two stars at their
        end."""
        draw = self.draw
        flags = [{"includedotfiles": draw.random() < 0.5}] if scope and draw.random() < 0.6 else []
        text = draw.choice(["a*", "*.c", "?.h", "[a-q]*", "m*n.*", "*_test*", "*"])
        if scope == ["wholename"]:
            text = draw.choice(["**/*.c", "src/*", "src/**/*.h", "s*/a.*", "src/deep/?.c", text])
        return [text, *scope, *flags]
