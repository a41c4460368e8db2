"""The parts of the adapter that ask no server."""

import json
import os
from typing import Iterator, List, Optional, Tuple

from case import Case
from wqd_watchdog.latency import LOOKS, Latency
from wqd_watchdog.roots import in_common, nearest, outermost, refusal
from wqd_watchdog.rows import Change, Changes, File, Row, difference, file_of

A, B, D = Row(False, 1, 1000), Row(False, 2, 1000), Row(True, 4096, 1000)


class Pieces(Case):
    def test_changes(self) -> None:
        """Of several changes of a file one is left, and none if it is as before."""
        changes = Changes()
        self.same("no change", changes.taken(), [])
        for path, before, now in (
            ("b", None, A),
            ("b", A, B),
            ("a", A, B),
            ("c", None, A),
            ("c", A, None),
            ("d", A, B),
            ("d", B, A),
        ):
            changes.note(path, before, now)
        self.same("each once", changes.taken(), [Change("a", A, B), Change("b", None, B)])
        self.same("taken once", changes.taken(), [])
        found = difference({"a": A, "b": A, "c": A}, {"a": A, "b": D, "e": B})
        listed = json.loads(
            '{"files":[{"exists":true,"mtime_ms":7,"name":"a","size":1,"type":"f"}]}', object_hook=file_of
        )
        self.same("a file of a list", listed, {"files": [File("a", True, "f", 1, 7)]})
        self.same("a difference", found, [Change("b", A, D), Change("c", A, None), Change("e", None, B)])

    def test_roots(self) -> None:
        rows: List[Tuple[str, List[str], Tuple[Optional[str], str]]] = [
            ("/a/b", [], (None, "/a/b")),
            ("/a/b", ["/a"], ("/a", "/a")),
            ("/a/b", ["/a", "/a/b"], ("/a/b", "/a")),
            ("/ab", ["/a"], (None, "/ab")),
            ("/a", ["/"], ("/", "/")),
            ("/a", ["/a/b"], (None, "/a")),
        ]
        for directory, roots, expected in rows:
            self.same(f"{directory} in {roots}", (nearest(directory, roots), outermost(directory, roots)), expected)
        self.check(
            "no root is free", str(refusal("/a", "E13: too many roots")).startswith("/a: 16 directories are watched")
        )
        self.same("another error", str(refusal("/a", "E60: no memory")), "/a: E60: no memory")
        home = os.path.expanduser("~")
        for directories, common in (
            (["/a/b/c", "/a/b/d"], "/a/b"),
            (["/a/b/c", "/a/b"], "/a/b"),
            (["/a/b", "/a/c"], None),
            (["/a", "/b"], None),
            ([f"{home}/a", f"{home}/b"], None),
        ):
            self.same(f"what {directories} have in common", in_common(directories), common)

    def test_latency(self) -> None:
        """A file system is slow if some of the last looks took long."""
        (self.room / "f").touch()

        def paths() -> Iterator[str]:
            return iter([str(self.room), str(self.room / "f"), str(self.room / "none")])

        latency = Latency(paths)
        self.same("nothing is known", latency.is_slow(), False)
        latency.look(2 * LOOKS)
        self.same("in memory", latency.is_slow(), False)
        latency.seconds.extend([0.001] * (LOOKS // 4))
        self.same("some looks are slow", latency.is_slow(), False)
        latency.seconds.extend([0.001] * (LOOKS // 4))
        self.same("more are", latency.is_slow(), True)
        latency.look(2 * LOOKS)
        self.same("quick again", latency.is_slow(), False)
