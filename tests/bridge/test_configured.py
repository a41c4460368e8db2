"""Settings of Watchman that the bridge obeys: those of a root, and those of the system."""

import json
import os
from pathlib import Path
from typing import Dict, List, Optional, Tuple, Union

from bridged import Bridge, VERSION, is_silent, move_in, names_of, set_for
from case import Case
from client import Client
from trees import make_files
from waiting import look_until


class Configured(Case):
    def test_directories_left_out(self) -> None:
        """Lists and subscriptions have no file of `ignore_dirs`, and of source control the first level alone."""
        root, other = self.room / "root", self.room / "other"
        settings = {"ignore_dirs": ["out", "deep/er"], "own": 7}
        set_for(root, settings)
        make_files(root, ["a", "out/b", "outer/c", "deep/d", "deep/er/e", ".git/f", ".git/objects/g"])
        set_for(other, {"ignore_vcs": ["kept"]})
        make_files(other, [".git/objects/g", "kept/a", "kept/b/c"])
        query: Dict[str, object] = {"expression": ["type", "f"]}
        with Bridge(self.room) as bridge, bridge.client(root) as client:
            self.same("get-config", client.ask("get-config", str(root)), {"config": settings, "version": VERSION})
            found = [".git/f", ".watchmanconfig", "a", "deep/d", "outer/c"]
            self.same("a list", names_of(client, root, query), found)
            directories = names_of(client, root, {"expression": ["type", "d"]})
            self.same("directories too", directories, [".git", ".git/objects", "deep", "outer"])
            self.same("below a directory", names_of(client, root, {**query, "relative_root": "deep"}), ["d"])
            self.same("by a path", names_of(client, root, {**query, "path": ["out", "a"]}), ["a"])
            client.ask("subscribe", str(root), "s", {"fields": ["name"], "expression": ["type", "f"]})
            self.same("the first list of a subscription", client.reply()["files"], found)
            move_in(self.room / "aside", root, ["out/new", ".git/objects/new"])
            self.same("what is left out is not told", is_silent(client), True)
            move_in(self.room / "aside", root, ["new"])
            self.same("what is not left out is", client.reply()["files"], ["new"])
        with Bridge(self.room) as bridge, bridge.client(other) as client:
            self.same("ignore_vcs", names_of(client, other, query), [".git/objects/g", ".watchmanconfig", "kept/a"])

    def test_settings_read_again(self) -> None:
        """The settings of a root are those of the time when it was watched; a file that holds none is as an empty
        one."""
        root = self.room / "root"
        set_for(root, {"a": 1})
        with Bridge(self.room) as bridge, bridge.client(root) as client:
            set_for(root, {"a": 2})
            self.same("settings that changed", client.ask("get-config", str(root))["config"], {"a": 1})
            client.ask("watch-del", str(root))
            client.ask("watch", str(root))
            self.same(
                "settings of a root that is watched anew", client.ask("get-config", str(root))["config"], {"a": 2}
            )
            client.ask("watch-del", str(root))
            (root / ".watchmanconfig").write_text("{")
            client.ask("watch", str(root))
            self.same("a file that holds no settings", client.ask("get-config", str(root))["config"], {})

    def test_settings_of_the_system(self) -> None:
        """`root_files` say what a project is, and whether others may be watched."""
        trees = self.room / "trees"
        make_files(trees, ["a/.foo", "a/b/c/", "d/e/", "g/.git/"])
        projects: List[Tuple[Dict[str, object], str, Union[str, Tuple[str, Optional[str]]]]] = [
            ({"root_files": [".foo"]}, "a/b/c", ("a", "b/c")),
            ({"root_files": [".foo"]}, "d/e", ("d/e", None)),
            ({"root_files": [".foo"]}, "g", ("g", None)),
            (
                {"root_files": [".foo"], "enforce_root_files": True},
                "d/e",
                "none of the files listed in global config root_files",
            ),
            ({"root_restrict_files": [".git"]}, "g", ("g", None)),
            ({"root_restrict_files": [".git"]}, "a", "none of the files listed in global config root_files"),
        ]
        for settings, path, expected in projects:
            with configured(self.room, settings) as bridge, bridge.client() as client:
                reply = client.ask("watch-project", str(trees / path))
                found = (
                    reply["error"]
                    if "error" in reply
                    else (os.path.relpath(reply["watch"], trees), reply.get("relative_path"))
                )
                name = f"{settings}: {path}"
                self.check(name, expected in found if isinstance(expected, str) else expected == found, [f"{reply}"])
        with configured(self.room, {"root_restrict_files": [".git"]}) as bridge, bridge.client() as client:
            reply = client.ask("watch", str(trees / "a"))
            self.same(
                "a directory that may not be watched", "Your watchman administrator" in reply.get("error", ""), True
            )
            self.same("one that may", client.ask("watch", str(trees / "g")).get("watch"), str(trees / "g"))

    def test_file_systems(self) -> None:
        """A directory on a file system that the settings forbid may not be watched. Those that are near are all of one
        name."""
        root = self.directory("root")
        forbidden: List[Tuple[Dict[str, object], Optional[str]]] = [
            ({"illegal_fstypes": ["unknown"], "illegal_fstypes_advice": "go away"}, "illegal_fstypes: go away"),
            ({"illegal_fstypes": ["unknown"]}, "illegal_fstypes: relocate the dir to an allowed filesystem type"),
            ({"illegal_fstypes": ["nfs", "cifs"]}, None),
        ]
        for settings, words in forbidden:
            with configured(self.room, settings) as bridge, bridge.client() as client:
                error = client.ask("watch", str(root)).get("error")
                expected = words and (
                    f'unable to resolve root {root}: path uses the "unknown" filesystem and is '
                    f"disallowed by global "
                    f"config {words}"
                )
                self.same(f"{settings}", error, expected)

    def test_links_that_are_followed(self) -> None:
        """With `watch_symlinks` the projects are watched to which links of a root lead, and those behind them."""
        first, second, third = (self.room / name for name in ("first", "second", "third"))
        for root in (first, second, third):
            set_for(root, {"watch_symlinks": True})
            (root / "file").touch()
        (second / "link").symlink_to(third / "file")
        (first / "link").symlink_to("../second/link")
        with Bridge(self.room) as bridge, bridge.client(first) as client:
            self.same("links are followed", watched_by(client, 3), sorted(map(str, (first, second, third))))

    def test_recrawls(self) -> None:
        """A root that a client had crawled is warned of, unless its settings say that it is not."""
        root, quiet = self.room / "root", self.room / "quiet"
        set_for(quiet, {"suppress_recrawl_warnings": True})
        make_files(root, ["a"])
        with Bridge(self.room) as bridge, bridge.client() as client:
            for path, is_warned in ((root, True), (quiet, False)):
                client.ask("watch", str(path))
                self.same("debug-recrawl", client.ask("debug-recrawl", str(path)).get("recrawl"), True)
                for fields in (["name"], ["name", "mode"]):
                    warning = client.ask("query", str(path), {"fields": fields}).get("warning", "")
                    self.same(
                        f"the warning of {path.name}", warning.startswith("Recrawled this watch 1 times"), is_warned
                    )
                self.same(f"that of since {path.name}", "warning" in client.ask("since", str(path), "c:0:0"), is_warned)
                for name in ("find", "clock"):
                    self.same(f"none of {name} {path.name}", "warning" in client.ask(name, str(path)), False)
            client.ask("watch-del", str(root))
            client.ask("watch", str(root))
            self.same("a root that is watched anew", "warning" in client.ask("query", str(root), {}), False)


def configured(room: Path, settings: Dict[str, object]) -> Bridge:
    path = room / "settings.json"
    path.write_text(json.dumps(settings))
    os.environ["WATCHMAN_CONFIG_FILE"] = str(path)
    try:
        return Bridge(room)
    finally:
        del os.environ["WATCHMAN_CONFIG_FILE"]


def watched_by(client: Client, count: int) -> List[str]:
    return look_until(lambda: sorted(client.ask("watch-list")["roots"]), lambda roots: len(roots) >= count)
