"""The words of the bridge: versions, capabilities, errors, projects, and its end."""

import json
import os
from pathlib import Path
from unittest.mock import patch

from bridged import VERSION, Bridge
from case import Case
from client import PATIENCE
from rows import tables
from trees import make_files
from wqclient.own_roots import set_own_root

HAS = (
    "cmd-watch-project",
    "cmd-state-enter",
    "cmd-flush-subscriptions",
    "cmd-log-level",
    "relative_root",
    "wildmatch",
    "term-dirname",
    "suffix-set",
    "field-mode",
    "glob_generator",
)
HAS_NOT = ("term-pcre", "scm-hg", "scm-since", "cmd-debug-ageout", "nothing")


class Words(Case):
    def test_versions(self) -> None:
        with Bridge(self.room) as bridge, bridge.client() as client:
            self.same("version", client.ask("version"), {"version": VERSION, "wqd": "wq-1"})
            reply = client.ask("version", {"optional": [*HAS, *HAS_NOT]})
            expected = {**dict.fromkeys(HAS, True), **dict.fromkeys(HAS_NOT, False)}
            self.same("capabilities that a client asks for", reply.get("capabilities"), expected)
            self.same("capabilities that are no error", "error" in reply, False)
            reply = client.ask("version", {"required": ["relative_root", "nothing"], "optional": ["wildmatch"]})
            self.same(
                "a required capability",
                reply.get("error"),
                "client required capability `nothing` is not supported by this server",
            )
            self.same(
                "what is there beside it",
                reply.get("capabilities"),
                {"relative_root": True, "nothing": False, "wildmatch": True},
            )
            for wishes in ({"optional": [], "required": []}, {}, "/path", 7, {"optional": "x"}):
                self.same(
                    f"version with {wishes}",
                    client.ask("version", wishes),
                    {"version": VERSION, "wqd": "wq-1", "capabilities": {}},
                )
            found = client.ask("list-capabilities")["capabilities"]
            self.same(
                "the list of capabilities",
                [name in found for name in (*HAS, *HAS_NOT)],
                [True] * len(HAS) + [False] * len(HAS_NOT),
            )
            self.same("each is there once", len(found), len(set(found)))
            self.same("get-sockname", client.ask("get-sockname"), {"sockname": bridge.sockname, "version": VERSION})
            self.same("get-pid is that of the server", client.ask("get-pid")["pid"], bridge.server.process.pid)

    def test_errors(self) -> None:
        root, other = self.room / "root", self.room / "other"
        make_files(root, ["a"])
        other.mkdir()
        with Bridge(self.room) as bridge, bridge.client(root) as client:
            self.same("not JSON", client_line(client, b"[\n").startswith("invalid json: "), True)
            rows = tables(Path(__file__).with_name("words.rows"), ROOT=str(root), OTHER=str(other))
            for row in rows["errors of commands"]:
                self.same(row.given, client.ask(*row.value()), {"error": row.expected, "version": VERSION})
            for row in rows["errors of queries"]:
                self.same(row.given, client.ask("query", str(root), row.value())["error"], row.expected)
            for row in rows["errors of terms"]:
                reply = client.ask("query", str(root), {"expression": row.value()})
                self.same(row.given, reply["error"], f"failed to parse query: {row.expected}")
            query = {"fields": ["name"], "expression": ["name", ["a", *["ü" * 7] * 40_000]]}
            client.send_bytes(json.dumps(["query", str(root), query], ensure_ascii=False).encode() + b"\n")
            self.same("a long line of letters that are not ASCII", client.reply().get("files"), ["a"])
            query = {"fields": ["name"], "expression": ["name", "\ud800"]}
            self.same("half a letter", client.ask("query", str(root), query).get("error"), "not JSON (E2)")
            self.same("get-config", client.ask("get-config", str(root)), {"config": {}, "version": VERSION})
            self.same("a client that was refused goes on", client.ask("watch-list")["roots"], [str(root)])

    def test_projects(self) -> None:
        """The order of the files of a project, directories below a watched root, and links."""
        trees = self.room / "trees"
        make_files(trees, ["git/.git/", "git/a/b/", "far/.watchmanconfig", "far/near/.git/", "far/near/c/", "plain/d/"])
        os.symlink(trees / "git" / "a", trees / "link")
        with Bridge(self.room) as bridge, bridge.client() as client:
            for path, root, below in (
                ("git/a/b", "git", "a/b"),
                ("git", "git", None),
                ("git/a", "git", "a"),
                ("far/near/c", "far", "near/c"),
                ("plain/d", "plain/d", None),
                ("link/b", "git", "a/b"),
            ):
                expected = {"version": VERSION, "watch": str(trees / root), "watcher": "poll"}
                if below is not None:
                    expected["relative_path"] = below
                self.same(f"the project of {path}", client.ask("watch-project", str(trees / path)), expected)
            client.ask("watch", str(trees))
            self.same(
                "the nearest watched root",
                client.ask("watch-project", str(trees / "plain" / "d"))["watch"],
                str(trees / "plain" / "d"),
            )
            self.same(
                "a watched root above", client.ask("watch-project", str(trees / "plain"))["relative_path"], "plain"
            )
            self.same(
                "watched roots",
                client.ask("watch-list")["roots"],
                [str(trees / "git"), str(trees / "far"), str(trees / "plain" / "d"), str(trees)],
            )
            self.same(
                "a link is watched by its directory",
                client.ask("watch", str(trees / "link"))["watch"],
                str(trees / "git" / "a"),
            )
            self.same("watch-del-all", len(client.ask("watch-del-all")["roots"]), 5)
            self.same("no root is left", client.ask("watch-list")["roots"], [])

    def test_own_roots(self) -> None:
        """What `wq watch --root` made a root is the project of all below it, unless a nearer one is there."""
        trees = self.room / "trees"
        make_files(trees, ["git/.git/", "git/a/b/", "plain/near/.git/", "plain/d/"])
        with patch.dict(os.environ, XDG_STATE_HOME=str(self.directory("state"))):
            for name in ("git/a", "plain"):
                set_own_root(str(trees / name), True)
            with Bridge(self.room) as bridge, bridge.client() as client:
                client.ask("watch", str(trees / "git"))
                for path, root, below in (
                    ("git/a/b", "git/a", "b"),
                    ("git/a", "git/a", None),
                    ("plain/near", "plain/near", None),
                    ("git", "git", None),
                    ("plain/d", "plain", "d"),
                ):
                    reply = client.ask("watch-project", str(trees / path))
                    found = (reply["watch"], reply.get("relative_path"))
                    self.same(f"the project of {path}", found, (str(trees / root), below))
                client.ask("watch-del", str(trees / "git" / "a"))
                set_own_root(str(trees / "git" / "a"), False)
                again = client.ask("watch-project", str(trees / "git" / "a" / "b"))
                self.same("after `wq unwatch`", again["watch"], str(trees / "git"))

    def test_an_end(self) -> None:
        """A client that ends the server ends the bridge."""
        with Bridge(self.room) as bridge:
            with bridge.client() as client, bridge.client() as other:
                other.ask("version")
                self.same(
                    "shutdown-server", client.ask("shutdown-server"), {"shutdown-server": True, "version": VERSION}
                )
                self.same("the stream of another client ends", other.rest(), b"")
            self.same("the bridge ends", bridge.process.wait(PATIENCE), 0)
            self.same("the server ends", bridge.server.process.wait(PATIENCE), 0)
            self.same("its socket is gone", os.path.exists(bridge.sockname), False)


def client_line(client, line: bytes) -> str:
    client.send_bytes(line)
    return client.reply()["error"]
