"""Lists through the bridge: below a directory, without case, by globs, with fields of the disk, and of
subscriptions."""

import errno
import hashlib
import os
import random
import shutil
from pathlib import Path
from typing import Dict, List, Tuple

from bridged import Bridge, BserClient, NO_CODEC, VERSION, codec, is_silent, move_in, names_of
from case import Case
from client import Client
from trees import make_files

from bridge.fields import sum_of_content

NAMES = ["a.c", "b.h", ".a.c", "A.C", "x", "s*r", "s?r", "[q]"]
DRAWS = 80
# So many files have long lists.
LONG = 2_000


IN_BSER: List[Dict[str, object]] = [
    {"fields": ["name"]},
    {"fields": ["name"], "relative_root": "d"},
    {"fields": ["name"], "relative_root": "ü"},
    {"fields": ["name", "size"], "relative_root": "ü"},
    {"fields": ["name"], "suffix": "none"},
    {"fields": ["name", "size"]},
    {"fields": ["name"], "path": ["a.c"]},
    {"fields": ["size"]},
    {"fields": ["exists"]},
    {"fields": ["new", "exists"]},
    {"fields": []},
    {},
    {"fields": ["type", "mtime_ms", "new", "exists", "cclock", "name"], "since": 1},
    {"fields": ["exists", "nlink"], "relative_root": "ü/ü"},
    {"fields": ["name", "new"], "empty_on_fresh_instance": True},
]


class Lists(Case):
    def test_relative_roots(self) -> None:
        """A query below a directory lists what the same query lists if that directory is watched."""
        root = self.room / "root"
        directory = "d*r/[q]"
        files = [f"{above}{name}" for above in ("", "x.d/", "a.d/s?r/", ".h/") for name in NAMES]
        make_files(root / directory, files)
        make_files(root, NAMES)
        draw = random.Random(7)
        wrong: List[str] = []
        with Bridge(self.room, 3_600_000) as bridge, bridge.client(root) as client:
            client.ask("watch", str(root / directory))
            for _ in range(DRAWS):
                query = drawn_query(draw)
                found = names_of(client, root, {**query, "relative_root": directory})
                expected = names_of(client, root / directory, query)
                if found != expected:
                    wrong.append(f"{query}: {found} and not {expected}")
            self.same("a directory that is not there", names_of(client, root, {"relative_root": "no"}), [])
            for directory in ("x", ".", "./d*r", "d*r/..", "/d*r", "d*r//[q]"):
                self.same(f"{directory} as relative root", names_of(client, root, {"relative_root": directory}), [])
            query = {"relative_root": "d*r//", "expression": ["type", "d"], "path": [{"path": "", "depth": 0}]}
            self.same("slashes at the end of one", names_of(client, root, query), ["[q]"])
        self.check(f"{DRAWS} queries below a directory", not wrong, wrong[:5])

    def test_globs_and_case(self) -> None:
        root = self.room / "root"
        make_files(root, ["a.c", "B.C", "d/c.c", "d/.e.c", "d/f.h"])
        with Bridge(self.room, 3_600_000) as bridge, bridge.client(root) as client:
            queries: List[Tuple[Dict[str, object], List[str]]] = [
                ({"glob": ["*.c"]}, ["a.c"]),
                ({"glob": ["**/*.c"]}, ["a.c", "d/c.c"]),
                ({"glob": ["**/*.c"], "glob_includedotfiles": True}, ["a.c", "d/.e.c", "d/c.c"]),
                ({"glob": ["**/*.c"], "case_sensitive": False}, ["B.C", "a.c", "d/c.c"]),
                ({"glob": ["*.c", "d/*.h"]}, ["a.c", "d/f.h"]),
                ({"glob": []}, []),
                ({"glob": ["*.c"], "path": [{"path": "d", "depth": 0}]}, ["a.c", "d/.e.c", "d/c.c", "d/f.h"]),
                ({"glob": ["d"], "suffix": "h"}, ["d", "d/f.h"]),
                ({"glob": ["*.c"], "relative_root": "d"}, ["c.c"]),
                ({"suffix": [], "path": []}, ["B.C", "a.c", "d", "d/.e.c", "d/c.c", "d/f.h"]),
                ({"path": ["."]}, []),
                ({"path": ["d/.", "d/f.h"]}, ["d/f.h"]),
                ({"glob": ["[a]\\.c"], "glob_noescape": True}, []),
                ({"expression": ["suffix", "c", "more"]}, ["B.C", "a.c", "d/.e.c", "d/c.c"]),
                ({"expression": ["suffix", ["c", "h"]]}, ["B.C", "a.c", "d/.e.c", "d/c.c", "d/f.h"]),
                ({"expression": ["exists", "more"]}, ["B.C", "a.c", "d", "d/.e.c", "d/c.c", "d/f.h"]),
                (
                    {"expression": ["match", "*.c", "basename", {"frob": 1, "includedotfiles": True}]},
                    ["a.c", "d/.e.c", "d/c.c"],
                ),
                ({"expression": ["name", ["x" * 5000, "a.c"]]}, ["a.c"]),
                ({"expression": ["name", "x" * 2_000_000]}, []),
                ({"expression": ["name", "b.c"], "case_sensitive": False}, ["B.C"]),
                ({"expression": ["name", "b.c"], "case_sensitive": True}, []),
            ]
            for query, expected in queries:
                self.same(f"{query}", names_of(client, root, query), expected)
            self.same(
                "find", sorted(row["name"] for row in client.ask("find", str(root), "*.c", "-X", "a*")["files"]), []
            )
            found = client.ask("since", str(root), "c:1:1", "d/*.c")
            self.same("since", ([row["name"] for row in found["files"]], found["is_fresh_instance"]), (["d/c.c"], True))
            self.check_globs_since(root, client)

    def check_globs_since(self, root: Path, client: Client) -> None:
        """Beside a clock a glob gives files that exist, and the clock those that changed."""
        clock = client.ask("clock", str(root))["clock"]
        make_files(root, ["new.c", "d/new.c", "d/.new.c"])
        queries: List[Tuple[Dict[str, object], List[str]]] = [
            ({"glob": ["d/*.c"]}, ["d", "d/.new.c", "d/c.c", "d/new.c", "new.c"]),
            ({"glob": ["a.c"], "expression": ["suffix", "c"]}, ["a.c", "d/.new.c", "d/new.c", "new.c"]),
            ({"glob": ["c.c"], "relative_root": "d", "expression": ["suffix", "c"]}, [".new.c", "c.c", "new.c"]),
        ]
        for query, expected in queries:
            self.same(
                f"{query} since", names_of(client, root, {**query, "since": clock, "sync_timeout": 1000}), expected
            )
        for directory in ("no", "d/.", "a.c"):
            reply = client.ask("query", str(root), {"glob": ["*"], "relative_root": directory})
            self.same(
                f"glob below {directory}",
                reply.get("error"),
                f"query failed: glob_generator could not resolve {root}/{directory}, check your relative_root "
                f"parameter!",
            )
        shutil.rmtree(root / "d")
        query = {"glob": ["*"], "relative_root": "d", "sync_timeout": 1000}
        self.same("glob below a directory that has gone", names_of(client, root, query), [])

    def test_long_lists(self) -> None:
        """A list that comes in many pieces is the server's own, before and after a subscription."""
        root = self.room / "root"
        make_files(root, [f"below/{'long' * 20}-{number}" for number in range(LONG)])
        with Bridge(self.room, 3_600_000) as bridge, bridge.client() as client, bridge.server.client() as direct:
            client.ask("watch", str(root))
            for fields in (["name"], ["name", "size"], ["name", "exists", "mode"]):
                query = {"fields": fields}
                expected = direct.ask("query", str(root), {"fields": [field for field in fields if field != "mode"]})
                if "mode" in fields:
                    for row in expected["files"]:
                        row["mode"] = os.lstat(root / row["name"]).st_mode
                expected["version"] = VERSION
                for turn in range(2):
                    self.same(f"a long list of {fields}, {turn}", client.ask("query", str(root), query), expected)
            self.check_long_lists_below(root, client)
            client.ask("subscribe", str(root), "s", {"fields": ["name"]})
            self.same("a long list of a subscription", len(client.reply()["files"]), LONG + 1)
            self.same(
                "a long list beside a subscription",
                len(client.ask("query", str(root), {"fields": ["name"]})["files"]),
                LONG + 1,
            )

    def check_long_lists_below(self, root: Path, client: Client) -> None:
        """Names lose the directory above them wherever a piece ends."""
        client.ask("watch", str(root / "below"))
        for fields in (["name"], ["name", "size", "exists"], ["name", "mode"]):
            expected = client.ask("query", str(root / "below"), {"fields": fields})["files"]
            found = client.ask("query", str(root), {"fields": fields, "relative_root": "below"})["files"]
            self.same(f"a long list of {fields} below a directory", found, expected)
            self.same(f"all {fields} are there", len(found), LONG)

    def test_fields(self) -> None:
        """Fields that the bridge reads are those of the disk."""
        root = self.room / "root"
        make_files(root, ["a", "d/b"])
        os.symlink("a", root / "l")
        os.chmod(root / "a", 0o640)
        fields = [
            "name",
            "mode",
            "uid",
            "ino",
            "nlink",
            "ctime_ns",
            "mtime_us",
            "mtime_f",
            "symlink_target",
            "content.sha1hex",
        ]
        with Bridge(self.room, 3_600_000) as bridge, bridge.client(root) as client:
            rows = client.ask("query", str(root), {"fields": fields})["files"]
            self.same("each file is there", [row["name"] for row in rows], ["a", "d", "d/b", "l"])
            for row in rows:
                self.same(f"fields of {row['name']}", row, looked_at(root / row["name"], row["name"]))
            rows = client.ask("query", str(root), {})["files"]
            self.same("fields by default", sorted(rows[0]), ["exists", "mode", "name", "new", "size"])
            query = {"fields": ["mode"], "relative_root": "d"}
            self.same("one field", client.ask("query", str(root), query)["files"], [os.lstat(root / "d" / "b").st_mode])
            self.same("no field", client.ask("query", str(root), {"fields": [], "path": ["a"]})["files"], [{}])
            clock = client.ask("clock", str(root))["clock"]
            (root / "a").unlink()
            query = {"since": clock, "fields": ["name", "exists", "mode", "uid"], "expression": ["name", "a"]}
            self.same(
                "a deleted file",
                client.ask("query", str(root), query)["files"],
                [{"name": "a", "exists": False, "mode": 0o100000, "uid": None}],
            )

    def test_content_that_changes(self) -> None:
        """A file that became a pipe or a link after it was looked at is not read, and not waited for."""
        make_files(self.room, ["file"])
        os.mkfifo(str(self.room / "pipe"))
        (self.room / "link").symlink_to(self.room / "file")
        looked = os.lstat(str(self.room / "file"))
        self.same("a file", sum_of_content(bytes(self.room / "file"), looked), hashlib.sha1(b"file").hexdigest())
        for name, number in (("pipe", errno.EPERM), ("link", errno.ELOOP)):
            try:
                self.same(f"a {name} in its place", sum_of_content(bytes(self.room / name), looked), "an error")
            except OSError as error:
                self.same(f"a {name} in its place", error.errno, number)

    def test_subscriptions(self) -> None:
        root = self.room / "root"
        make_files(root, ["d/a.c", "b.c"])
        with Bridge(self.room) as bridge, bridge.client() as client:
            query = {"fields": ["name", "exists"], "relative_root": "d", "expression": ["match", "*.c", "wholename"]}
            reply = client.ask("subscribe", str(root), "s", query)
            self.same("a subscription watches its root", sorted(reply), ["clock", "subscribe", "version"])
            first = client.reply()
            self.same(
                "the first list",
                (first["files"], first["root"], first["is_fresh_instance"], first["unilateral"]),
                ([{"exists": True, "name": "a.c"}], str(root), True, True),
            )
            move_in(self.room / "aside", root, ["c.c", "d/e.c"])
            later = client.reply()
            self.same("a later list", (later["files"], later["subscription"]), ([{"exists": True, "name": "e.c"}], "s"))
            # A walk may have seen the file, and its directory as it was before.
            clock = client.ask("clock", str(root), {"sync_timeout": 1000})["clock"]
            client.ask("subscribe", str(root), "t", {"since": clock, "fields": ["name"]})
            self.same("a first list without files is not told", is_silent(client), True)
            self.same("unsubscribe", client.ask("unsubscribe", str(root), "s")["deleted"], True)
            client.ask("watch-del", str(root))
            self.same("a root that is watched no longer", client.reply().get("canceled"), True)
            self.same("has no subscriptions", client.ask("debug-get-subscriptions", str(root))["subscribers"], [])

    def check_names_in_bser(self, root: Path, client: Client, other: BserClient) -> None:
        """Lists of names in BSER are those in JSON, whatever the names have in them."""
        for names in (['q"],["', "b\\n"], ['","', "],"], ["d/[]", "d/{}"], ["ü/d", "ü/ü/€"]):
            make_files(root, names)
            for query in IN_BSER:
                expected = client.ask("query", str(root), query)
                self.same(f"{names} in BSER: {query}", other.ask(2, "query", str(root), query), expected)
            for name in names:
                (root / name).unlink()

    def test_encodings(self) -> None:
        """Each message is answered in its own encoding. Without the codec, BSER is refused in JSON."""
        root = self.room / "root"
        make_files(root, ["a.c", "ä.c"])
        bser = codec()
        with Bridge(self.room) as bridge, bridge.client(root) as client:
            if bser is None:
                client.send_bytes(b"\x00\x01\x03\x01\x00")
                self.same("BSER without its codec", "python3-pywatchman" in client.reply().get("error", ""), True)
                self.skipTest(NO_CODEC)
            query = {"fields": ["name"]}
            expected = client.ask("query", str(root), query)
            with BserClient(bridge.sockname, bser) as other:
                for version in (1, 2, 1):
                    self.same(f"BSER {version}", other.ask(version, "query", str(root), query), expected)
                other.ask(2, "subscribe", str(root), "s", query)
                self.same("a list in BSER", other.reply(2)["files"], ["a.c", "ä.c"])
                other.ask(2, "unsubscribe", str(root), "s")
                self.check_names_in_bser(root, client, other)
                os.symlink(b"\xff/\xc3\xa4", str(root / "link"))
                query = {"fields": ["symlink_target"], "expression": ["type", "l"]}
                for reply in (client.ask("query", str(root), query), other.ask(2, "query", str(root), query)):
                    self.same("a link to a name that is not UTF-8", reply["files"], ["?/ä"])
                error = other.ask(1, "query", b"/\xff", {})
                self.same("a text that is not UTF-8", "not UTF-8" in str(error["error"]), True)
                other.stream.sendall(b"\x00\x01\x03\x01\x40")
                self.same("what is no BSER", "this is no BSER" in str(other.reply(1)["error"]), True)


def drawn_query(draw: random.Random) -> Dict[str, object]:
    query: Dict[str, object] = {"expression": drawn_term(draw, 0)}
    if draw.random() < 0.3:
        query["suffix"] = draw.sample(["c", "h", "d", "txt"], 2)
    if draw.random() < 0.3:
        query["path"] = [draw.choice(["x.d", "a.d/", "x", {"path": "", "depth": 0}, {"path": "a.d", "depth": 1}])]
    if draw.random() < 0.2:
        query["glob"] = draw.choice([["*.c"], ["**/*.c", "x"], ["a.d/**"], []])
        query["glob_includedotfiles"] = draw.random() < 0.5
    if draw.random() < 0.3:
        query["case_sensitive"] = False
    return query


def drawn_term(draw: random.Random, depth: int) -> object:
    if depth < 3 and draw.random() < 0.4:
        head = draw.choice(["not", "allof", "anyof"])
        return [head, *(drawn_term(draw, depth + 1) for _ in range(1 if head == "not" else draw.randrange(1, 3)))]
    scopes: List[List[str]] = [[], ["basename"], ["wholename"]]
    depths: List[List[object]] = [[], [["depth", "ge", 1]]]
    i, scope = draw.choice(["", "i"]), draw.choice(scopes)
    flags: List[Dict[str, bool]] = (
        [{"includedotfiles": draw.random() < 0.5, "noescape": draw.random() < 0.5}]
        if scope and draw.random() < 0.5
        else []
    )
    name = draw.choice([*NAMES, "x.d/a.c", "a.d/s?r/x", "X.D/A.C"])
    return draw.choice(
        [
            "exists",
            "empty",
            ["type", draw.choice("fd")],
            ["suffix", draw.choice("ch")],
            ["size", "gt", draw.randrange(12)],
            [f"{i}name", draw.choice([name, [name, "b.h"]]), *scope],
            [f"{i}match", draw.choice(["*", "*.c", "**/*.C", "x.d/*", "a.d/**", "s\\?r", name]), *scope, *flags],
            [
                f"{i}dirname",
                draw.choice(["", "x.d", "a.d/", "A.D", "a.d/s?r"]),
                *draw.choice(depths),
            ],
        ]
    )


def looked_at(path: Path, name: str) -> Dict[str, object]:
    found = os.lstat(path)
    return {
        "name": name,
        "mode": found.st_mode,
        "uid": found.st_uid,
        "ino": found.st_ino,
        "nlink": found.st_nlink,
        "ctime_ns": found.st_ctime_ns,
        "mtime_us": found.st_mtime_ns // 1000,
        "mtime_f": found.st_mtime_ns / 1_000_000_000,
        "symlink_target": os.readlink(path) if path.is_symlink() else None,
        "content.sha1hex": None if path.is_symlink() or path.is_dir() else hashlib.sha1(path.read_bytes()).hexdigest(),
    }
