"""Triggers through the bridge: their directory, their output, what they are given, and how they are listed; and the
log."""

import contextlib
import json
import time
from typing import Dict, List, Tuple

from bridged import Bridge, VERSION, move_in, set_for, text_of
from case import Timed
from trees import make_files

# So many clients the server takes.
PLACES = 32
VARIABLES = "$WATCHMAN_RELATIVE_ROOT|$WATCHMAN_ROOT|$WATCHMAN_TRIGGER|$WATCHMAN_SOCK"
SHOWN = f'cat; pwd; for word; do echo "$word"; done; echo "{VARIABLES}"'


def trigger_of(name: str, keys: Dict[str, object]) -> Dict[str, object]:
    return {"name": name, "command": ["sh", "-c", SHOWN, "sh"], "expression": ["suffix", "c"], **keys}


# What `trigger ROOT u *.c -X b* -- true x` registers.
OLD_FORM = {
    "name": "u",
    "append_files": True,
    "stdin": ["name", "exists", "new", "size", "mode"],
    "command": ["true", "x"],
    "expression": [
        "allof",
        ["not", ["anyof", ["match", "b*", "wholename"]]],
        ["anyof", ["match", "*.c", "wholename"]],
    ],
}


class Triggered(Timed):
    def test_triggers(self) -> None:
        """A command runs in its directory, is given the files below its relative root, and writes to its file."""
        root, out = self.room / "root", self.room / "out"
        make_files(root, ["a.c", "d/b.c", "d/e/", "d/x.h"])
        with Bridge(self.room) as bridge, bridge.client(root) as client:
            whole = f"|{root}|t|{bridge.sockname}"
            below = f"{root}/d|{root}|t|{bridge.sockname}"
            mode = (root / "d" / "b.c").stat().st_mode
            triggers: List[Tuple[Dict[str, object], List[str]]] = [
                ({"append_files": True}, [str(root), "a.c", "d/b.c", whole]),
                ({"chdir": "d/e", "stdin": "NAME_PER_LINE"}, ["a.c", "d/b.c", f"{root}/d/e", whole]),
                (
                    {"relative_root": "d", "stdin": "NAME_PER_LINE", "append_files": True},
                    ["b.c", f"{root}/d", "b.c", below],
                ),
                ({"relative_root": "d", "chdir": "e", "stdin": ["name"]}, ['["b.c"]', f"{root}/d/e", below]),
                (
                    {"relative_root": "d", "stdin": ["name", "size", "mode"]},
                    [json.dumps([{"name": "b.c", "size": 5, "mode": mode}], separators=(",", ":")), f"{root}/d", below],
                ),
                ({"stdin": "NAME_PER_LINE", "max_files_stdin": 1}, ["a.c", str(root), whole]),
            ]
            for keys, expected in triggers:
                out.write_text("")
                reply = client.ask("trigger", str(root), trigger_of("t", {**keys, "stdout": f">{out}"}))
                self.same(f"{keys} is registered", reply.get("triggerid"), "t")
                text = text_of(out, lambda text: text.endswith(f"|{bridge.sockname}\n"))
                self.same(f"{keys}", text.splitlines(), expected)
                client.ask("trigger-del", str(root), "t")

    def test_a_first_run_in_a_root_that_changes(self) -> None:
        """A trigger first runs when nothing changed in its root for its `settle` time, once, with all files."""
        root, out, aside = self.room / "root", self.room / "out", self.room / "aside"
        set_for(root, {"settle": 2500})
        make_files(root, ["a.c"])
        with Bridge(self.room) as bridge, bridge.client(root) as client:
            definition = {
                "name": "t",
                "command": ["sh", "-c", 'echo "$*"', "sh"],
                "expression": ["suffix", "c"],
                "append_files": True,
                "stdout": f">>{out}",
            }
            reply = client.ask("trigger", str(root), definition)
            self.same("the reply", (reply.get("triggerid"), reply.get("disposition")), ("t", "created"))
            listed = client.ask("trigger-list", str(root))["triggers"]
            self.same("it is listed while it is held back", listed, [definition])
            disposition = client.ask("trigger", str(root), definition)["disposition"]
            self.same("and defined already", disposition, "already_defined")
            time.sleep(0.5)
            move_in(aside, root, ["b.c"])
            self.same("the first run", text_of(out, lambda text: "b.c" in text), "a.c b.c\n")
            move_in(aside, root, ["c.c"])
            self.same("the next one", text_of(out, lambda text: "c.c" in text), "a.c b.c\nc.c\n")

    def test_triggers_that_never_run(self) -> None:
        """A trigger that is deleted while its first run is held back does not run, and one in its place does."""
        root, out = self.room / "root", self.room / "out"
        set_for(root, {"settle": 500})
        make_files(root, ["a.c"])
        with Bridge(self.room) as bridge, bridge.client(root) as client:
            for name, word in (("gone", "gone"), ("t", "before"), ("t", "after")):
                client.ask("trigger", str(root), name, "*.c", "--", "sh", "-c", f"echo {word} >> {out}")
            client.ask("trigger-del", str(root), "gone")
            self.same("what ran", text_of(out, lambda text: "after" in text), "after\n")
            time.sleep(1)
            self.same("nothing else did", out.read_text(), "after\n")

    def test_a_bridge_that_ends(self) -> None:
        """A first run that is held back is let go when the bridge ends. One of a bridge that was killed is lost until
        the trigger is registered again."""
        root, out = self.room / "root", self.room / "out"
        set_for(root, {"settle": 30_000})
        make_files(root, ["a.c"])
        words = ["t", "*.c", "--", "sh", "-c", f"echo run >> {out}"]
        with Bridge(self.room) as bridge:
            with bridge.client(root) as client:
                client.ask("trigger", str(root), *words)
            bridge.replace()
            with bridge.client(root) as client:
                disposition = client.ask("trigger", str(root), *words)["disposition"]
                self.same("registered again with another bridge", disposition, "replaced")
            self.same("nothing ran", out.exists(), False)
            bridge.process.terminate()
            bridge.process.wait()
            self.same("after the end", text_of(out, lambda text: text), "run\n")

    def test_triggers_without_a_place(self) -> None:
        """If the server has no place for one more client, a trigger is registered all the same, and runs."""
        root, out = self.room / "root", self.room / "out"
        make_files(root, ["a.c"])
        with Bridge(self.room) as bridge, bridge.client(root) as client, contextlib.ExitStack() as others:
            for _ in range(PLACES - 1):
                others.enter_context(bridge.server.client()).ask("version")
            reply = client.ask("trigger", str(root), "t", "*.c", "--", "sh", "-c", f"echo run >> {out}")
            self.same("the reply", reply.get("disposition"), "created")
            self.same("it runs", text_of(out, lambda text: text), "run\n")
            refused = client.ask("trigger", str(root), "u", {"frob": 1}, "--", "true")
            self.same("one that is no trigger", "error" in refused, True)

    def test_outputs(self) -> None:
        root = self.room / "root"
        make_files(root, ["a.c"])
        log, errors = self.room / "log", self.room / "errors"
        with Bridge(self.room) as bridge, bridge.client() as client:
            definition: Dict[str, object] = {
                "name": "t",
                "command": ["sh", "-c", "echo out; echo err >&2; echo end"],
                "expression": ["suffix", "c"],
                "stdout": f">>{log}",
                "stderr": f">{errors}",
            }
            client.ask("trigger", str(root), definition)
            text_of(log, lambda text: text.count("end") == 1)
            move_in(self.room / "aside", root, ["b.c"])
            self.same("an output is added", text_of(log, lambda text: text.count("end") == 2), "out\nend\n" * 2)
            self.same("and another is written anew", errors.read_text(), "err\n")
            self.same(
                "the definition is listed as it was", client.ask("trigger-list", str(root))["triggers"], [definition]
            )
            self.same(
                "the same again",
                client.ask("trigger", str(root), definition),
                {"triggerid": "t", "disposition": "already_defined", "version": VERSION},
            )
            self.same(
                "another",
                client.ask("trigger", str(root), dict(definition, stdout=f">{log}"))["disposition"],
                "replaced",
            )
            client.ask("trigger", str(root), "u", "*.c", "-X", "b*", "--", "true", "x")
            self.same(
                "the old form",
                client.ask("trigger-list", str(root))["triggers"][1],
                OLD_FORM,
            )

    def test_the_log(self) -> None:
        """A client that reads the log gets the lines of others, and the starts of triggers."""
        root = self.room / "root"
        make_files(root, ["a.c"])
        with Bridge(self.room) as bridge, bridge.client() as client, bridge.client() as other:
            self.same("log-level", client.ask("log-level", "error"), {"log_level": "error", "version": VERSION})
            for level in ("debug", "error"):
                self.same(
                    f"log {level}", other.ask("log", level, f"words of {level}"), {"logged": True, "version": VERSION}
                )
            found = client.reply()
            self.same(
                "a line of the log",
                (found["level"], found["unilateral"], found["log"].endswith(" words of error\n")),
                ("error", True, True),
            )
            client.ask("log-level", "debug")
            other.ask("trigger", str(root), "t", "*.c", "--", "true")
            self.same("the start of a trigger", f"{root} posix_spawnp: t" in client.reply()["log"], True)
            client.ask("log-level", "off")

    def test_subscriptions_from_elsewhere(self) -> None:
        """A subscription from a cursor begins with its list; generators change nothing, as in Watchman."""
        root = self.room / "root"
        make_files(root, ["a.c", "d/b.h"])
        query: Dict[str, object] = {"fields": ["name"], "expression": ["type", "f"]}
        with Bridge(self.room) as bridge, bridge.client(root) as client:
            client.ask("subscribe", str(root), "s", dict(query, suffix=["c"], path=["d"], glob=["x"]))
            self.same("generators of a subscription", client.reply()["files"], ["a.c", "d/b.h"])
            client.ask("unsubscribe", str(root), "s")
            client.ask("query", str(root), dict(query, since="n:k"))
            move_in(self.room / "aside", root, ["new"])
            client.ask("query", str(root), query)
            reply = client.ask("subscribe", str(root), "s", dict(query, since="n:k"))
            self.same("a subscription from a cursor", reply.get("subscribe"), "s")
            first = client.reply()
            self.same("begins with what changed", (first["files"], first["is_fresh_instance"]), (["new"], False))
            move_in(self.room / "aside", root, ["newer"])
            later = client.reply()
            self.same("and goes on", (later["files"], later["since"]), (["newer"], first["clock"]))
            self.same(
                "the cursor has moved", client.ask("query", str(root), dict(query, since="n:k"))["files"], ["newer"]
            )
