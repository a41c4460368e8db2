"""`wq ask` and `wq explain`: lines as they are, and the second line of errors. `placing` has those of objects."""

import json
import subprocess
from contextlib import ExitStack
from pathlib import Path

import built
from case import Beside
from rows import tables
from scene import Scene, said, wrong
from wq import vocabulary
from wqclient import names

ROWS = Path(__file__).with_name("asking.rows")


class Asking(Beside):
    def test_errors(self) -> None:
        """Each line is asked in one call; replies are on one stream, and what they mean on the other."""
        with Scene(self.room) as scene:
            root = str(scene.tree)
            scene.wq("watch")
            rows = tables(ROWS, TREE=root)
            cases = [(row.given, *row.expected.split(" => ")) for row in rows["errors"]]
            lines = "".join(f"{line}\n" for line, _, _ in cases).encode()
            ended = scene.call(["ask", "-"], lines)
            replies = [json.loads(line).get("error") for line in ended.output.splitlines()]
            culprits = [line[len("wq: ") :] for line in ended.errors.decode().splitlines()]
            self.same("the status of errors", ended.status, 3)
            self.same("a reply and a culprit for each line", (len(replies), len(culprits)), (len(cases), len(cases)))
            for (line, error, culprit), reply, said_of_it in zip(cases, replies, culprits):
                short = line if len(line) < 80 else line[:80] + ".."
                self.same(f"the error of {short}", reply, error)
                self.same(f"the culprit of {short}", said_of_it, culprit)
            lines = "".join(f'["query","{root}",{query}]\n' for query, _ in rows["warnings"]).encode()
            ended = scene.call(["ask", "-"], lines)
            self.same("warnings are no errors", ended.status, 0)
            found = [line[len("wq: ") :] for line in ended.errors.decode().splitlines()]
            for (query, warning), said_of_it in zip(rows["warnings"], found):
                self.same(f"the warning of {query}", said_of_it, warning)

    def test_ask(self) -> None:
        with Scene(self.room) as scene:
            version = b'{"version":"wq-1"}\n'
            self.same("ask", scene.wq("ask", '["version"]'), built.Ended(version, b"", 0))
            self.same("two lines", scene.wq("ask", '["version"]', '["version"]\n["version"]').output, version * 3)
            self.same(
                "standard input",
                scene.call(["ask", "-"], b'["version"]\n\n["version"]'),
                built.Ended(version * 2, b"", 0),
            )
            watch = f'["watch","{scene.tree}"]'
            reply = f'{{"version":"wq-1","watch":"{scene.tree}","watcher":"poll"}}\n'.encode()
            self.same("ask watch", scene.wq("ask", watch).output, reply)
            subscribe = f'["subscribe","{scene.tree}","s",{{"fields":["name"],"expression":["suffix","h"]}}]'
            lists = [json.loads(line) for line in scene.wq("ask", subscribe).output.splitlines()]
            self.same("a subscription", [value.get("files") for value in lists], [None, ["src/deep/c.h"]])
            failed = scene.wq("ask", '["version"]', "[", '["version"]')
            self.same("a status of several lines", (failed.status, failed.output.count(b"\n")), (3, 3))
            with scene.client() as client:
                text = "x" * 1_048_577
                ended = scene.call(["ask", "-"], text.encode() + b"\n")
                self.same("a long line", (ended.status, b"E1: line too long" in ended.output), (3, True))
                client.ask("version")
            self.check_many_clients(scene)
            wrong(self, scene, ["ask"], "ask takes lines, such as '[\"watch-list\"]', or - for those of standard input")
            ended = scene.wq("ask", '["shutdown-server"]', '["version"]')
            self.same(
                "the end of the server",
                (ended.status, ended.errors),
                (3, said("the server has ended before it answered; `wq log` shows what it said")),
            )

    def check_many_clients(self, scene: Scene) -> None:
        with ExitStack() as stack:
            for _ in range(32):
                stack.enter_context(scene.client()).ask("version")
            wrong(
                self,
                scene,
                ["roots"],
                "E17: too many sessions",
                "32 clients are connected; try again when one has gone",
                status=3,
            )

    def test_explain(self) -> None:
        """The meaning of an expression and its program, for which no server is needed."""
        with Scene(self.room, starts=False) as scene:
            term = (
                '["allof",["suffix",["c","h"]],["not",["dirname","t",["depth","ge",1]]],["size","gt",10],'
                '["since",5,"mtime"]]'
            )
            lines = scene.names("explain", term)
            self.same(
                "an expression in words",
                lines[:8],
                [
                    "A file matches if",
                    "  all of these are so:",
                    '    what follows the last dot of its name is "c" or "h", A to Z as a to z',
                    "    this is not so:",
                    '      it lies below the directory "t", and is at least 1 directories deep in it',
                    "    it exists, and its size is over 10 bytes",
                    "    it was modified after second 5",
                    "",
                ],
            )
            file = self.room / "program"
            tool = str(built.TOP / "clients" / "wqasm")
            subprocess.run([tool, "compile", term, "-o", str(file)], check=True, stdout=subprocess.DEVNULL)
            explained = (
                subprocess.run([tool, "explain", str(file)], stdout=subprocess.PIPE).stdout.decode().splitlines()
            )
            self.same("its program", lines[9:], explained)
            self.check_sentences(scene)

    def check_sentences(self, scene: Scene) -> None:
        """What single terms mean, and what is wrong with a term."""
        for words, sentence in tables(ROWS)["sentences"]:
            self.same(f"explain {words}", scene.names("explain", words)[1], f"  {sentence}")
        self.same(
            "explain -",
            scene.call(["explain", "-"], b'["type","f"]').output.splitlines()[1],
            b"  it is a regular file",
        )
        terms = [line.split()[0] for line in scene.names("explain", "--terms")]
        self.same("explain --terms", sorted(terms), sorted(names.TERMS))
        self.same("each command has a shape", sorted(vocabulary.COMMANDS), sorted(names.COMMANDS))
        self.same("no server was started", Path(scene.sockname).exists(), False)
        wrong(
            self,
            scene,
            ["explain", '["sufix"]'],
            "E24: unknown term",
            'at expression: "sufix" is no term; did you mean "suffix"?',
            status=3,
        )
        wrong(
            self,
            scene,
            ["explain", "exsts"],
            "E24: unknown term",
            'at expression: "exsts" is no term; did you mean "exists"?',
            status=3,
        )
        wrong(
            self,
            scene,
            ["explain"],
            'explain takes an expression, such as \'["suffix","c"]\', or - for that of standard input',
        )
        warned = scene.wq("explain", '["suffix",".c"]')
        note = said('at expression: ".c" can match nothing: a suffix has no dot: "c"')
        self.same("a warning of explain", (warned.status, warned.errors), (0, note))
