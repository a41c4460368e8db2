"""The line after an error of a query, a subscription or a trigger: its place, by what the server says of its parts."""

import json
import socket
import threading
from pathlib import Path
from typing import Callable, List, Tuple

import built
from case import Beside
from scene import Scene, said, wrong
from wqclient.names import FIELDS
from wqprogram.limits import MAX_LINE

LONG = "a" * 256
TOO_LONG = f'the pattern has 256 bytes, and at most 255 may be: "{LONG[:59]}..'
UNKNOWN = "E24: unknown term"
SUFIX = '"sufix" is no term; did you mean "suffix"?'
# A place inside some 60 terms, which is cut.
DEEPEST = "at expression" + "[1]" * 6 + "[1.." + "[1]" * 10
# A program that says yes of each file.
YES = "V1FQRgEAAAAAAAAAAAACAQEAACMAAAA="
Wrong = Tuple[str, str, str]


def cases() -> List[Wrong]:
    """Wrong requests, their errors, and the sentences on their places."""
    text = (Path(__file__).resolve().parent / "places.cases").read_text(encoding="utf-8")
    text = text.replace("@FIELDS", ", ".join(FIELDS))
    parts = [part.strip("\n").split("\n") for part in text.split("\n\n")[1:]]
    short = [(request, error, sentence) for request, error, sentence in parts]
    return [*short, *((f'["query","@",{{{keys}}}]', error, sentence) for keys, error, sentence in LONG_ONES)]


LONG_ONES: List[Wrong] = [
    (f'"glob":["*.c","{LONG}"]', "E28: pattern too long", f"at glob[1]: {TOO_LONG}"),
    (f'"expression":["anyof",["match","{LONG}"]]', "E28: pattern too long", f"at expression[1]: {TOO_LONG}"),
    (
        '"expression":' + '["not",' * 64 + '"exists"' + "]" * 64,
        "E26: expression too deep",
        f"{DEEPEST}: 64 terms may be inside one another, and this one is the 65th",
    ),
    ('"expression":' + '["not",' * 63 + '["sufix"]' + "]" * 63, UNKNOWN, f"{DEEPEST}: {SUFIX}"),
    (
        '"expression":["allof"' + ',["anyof","true"]' * 20_000 + ',["type","f"],["sufix"],["sufix"]]',
        UNKNOWN,
        f"at expression[20002]: {SUFIX}",
    ),
    (
        '"expression":["allof"' + ',"true"' * 21_846 + "]",
        "E30: program too large",
        "the program of an expression has at most 65,536 instructions, and a list of it as many texts; name many files "
        "by "
        'one list: ["name",[..]]',
    ),
]


class Relay:
    """A server that hands on what one client asks of another one, keeps the replies, and ends if it does not go on."""

    def __init__(self, scene: Scene, goes_on: Callable[[int], bool]) -> None:
        self.scene = scene
        self.goes_on = goes_on
        self.replies: List[bytes] = []
        self.sockname = str(scene.room / "relay")
        self.listener = socket.socket(socket.AF_UNIX, socket.SOCK_STREAM)
        self.listener.bind(self.sockname)
        self.listener.listen(1)
        self.thread = threading.Thread(target=self.serve)
        self.thread.start()

    def serve(self) -> None:
        stream, _ = self.listener.accept()
        with stream, stream.makefile("rb") as lines, self.scene.client() as client:
            for line in lines:
                client.send_bytes(line)
                self.replies.append(client.line())
                stream.sendall(self.replies[-1] + b"\n")
                if not self.goes_on(len(self.replies)):
                    return

    def close(self) -> None:
        self.thread.join()
        self.listener.close()
        Path(self.sockname).unlink()


def always(count: int) -> bool:
    return True


def relayed(scene: Scene, text: str, goes_on: Callable[[int], bool] = always) -> Tuple[built.Ended, List[bytes]]:
    """How `wq ask` of lines ends at a relay, and all replies that it got."""
    relay = Relay(scene, goes_on)
    try:
        return scene.call(["ask", "-"], text.encode(), WQD_SOCK=relay.sockname), relay.replies
    finally:
        relay.close()


class Placing(Beside):
    def test_places(self) -> None:
        """Each wrong line, in one call. The questions about them are refused too, so they change nothing."""
        with Scene(self.room) as scene, scene.client() as client:
            root = str(scene.tree)
            scene.wq("watch")
            client.ask("program-add", "kept", YES)
            lines = cases()
            ended, answers = relayed(scene, "".join(line.replace("@", root) + "\n" for line, _, _ in lines))
            replies = [json.loads(line) for line in ended.output.splitlines()]
            sentences = [line[len("wq: ") :] for line in ended.errors.decode().splitlines()]
            self.same("a reply and a sentence for each line", (len(replies), len(sentences)), (len(lines), len(lines)))
            for (line, error, expected), reply, sentence in zip(lines, replies, sentences):
                short = line if len(line) < 80 else line[:80] + ".."
                self.same(f"the error of {short}", reply, {"error": error, "version": "wq-1"})
                self.same(f"the place in {short}", sentence, expected)
            asked = [line for line in answers if not line.startswith((b'{"error":', b'{"programs":'))]
            self.same("all questions are refused", asked, [])
            self.same("no trigger is left", client.ask("trigger-list", root)["triggers"], [])

    def test_places_of_commands(self) -> None:
        """Commands whose words make a wrong expression."""
        with Scene(self.room) as scene:
            sentence = f"at expression[1]: {TOO_LONG}"
            for words in (["find"], ["since"], ["follow"], ["run", "--", "true"], ["trigger", "t", "--", "true"]):
                place = words.index("--") if "--" in words else len(words)
                called = [*words[:place], f"{LONG[1:]}*", *words[place:]]
                wrong(self, scene, called, "E28: pattern too long", sentence, status=3)
            term = '["allof",["type","f"],["sufix","c"]]'
            called = ["find", "src", "*.c", "--expression", term]
            wrong(self, scene, called, UNKNOWN, f"at expression[2]: {SUFIX}", status=3)
            wrong(
                self,
                scene,
                ["find", "--expression", '["type","f"'],
                "E2: not JSON",
                "--expression, column 12: Expecting ',' delimiter",
                status=3,
            )

    def test_no_places(self) -> None:
        """A server that ends, or lets the root go, before it has said where the fault is: the error has no place."""
        with Scene(self.room) as scene, scene.client() as client:
            root = str(scene.tree)
            client.ask("watch", root)
            line = f'["query","{root}",{{"fields":["name"],"suffix":["c","h",7]}}]'
            reply = b'{"error":"E22: bad generator","version":"wq-1"}\n'
            whole, answers = relayed(scene, line)
            lines = len(answers)
            sentence = 'at suffix[2]: "suffix" takes a text or a list of texts, such as ["c","h"], and this is 7'
            self.same("a place through a relay", whole, built.Ended(reply, said(sentence), 3))
            self.check("some questions", lines > 3, [str(lines)])
            for last in range(1, lines):
                found, _ = relayed(scene, line, lambda count: count < last)
                self.same(f"a server that ends after {last} of {lines} lines", found, built.Ended(reply, b"", 3))
            for last in range(1, lines):
                client.ask("watch", root)
                found, _ = relayed(scene, line, lambda count: count != last or bool(client.ask("watch-del", root)))
                self.same(f"a root that goes after {last} of {lines} lines", found, built.Ended(reply, b"", 3))
            client.ask("watch", root)
            self.check_longest(scene, root)

    def check_longest(self, scene: Scene, root: str) -> None:
        """A question may not be longer than a line, since the session would end."""
        start, end = f'["query","{root}",{{"suffix":["c"', ",7]}]"
        texts = ',"true"' * ((MAX_LINE - len(start) - len(end)) // 7)
        found = scene.call(["ask", "-"], f'{start}{texts}{end}\n["version"]\n'.encode())
        replies = b'{"error":"E22: bad generator","version":"wq-1"}\n{"version":"wq-1"}\n'
        self.same("the longest line", found, built.Ended(replies, b"", 3))

    def test_few_questions(self) -> None:
        """A wrong entry among many is found with few questions, which neither scan the root nor list its files; a wrong
        term with none."""
        with Scene(self.room, starts=False) as scene:
            scene.wq("start", "--interval", "3600000")
            with scene.client() as client:
                root = str(scene.tree)
                client.ask("watch", root)
                scene.write("new.c")
                terms = ',["type","f"]' * 9_000
                line = f'["query","{root}",{{"sync_timeout":0,"expression":["anyof"{terms},["sufix"]{terms}]}}]'
                ended, answers = relayed(scene, line)
                sentence = said(f"at expression[9001]: {SUFIX}")
                self.same("one wrong term of 18,001", (ended.errors, ended.status), (sentence, 3))
                self.same("no question", len(answers), 1)
                texts = ',"c"' * 9_000
                line = f'["query","{root}",{{"sync_timeout":0,"suffix":["c"{texts},7{texts}]}}]'
                ended, answers = relayed(scene, line)
                self.check("one wrong text of 18,002", ended.errors.startswith(b"wq: at suffix[9001]: "), [str(ended)])
                self.check("it takes few questions", len(answers) <= 20, [str(len(answers))])
                files = client.ask("query", root, {"sync_timeout": 0, "fields": ["name"], "suffix": "c"})["files"]
                self.same("the root was not scanned", "new.c" in files, False)
