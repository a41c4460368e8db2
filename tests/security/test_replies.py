"""Servers of this user that send a line without end, or nothing at all."""

import os
import sys
from pathlib import Path
from typing import BinaryIO, List

import built
from case import Beside
from client import PATIENCE
from scene import Scene
from stand_ins import Answer, stand_in

# The limits of the clients are for lists of 1,000,000 files. A run with lower ones takes less time and memory.
SMALL = 1_048_576
WQ = (
    f"import sys; sys.path.insert(0, {str(built.TOP / 'clients')!r}); import wqclient.lines as lines; "
    f"lines.LONGEST = {SMALL}; from wq.command import main; sys.exit(main(sys.argv[1:], {str(built.TOP)!r}))"
)
WQASM = (
    f"import sys; sys.path.insert(0, {str(built.TOP / 'clients')!r}); import wqclient.lines as lines; "
    f"lines.LONGEST = {SMALL}; from wqprogram.command import main; sys.exit(main(sys.argv[1:]))"
)
PIECE = b"[" * 65_536


class Endless(Answer):
    """A line that never ends."""

    sent = 0

    def answer(self, lines: BinaryIO, replies: BinaryIO) -> None:
        lines.readline()
        while True:
            replies.write(PIECE)
            Endless.sent += len(PIECE)


class Silent(Answer):
    def answer(self, lines: BinaryIO, replies: BinaryIO) -> None:
        lines.read()


class Replies(Beside):
    def test_replies_without_end(self) -> None:
        with Scene(self.room, starts=False) as scene:
            stand_in(scene.sockname, Endless)
            program = str(built.TOP / "examples" / "large.program")
            told = f"{scene.sockname}: the server sends over {SMALL:,} bytes in a line\n"
            for text, words, begin in ((WQ, ["roots"], "wq: "), (WQASM, ["add", "x", program], "wqasm: ")):
                ended = said_by([sys.executable, "-I", "-c", text, *words], scene)
                self.same(
                    f"{begin}a line without end",
                    (ended.status, ended.errors.decode()),
                    (3 if text is WQ else 1, begin + told),
                )
            hook = hook_with(self.room, "LONGEST = 268_435_456", f"LONGEST = {SMALL}")
            ended = said_by([sys.executable, "-I", "-S", hook, "2", ""], scene)
            reason = f"wqd: git looks at all files, since the server sends over {SMALL:,} bytes in a line\n"
            self.same("git's hook", (ended.status, ended.output, ended.errors.decode()), (1, b"", reason))
            self.same("not much more was read", Endless.sent < 100 * SMALL, True)
            os.unlink(scene.sockname)

    def test_hanging(self) -> None:
        """git's hook waits for a while, and then git looks itself."""
        with Scene(self.room, starts=False) as scene:
            stand_in(scene.sockname, Silent)
            hook = hook_with(self.room, "PATIENCE = 10\n", "PATIENCE = 0.5\n")
            ended = said_by([sys.executable, "-I", "-S", hook, "2", ""], scene)
            reason = f"wqd: git looks at all files, since {scene.sockname} does not answer: timed out\n"
            self.same("git's hook", (ended.status, ended.output, ended.errors.decode()), (1, b"", reason))
            os.unlink(scene.sockname)


def hook_with(room: Path, old: str, new: str) -> str:
    """The hook with another limit."""
    text = (built.TOP / "contrib" / "git-fsmonitor-hook").read_text()
    assert text.count(old) == 1
    path = room / "hook"
    path.write_text(text.replace(old, new))
    return str(path)


def said_by(words: List[str], scene: Scene) -> built.Ended:
    return built.call(words, cwd=scene.tree, env=scene.environment, timeout=PATIENCE)
