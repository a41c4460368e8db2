"""Watchman's own command, and the clients in Python: pywatchman, watchman-wait and watchman-make."""

import json
import time

from tried.packages import PYTHON
from tried.room import Outcome, Room, outcome, unreaped
from wqclient.lines import Lines

OWN = "/usr/bin/watchman"
# How long nothing may happen, so that it counts as not happening.
SILENCE = 1.5
ATTEMPTS = 20


def try_own_command(room: Room) -> Outcome:
    """Watchman's own command, told of the bridge's socket alone. Between the two it speaks BSER."""
    room.put("a.c")
    room.put("d/b.c")
    root = str(room.project)
    words = [OWN, f"--sockname={room.sockname()}", "--no-spawn", "--no-local", "--no-pretty"]

    def said(*command: str, text: str = "") -> dict:
        return json.loads(room.run([*words, *command], text).stdout)

    found = [
        said("watch", root)["watch"],
        said("watch-list")["roots"],
        sorted(said("-j", text=json.dumps(["query", root, {"suffix": "c", "fields": ["name"]}]))["files"]),
        [row["name"] for row in said("--", "find", root, "*.c")["files"]],
        [row["name"] for row in said("--", "since", root, "c:0:0", "d/*.c")["files"]],
        said("--server-encoding=json", "version")["version"],
        said("--server-encoding=bser-v2", "version")["version"],
        said("frob")["error"],
        said("watch-del", root)["watch-del"],
    ]
    expected = [root, [root], ["a.c", "d/b.c"], ["a.c"], ["d/b.c"], "4.9.0", "4.9.0", "unknown command frob", True]
    return outcome("watch, query, find, since; BSER 1, BSER 2 and JSON", found, expected)


def try_killed_server(room: Room) -> Outcome:
    """The command names no bridge of a dead server, also while that server is still in the system's table."""

    def answers() -> list:
        """The socket is asked as clients do: by the command, and then by itself."""
        words = json.loads(room.run(["watchman", "--output-encoding=json", "--no-pretty", "get-sockname"]).stdout)
        with Lines(words["sockname"]) as lines:
            lines.send_bytes(b'["watch-list"]\n')
            return json.loads(lines.line()).get("roots")

    with unreaped():
        found = [answers()]
        for kill in (room.kill_server, room.kill_bridge):
            kill()
            found.append(answers())
    return outcome(
        "get-sockname and a question after the server or the bridge was killed, though no first process reaps",
        found,
        [[], [], []],
    )


def try_pywatchman(room: Room) -> Outcome:
    (room.project / ".git").mkdir()
    room.put("sub/a.c")
    said = room.python("with_pywatchman.py", str(room.project))
    expected = [
        "{'relative_root': True}",
        "sub",
        "['a.c']",
        "is not watched",
        "['a.c']",
        "[('b.c', True, True)]",
        "[('a.c', False)]",
    ]
    found = said.stdout.splitlines() or said.stderr.splitlines()[-1:]
    return outcome(
        "capabilities, watch-project, query below it, an error, a subscription: a file comes and one goes",
        found,
        expected,
    )


def try_wait(room: Room) -> Outcome:
    room.put("sub/a.c")
    waiting = room.begin([PYTHON, "/usr/bin/watchman-wait", "sub", "--pattern", "*.c", "--max-events", "0"], "wait")
    time.sleep(SILENCE)
    is_silent = not waiting.lines()
    # It does not say when it has subscribed.
    for number in range(ATTEMPTS):
        room.put("sub/b.h", "x" * number)
        room.put("sub/a.c", "x" * number)
        if waiting.waits_for(lambda lines: "a.c" in lines, 2 * SILENCE):
            break
    room.put("sub/new.c")
    waiting.waits_for(lambda lines: "new.c" in lines)
    waiting.end()
    return outcome(
        "silent before a change; a change, a new file; nothing of what its pattern does not fit",
        [is_silent, sorted(set(waiting.lines()))],
        [True, ["a.c", "new.c"]],
    )


def try_make(room: Room) -> Outcome:
    room.put("sub/a.c")
    making = room.begin(
        [PYTHON, "-u", "/usr/bin/watchman-make", "--root", "sub", "--pattern", "**/*.c", "--run", "echo built"], "make"
    )

    def built(lines: list) -> int:
        return lines.count("built")

    making.waits_for(lambda lines: "# waiting for changes" in lines)
    time.sleep(SILENCE)
    at_first = built(making.lines())
    room.put("sub/deep/b.c")
    making.waits_for(built)
    room.put("sub/c.h")
    time.sleep(SILENCE)
    second = built(making.lines())
    (room.project / "sub" / "a.c").unlink()
    making.waits_for(lambda lines: built(lines) == 2)
    third = built(making.lines())
    making.end()
    return outcome(
        "runs after a new file and after a deleted one, and not before", [at_first, second, third], [0, 1, 2]
    )


MAKEFILE = "all: a.o b.o\n%.o: %.c\n\tcp $< $@ && echo built $@\n"


def try_makefile(room: Room) -> Outcome:
    """make builds what is out of date, after each change."""
    room.put("Makefile", MAKEFILE)
    room.put("a.c")
    room.put("b.c")
    words = ["--root", ".", "--pattern", "*.c", "Makefile", "--target", "all"]
    making = room.begin([PYTHON, "-u", "/usr/bin/watchman-make", *words], "make")

    def built(lines: list) -> list:
        return [line.split()[1] for line in lines if line.startswith("built ")]

    making.waits_for(lambda lines: "# waiting for changes" in lines)
    time.sleep(SILENCE)
    at_first = built(making.lines())
    room.put("a.c", "y\n")
    making.waits_for(lambda lines: built(lines) == ["a.o", "b.o"])
    time.sleep(SILENCE)
    room.put("b.c", "y\n")
    making.waits_for(lambda lines: len(built(lines)) == 3)
    time.sleep(SILENCE)
    room.put("c.c", "z\n")
    room.put("Makefile", MAKEFILE.replace("a.o b.o", "a.o b.o c.o"))
    making.waits_for(lambda lines: len(built(lines)) == 4)
    found = [at_first, built(making.lines()), (room.project / "b.o").read_text(), (room.project / "c.o").exists()]
    making.end()
    return outcome(
        "a real Makefile: all of it after a first change, one file after another, and a target that is new",
        found,
        [[], ["a.o", "b.o", "b.o", "c.o"], "y\n", True],
    )
