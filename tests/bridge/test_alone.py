"""What the command watchman says by itself: without a server, of wrong commands, and of BSER on its input."""

import json
from pathlib import Path
from typing import Dict, List, Tuple

from bridged import Bridge, NO_CODEC, VERSION, codec, run
from case import Case

VALIDATED: Dict[str, object] = {"cli_validated": True, "version": VERSION}
SHAPE = "invalid command (expected an array with some elements!)"
NAME = "invalid command: expected element 0 to be the command name"
# Commands on standard input that nobody is asked for, and why.
REFUSED: List[Tuple[object, str]] = [
    ({}, SHAPE),
    ([], SHAPE),
    ([7], NAME),
    ([None], NAME),
    (["clock"], "wrong number of arguments"),
    (["clock", 7], "second argument must be a string"),
]


def said(room: Path, *words: str, given: bytes = b"") -> Tuple[int, Dict[str, object]]:
    ended = run(room, "--no-spawn", *words, given=given)
    return ended.returncode, json.loads(ended.stdout)


class Alone(Case):
    def test_without_server(self) -> None:
        """Metro looks for Watchman by the list of capabilities, and starts nothing."""
        status, reply = said(self.room, "list-capabilities", "--output-encoding=json", "--no-pretty")
        capabilities = reply.get("capabilities", [])
        assert isinstance(capabilities, list)
        self.same("the list of capabilities", (status, "cmd-watch-project" in capabilities), (0, True))
        wishes = json.dumps(["version", {"optional": ["relative_root"], "required": ["none"]}]).encode()
        self.same(
            "capabilities that are asked for",
            said(self.room, "-j", given=wishes),
            (
                0,
                {
                    "version": VERSION,
                    "capabilities": {"relative_root": True, "none": False},
                    "error": "client required capability `none` is not supported by this server",
                },
            ),
        )
        self.same("the version", said(self.room, "version"), (0, {"version": VERSION}))
        for name, words in (
            ("watch-list", "command watch-list not available in this mode"),
            ("frob", "unknown command frob"),
        ):
            self.same(f"{name} without a server", said(self.room, name), (1, {"version": VERSION, "error": words}))
        ended = run(self.room, "--no-spawn", "--no-local", "list-capabilities")
        self.same("nothing without a server", (ended.returncode, ended.stdout), (1, b""))

    def test_wrong_commands(self) -> None:
        for command, words in REFUSED:
            found = said(self.room, "-j", given=json.dumps(command).encode())
            self.same(f"{command}", found, (1, dict(VALIDATED, error=words)))
        self.same(
            "a clock of no root", said(self.room, "clock"), (1, dict(VALIDATED, error="wrong number of arguments"))
        )
        for data in (b"7", b"null", b"[", b"", b"\x00\x03"):
            ended = run(self.room, "--no-spawn", "-j", given=data)
            is_said = ended.stderr.startswith(b"failed to parse command from stdin: ")
            self.same(f"{data!r}", (ended.returncode, ended.stdout, is_said), (1, b"", True))
        for option in ("--server-encoding", "--output-encoding"):
            ended = run(self.room, "--no-spawn", f"{option}=frob", "version")
            invalid = b"watchman: Invalid encoding 'frob', use one of json, bser or bser-v2\n"
            self.same(f"{option}=frob", (ended.returncode, ended.stdout, ended.stderr), (64, b"", invalid))
        self.same("an encoding that is one", said(self.room, "--server-encoding=bser-v2", "version")[0], 0)

    def test_options(self) -> None:
        """They may be anywhere before two dashes, joined with their values, and long ones shortened."""
        for words in (
            ["version", "--no-p"],
            ["--output-enc=json", "version"],
            ["-U", "none", "version"],
            ["-pUnone", "version"],
            ["version", "--sockname=none", "--log-level", "2"],
            ["--", "version"],
        ):
            self.same(f"{words}", said(self.room, *words), (0, {"version": VERSION}))
        wrong: List[Tuple[List[str], str]] = [
            (["--frob"], "Unknown or invalid option! option --frob not recognized"),
            (["--sockname"], "Unknown or invalid option! option --sockname requires argument"),
            (["--help=3"], "Unknown or invalid option! option --help must not have an argument"),
            (["-x"], "Unknown or invalid option! option -x not recognized"),
            (["-f"], "watchman: --foreground is not supported; start wqd serve and clients/bridge by themselves"),
            ([], "watchman: there is no command"),
        ]
        for words, reason in wrong:
            ended = run(self.room, "--no-spawn", *words)
            self.same(f"{words}", (ended.returncode, ended.stderr.decode().splitlines()[0]), (1, reason))

    def test_bser_on_input(self) -> None:
        """A command in BSER is answered in it, unless an option says otherwise."""
        bser = codec()
        if bser is None:
            self.skipTest(NO_CODEC)
        with Bridge(self.room) as bridge:
            for version in (1, 2):
                given = bser.dumps(["get-sockname"], version=version, capabilities=0)
                reply = run(self.room, "-j", given=given, sockname=bridge.sockname).stdout
                found = (reply[:2], bser.loads(reply, value_encoding="utf-8"))
                expected = {"sockname": bridge.sockname, "version": VERSION}
                self.same(f"BSER {version} on the input", found, (bytes([0, version]), expected))
                reply = run(self.room, "-j", "--output-encoding=json", given=given, sockname=bridge.sockname).stdout
                self.same(f"BSER {version} answered in JSON", json.loads(reply), expected)
            for data in (given[:-1], given[:6] + b"\x08"):
                ended = run(self.room, "-j", given=data, sockname=bridge.sockname)
                is_said = ended.stderr.startswith(b"failed to parse command from stdin: ")
                self.same(f"{data!r}", (ended.returncode, ended.stdout, is_said), (1, b"", True))
