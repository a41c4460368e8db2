"""The words of the command `watchman`: what they ask of the bridge, and how its replies are printed."""

import getopt
import json
import os
import sys
from typing import Dict, List, NamedTuple

from bridge.given import Given, fault_of, read_command, with_absolute_root
from bridge.sockets import server_behind, sockname_by_default
from bridge.version import VERSION
from wqclient.harmless import harmless_json, harmless_lines
from wqclient.lines import Ended, Lines
from wqclient.sockets import is_listened_on

USAGE = """usage: watchman [OPTION..] COMMAND [ARGUMENT..]
       watchman [OPTION..] -j < COMMAND

  -h, --help              prints this
  -v, --version           prints the version
  -U, --sockname=PATH     where the bridge listens
  -j, --json-command      reads one command from standard input, as JSON or BSER
  -p, --persistent        stays, and prints what comes by itself
      --no-pretty         prints each reply on one line
      --output-encoding=json|bser|bser-v2
      --no-spawn          starts nothing
      --no-local          with --no-spawn: answers nothing without a bridge

Watchman's options of its own server are taken and change nothing: --logfile, --pidfile, --statefile, --no-save-state,
--log-level and --server-encoding. Two dashes end the options, as in: watchman -- find ROOT '*.c'
"""
# The options, as getopt takes them: those with a value end in a colon or an equals sign.
SHORT = "hvU:o:pnjf"
LONG = [
    "help",
    "version",
    "sockname=",
    "json-command",
    "persistent",
    "no-pretty",
    "output-encoding=",
    "no-spawn",
    "no-local",
    "logfile=",
    "pidfile=",
    "statefile=",
    "no-save-state",
    "log-level=",
    "server-encoding=",
    "foreground",
    "inetd",
]
LETTERS = {
    "-h": "--help",
    "-v": "--version",
    "-U": "--sockname",
    "-o": "--logfile",
    "-p": "--persistent",
    "-n": "--no-save-state",
    "-j": "--json-command",
    "-f": "--foreground",
}
NOT_BUILT = ("--foreground", "--inetd")
ENCODINGS = {"json": 0, "bser": 1, "bser-v1": 1, "bser-v2": 2}
WRONG_USAGE = 64


class Unwritten(Exception):
    """A reply could not be printed, as when whoever read it has gone."""


class Words(NamedTuple):
    """The options by their long names, and the words of the command."""

    options: Dict[str, str]
    command: List[str]


def main(arguments: List[str], home: str) -> None:
    if sys.stdout is None:
        sys.exit("watchman: there is no standard output")
    try:
        words = words_of(arguments)
        run(words, home)
    except KeyboardInterrupt:
        sys.exit(130)
    except SystemExit as end:
        sys.exit(harmless_lines(end.code) if isinstance(end.code, str) else end.code)
    except Unwritten as fault:
        if not isinstance(fault.__cause__, BrokenPipeError):
            print(f"watchman: standard output: {fault}", file=sys.stderr, flush=True)
        os._exit(1)  # nothing is to be written at the end either


def words_of(arguments: List[str]) -> Words:
    """The options may be anywhere before two dashes."""
    try:
        found, command = getopt.gnu_getopt(arguments, SHORT, LONG)
    except getopt.GetoptError as error:
        sys.exit(f"Unknown or invalid option! {error}\n{USAGE}")
    options = {LETTERS.get(name, name): value for name, value in found}
    for name in NOT_BUILT:
        if name in options:
            sys.exit(f"watchman: {name} is not supported; start wqd serve and clients/bridge by themselves")
    for name in ("--server-encoding", "--output-encoding"):
        check_encoding(options.get(name, "json"))
    return Words(options, command)


def check_encoding(name: str) -> None:
    if name not in ENCODINGS:
        print(harmless_lines(f"watchman: Invalid encoding '{name}', use one of json, bser or bser-v2"), file=sys.stderr)
        sys.exit(WRONG_USAGE)


def run(words: Words, home: str) -> None:
    options = words.options
    if "--help" in options:
        print(USAGE, end="")
        return
    if "--version" in options:
        print(VERSION)
        return
    given = command_of(words)
    version = ENCODINGS[options["--output-encoding"]] if "--output-encoding" in options else given.version
    printer = Printer(version, "--no-pretty" not in options)
    fault = fault_of(given.command)
    if fault is not None:
        printer.print({"version": VERSION, "error": fault, "cli_validated": True})
        sys.exit(1)
    assert isinstance(given.command, list)
    command = with_absolute_root(given.command)
    sockname = os.path.abspath(options["--sockname"]) if "--sockname" in options else sockname_by_default()
    if "--no-spawn" not in options:
        start(sockname, home)
    elif not is_listened_on(sockname):
        without_server(command, sockname, printer, "--no-local" in options)
        return
    try:
        ask(command, sockname, printer, "--persistent" in options)
    except OSError as error:
        fail(sockname, error.strerror or str(error))


def start(sockname: str, home: str) -> None:
    """Starts what does not run. Scripts call this command again and again, so it reads what it seldom needs only
    then."""
    if not is_listened_on(sockname) or not is_listened_on(server_behind(sockname)):
        from bridge.starting import Start

        Start(sockname, home).start()


def command_of(words: Words) -> Given:
    if "--json-command" in words.options:
        return read_command()
    if not words.command:
        sys.exit(f"watchman: there is no command\n{USAGE}")
    return Given(list(words.command))


def ask(command: List[object], sockname: str, printer: "Printer", stays: bool) -> None:
    """Prints the reply to a command; and if it stays, what comes later too."""
    try:
        with Lines(sockname) as lines:
            lines.send_bytes(json.dumps(command).encode() + b"\n")
            while True:
                reply = json.loads(lines.line())
                printer.print(reply)
                if not stays and "unilateral" not in reply:
                    return
    except Ended:
        sys.exit("watchman: the bridge has ended" if stays else "watchman: the command was not answered")


def without_server(command: List[object], sockname: str, printer: "Printer", is_remote: bool) -> None:
    """Answers what depends on no server, if none may be started."""
    if is_remote:
        fail(sockname, "nobody listens there")
    from bridge.alone import answer_alone, refusal_of

    reply = answer_alone(command, sockname)
    if reply is None:
        printer.print({"version": VERSION, "error": refusal_of(command)})
        sys.exit(1)
    printer.print({"version": VERSION, **reply})


def fail(sockname: str, reason: str) -> None:
    sys.exit(f"unable to talk to your watchman on {sockname}! ({reason})")


class Printer:
    """Prints replies in a version of BSER, or in JSON, which is 0."""

    def __init__(self, version: int, is_pretty: bool) -> None:
        self.version = version
        self.indent = 4 if is_pretty else None

    def print(self, reply: Dict[str, object]) -> None:
        data = self.in_bser(reply) if self.version else self.in_json(reply)
        try:
            sys.stdout.buffer.write(data)
            sys.stdout.buffer.flush()
        except OSError as error:
            raise Unwritten(error.strerror) from error

    def in_json(self, reply: Dict[str, object]) -> bytes:
        separators = (",", ": ") if self.indent else (",", ":")
        text = json.dumps(reply, indent=self.indent, separators=separators, ensure_ascii=False)
        if sys.stdout.isatty():
            text = harmless_json(text)
        return text.encode("utf-8", "surrogateescape") + b"\n"

    def in_bser(self, reply: Dict[str, object]) -> bytes:
        from bridge.encodings import MISSING, Encoding, Writer, find_codec

        codec = find_codec()
        if codec is None:
            sys.exit(f"watchman: {MISSING}")
        return Writer(codec).bytes_of(reply, Encoding(self.version, 0))
