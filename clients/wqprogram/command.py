"""The command wqasm: its words, what each of them does, and how it ends."""

import argparse
import base64
import contextlib
import json
import os
import sys
from typing import Callable, Dict, List, NoReturn, Optional

from wqclient.harmless import harmless, harmless_json
from wqclient.kept import BUDGETS, keep, run_of
from wqclient.lines import Ended, Lines
from wqclient.sockets import default_sockname

from . import json_values
from .assembler import assembled
from .clocks import Instance, instance_of
from .compiler import TooLarge, compiled, names_tick
from .disassembler import disassembled
from .errors import LINE_TOO_LONG, NOT_JSON, PROGRAM_TOO_LARGE, Refused
from .explainer import explained
from .faults import fault_sentence, file_fault_sentence
from .limits import MAX_LINE, MAX_NUMBER
from .program_file import LATEST, VERSIONS, FileFault, Program, Version, read, version_of, written
from .records import Clocks, RowFault, record_of_row
from .source import TextFault, one_of
from .terms import read_term
from .tracer import traced
from .verifier import LONGEST_NAME, budget_of, looked_at, refusal_of, said, said_of

USAGE = """\
usage: wqasm assemble TEXT [-o FILE] [--version N]
       wqasm disassemble FILE
       wqasm explain FILE
       wqasm run FILE --record 'f 12 1000 src/a.c' [--deleted] [--cclock N]
                 [--csec N] [--oclock N] [--osec N]
       wqasm compile EXPRESSION [-o FILE] [--clock ID]
       wqasm add [SOCKET] NAME FILE
       wqasm --help

  assemble      makes a program file of a text, and says what `wqd check` says of it
  disassemble   writes the text of a program file
  explain       shows what each instruction meets and costs, and where a program that may not run is wrong
  run           shows the run of a program on one file, step by step
  compile       makes the program file of a JSON expression
  add           hands a program file to a server, under a name, and shows the answer. Without SOCKET it is the server at
                WQD_SOCK, else at wqd.sock in XDG_RUNTIME_DIR, else in your own directory below TMPDIR or /tmp

  -o FILE       the file to write; else standard output takes it. - in place of a text, a file or an expression is
                standard input
  --version N   the version of the program file: 1 or 2
  --record ROW  the file: the letter of its kind, its size, its modification time in milliseconds, its name
  --deleted     the file is gone
  --cclock N, --csec N   the tick and the second at which it came; 1 if left out
  --oclock N, --osec N   those of its last change; if left out, those at which it came, or the next tick with --deleted
  --clock ID    a clock id of the server and the root that the expression is for

The status is 0, or 1 if something cannot be read or written, 2 for a wrong command line, 3 for what is refused, 130
if you stop it.
"""
LONGEST_FILE = 16_777_216
# A pattern of two bytes may be written with all its flags, in 37 letters. So the text of each file may be so long.
LONGEST_TEXT = 20 * LONGEST_FILE
# Of a number up to 2^62.
MOST_DIGITS = 19
CANNOT, WRONG_LINE, REFUSED = 1, 2, 3
# The status that a shell gives a command which the user stopped.
INTERRUPTED = 130
# So many seconds a server may take to answer.
PATIENCE = 60


def main(words: List[str]) -> int:
    if sys.stdout is None:
        return fail(CANNOT, "output: there is no standard output")
    asks_for_help = words in (["--help"], ["-h"]) or len(words) == 2 and words[1] in ("--help", "-h")
    try:
        if asks_for_help:
            show(USAGE)
            return 0
        arguments = parser().parse_args(words)
        return COMMANDS[arguments.command](arguments)
    except FileFault as fault:
        return fail(REFUSED, f"{arguments.file}: refused {file_fault_sentence(fault)}")
    except KeyboardInterrupt:
        return INTERRUPTED
    except BrokenPipeError:
        write_no_more()
        return CANNOT
    except OSError as error:
        write_no_more()
        return fail(CANNOT, f"{error.filename or 'output'}: {error.strerror}")


def write_no_more() -> None:
    """The output cannot be written, as when its reader has gone. Nothing is to be written at the end either."""
    os.dup2(os.open(os.devnull, os.O_WRONLY), sys.stdout.fileno())


class Parser(argparse.ArgumentParser):
    """Refuses a wrong command line in one line."""

    def error(self, message: str) -> NoReturn:
        sys.exit(fail(WRONG_LINE, f"{message}; wqasm --help says which words there are"))


def parser() -> Parser:
    top = Parser(prog="wqasm", add_help=False)
    commands = top.add_subparsers(dest="command", required=True, metavar="command", parser_class=Parser)
    added = {name: commands.add_parser(name, add_help=False, allow_abbrev=False) for name in COMMANDS}
    added["assemble"].add_argument("file", metavar="TEXT")
    added["assemble"].add_argument("--version", metavar="N")
    for name in ("disassemble", "explain", "run"):
        added[name].add_argument("file", metavar="FILE")
    added["compile"].add_argument("expression", metavar="EXPRESSION")
    added["compile"].add_argument("--clock", metavar="ID")
    for name in ("assemble", "compile"):
        added[name].add_argument("-o", dest="output", metavar="FILE")
    added["run"].add_argument("--record", metavar="ROW", required=True)
    added["run"].add_argument("--deleted", action="store_true")
    for name in ("--cclock", "--csec", "--oclock", "--osec"):
        added["run"].add_argument(name, metavar="N")
    added["add"].add_argument("socket", metavar="SOCKET", nargs="?")
    for name in ("name", "file"):
        added["add"].add_argument(name, metavar=name.upper())
    return top


def fail(status: int, message: str) -> int:
    complain(f"wqasm: {message}")
    return status


def complain(line: str) -> None:
    print(harmless(line), file=sys.stderr)


# The commands.


def assemble(arguments: argparse.Namespace) -> int:
    version: Optional[Version] = None
    if arguments.version is not None:
        version = {str(number): known for number, known in VERSIONS.items()}.get(arguments.version)
        if version is None:
            there_is = one_of(map(str, VERSIONS))
            return fail(WRONG_LINE, f"unknown version: found {json.dumps(arguments.version)}, expected {there_is}")
    try:
        found = assembled(bytes_of(arguments.file, LONGEST_TEXT), version)
    except TextFault as fault:
        complain(f"{arguments.file}:{fault}")
        return REFUSED
    write(arguments.output, written(found.program, found.version))
    looked = looked_at(found.program)
    if looked.fault is not None:
        word = found.words[looked.place] if found.words else None
        where = f"{arguments.file}:{word.line}:{word.column}" if word else arguments.file
        complain(f"{where}: {fault_sentence(found.program, looked)}")
    return 0


def write(output: Optional[str], file: bytes) -> None:
    """Writes a program file, and says of it what `wqd check` says, if it does not go to standard output itself."""
    if output is None:
        sys.stdout.buffer.write(file)
        sys.stdout.buffer.flush()
        return
    with open(output, "wb") as stream:
        stream.write(file)
    show(said(file) + "\n")


def show(text: str) -> None:
    """Writes text to standard output, in UTF-8 whatever the locale is."""
    sys.stdout.buffer.write(text.encode("utf-8"))
    sys.stdout.buffer.flush()


def bytes_of(path: str, longest: int) -> bytes:
    """The bytes of a file, of which there may be so many."""
    with open(0 if path == "-" else path, "rb") as stream:
        data = stream.read(longest + 1)
    if len(data) > longest:
        raise OSError(0, f"it has over {longest:,} bytes", path)
    return data


def program_file(arguments: argparse.Namespace) -> bytes:
    return bytes_of(arguments.file, LONGEST_FILE)


def disassemble(arguments: argparse.Namespace) -> int:
    data = program_file(arguments)
    show(disassembled(read(data), version_of(data)))
    return 0


def explain(arguments: argparse.Namespace) -> int:
    """The last line is always that of `wqd check`."""
    data = program_file(arguments)
    try:
        program = read(data)
    except FileFault as fault:
        show(f"{file_fault_sentence(fault)}\n{said(data)}\n")
        return REFUSED
    show(explained(program))
    return 0 if refusal_of(program) is None else REFUSED


def run(arguments: argparse.Namespace) -> int:
    program = read(program_file(arguments))
    looked = looked_at(program)
    if looked.fault is not None:
        return fail(REFUSED, f"{arguments.file}: {said_of(program)}: {fault_sentence(program, looked)}")
    try:
        record = record_of_row(os.fsencode(arguments.record), clocks_of(arguments), not arguments.deleted)
    except RowFault as fault:
        return fail(WRONG_LINE, str(fault))
    show(traced(program, record))
    return 0


def clocks_of(arguments: argparse.Namespace) -> Clocks:
    """The clocks of the record. A file that is gone changed after it came."""
    ctick, csec = clock_of(arguments, "cclock", 1), clock_of(arguments, "csec", 1)
    otick = clock_of(arguments, "oclock", ctick + arguments.deleted)
    osec = clock_of(arguments, "osec", csec)
    if otick < ctick + arguments.deleted or osec < csec:
        raise RowFault("the last change is not before the file came, and that of a file that is gone is after it")
    return Clocks(ctick, csec, otick, osec)


def clock_of(arguments: argparse.Namespace, name: str, default: int) -> int:
    word = getattr(arguments, name)
    if word is None:
        return default
    if not (word.isascii() and word.isdigit() and len(word) <= MOST_DIGITS and int(word) <= MAX_NUMBER):
        raise RowFault(f"--{name} takes a number from 0 to 2^62")
    return int(word)


def compile_expression(arguments: argparse.Namespace) -> int:
    try:
        instance = None if arguments.clock is None else instance_of(arguments.clock)
        program = program_of(expression_of(arguments.expression), instance, may_name_ticks=instance is not None)
    except Refused as refused:
        return fail(REFUSED, refused.error)
    except ValueError as error:
        return fail(WRONG_LINE, str(error))
    write(arguments.output, written(program, LATEST))
    return 0


def expression_of(word: str) -> bytes:
    """The expression: the word itself, or what standard input has, since a word of a command has an upper length."""
    return bytes_of(word, LONGEST_FILE) if word == "-" else os.fsencode(word)


def program_of(text: bytes, instance: Optional[Instance] = None, may_name_ticks: bool = True) -> Program:
    """The program that a server makes of an expression in JSON for a root, or the error that it answers. Without a root
    each clock id in it is one of another root."""
    # The shortest line of a client that has it.
    line = b'["query","/",{"expression":' + text.strip() + b"}]"
    if len(line) > MAX_LINE:
        raise Refused(LINE_TOO_LONG)
    try:
        value = json_values.read(text)
        json_values.read(line)
    except json_values.NotJson:
        raise Refused(NOT_JSON) from None
    read_term(value, instance)
    if names_tick(value) and not may_name_ticks:
        raise ValueError(
            "the expression has a clock id; say with --clock a clock id of the server and root that it is for"
        )
    try:
        return compiled(value, instance)
    except TooLarge:
        raise Refused(PROGRAM_TOO_LARGE) from None


def add(arguments: argparse.Namespace) -> int:
    """Asks a server to keep a program file. What is wrong with it, the server says."""
    if arguments.socket == "":
        return fail(WRONG_LINE, "the socket has no name; does WQD_SOCK name it?")
    sockname = default_sockname() if arguments.socket is None else arguments.socket
    data = bytes_of(arguments.file, LONGEST_FILE)
    line = json.dumps(["program-add", arguments.name, base64.b64encode(data).decode()], ensure_ascii=False)
    try:
        with Lines(sockname, PATIENCE) as lines:
            reply = answer(lines, line.encode("utf-8", "surrogateescape") + b"\n")
            run = run_of(lines.peer().process)
    except OSError as error:
        return fail(CANNOT, f"{sockname}: {error.strerror or error}")
    if not reply.endswith(b"\n"):
        return fail(CANNOT, f"{sockname}: the server did not answer")
    show(harmless_json(reply.decode("utf-8", "replace")))
    if reply.startswith(b'{"error"'):
        return REFUSED
    # `wq status` tells it, if it could be kept.
    with contextlib.suppress(OSError):
        keep({"budget": budget_of(read(data), LONGEST_NAME)}, BUDGETS, os.path.abspath(sockname), run, arguments.name)
    return 0


def answer(lines: Lines, line: bytes) -> bytes:
    """The line that a server answers to a line; a part of it, if the server ends before."""
    try:
        # A server that ends the session at a line that is too long has answered it before.
        with contextlib.suppress(BrokenPipeError, ConnectionResetError):
            lines.send_bytes(line)
        return lines.line() + b"\n"
    except Ended as ended:
        return ended.rest


COMMANDS: Dict[str, Callable[[argparse.Namespace], int]] = {
    "assemble": assemble,
    "disassemble": disassemble,
    "explain": explain,
    "run": run,
    "compile": compile_expression,
    "add": add,
}
