"""The options and other words of each command, which argparse reads, and the pages of help."""

import argparse
import re
import sys
from typing import Any, Dict, List, NamedTuple, NoReturn, Tuple

from .numbers_typed import level, milliseconds, seconds, whole, within
from .trouble import WrongWords

NEEDS_DASHES = ("run", "trigger")
# The commands that take one word, and its name.
ONE_WORD = {"triggers": "directory", "doctor": "directory", "explain": "expression"}
# The options that take a command, by the commands of wq that have them.
EXECUTING = {
    "find": {"-x": "each", "--exec": "each", "-exec": "each", "-X": "batch", "--exec-batch": "batch"},
    "since": {"-x": "each", "--exec": "each"},
}
# Options that other versions had, and what to write now.
GONE = {"--all": "-u", "--lines": "--jsonl"}
VERSION = "--version"

# As argparse says that an option has no value.
NO_VALUE = re.compile(r"^argument (\S+): expected one argument$")

# So much a mistyped option has to be like another one.
LIKENESS = 0.75
# How many columns a page of help has.
COLUMNS = 78


class Parser(argparse.ArgumentParser):
    """Refuses wrong words in one line. Its page of help ends with exit statuses and examples."""

    def error(self, message: str) -> NoReturn:
        message = NO_VALUE.sub(r"\1 takes a value, and has none", message)
        raise WrongWords(f"{message}; see `{self.prog} --help`")

    def print_help(self, file: Any = None) -> None:
        """Written at once, so that an output that is full is heard of."""
        sys.stdout.write(self.format_help())
        sys.stdout.flush()

    def format_help(self) -> str:
        from . import examples, statuses

        command = self.prog.split()[1]
        self.epilog = f"{statuses.lines_of(command)}\n{examples.lines_of(command)}"
        return super().format_help()


class Option(NamedTuple):
    """An option as argparse takes it."""

    names: Tuple[str, ...]
    settings: Dict[str, Any]


def flag(*names: str, help: str, **settings: Any) -> Option:
    return Option(names, {"action": "store_true", "help": help, **settings})


def value(*names: str, help: str, metavar: str, **settings: Any) -> Option:
    return Option(names, {"help": help, "metavar": metavar, **settings})


IGNORE_CASE = flag("--ignore-case", help="ignore the case of A to Z in globs")
MAX_DEPTH = value(
    "--max-depth", metavar="N", type=level, help="list what is at most N levels deep; 1 is directly in DIR"
)
HIDDEN = flag("-H", "--hidden", help="leave out no name: also .git, .hg and, outside of git, node_modules and target")
OTHERS = [
    value(
        "-t",
        "--type",
        metavar="KINDS",
        dest="type",
        action="append",
        help="list these kinds: f (file), d (dir), l (link), x (executable), e (empty), such as -t f,d; b, c, p and s "
        "are devices, pipes and sockets",
    ),
    value(
        "-e",
        "--extension",
        metavar="EXT",
        dest="ext",
        action="append",
        help="list files with these suffixes, such as -e c,h",
    ),
    value(
        "-E",
        "--exclude",
        metavar="GLOB",
        dest="exclude",
        action="append",
        help="leave out what matches, and all below it",
    ),
    value("--min-depth", metavar="N", type=level, help="list what is at least N levels deep"),
    HIDDEN,
]
# To watchexec and entr, `-i` and `-d` are other things than to fd. So a command that runs another one has neither.
NARROWING = [IGNORE_CASE, MAX_DEPTH, *OTHERS]
SEARCHING = [
    Option(("-i", *IGNORE_CASE.names), {**IGNORE_CASE.settings, "dest": "ignore_case"}),
    Option(("-d", *MAX_DEPTH.names), {**MAX_DEPTH.settings, "dest": "max_depth"}),
    *OTHERS,
]
ABSOLUTE = flag("-a", "--absolute-path", dest="absolute", help="print absolute paths")
IGNORING = [
    Option(("-I", "--no-ignore"), {"dest": "ignore", "action": "store_false", "help": "list what git ignores too"}),
    flag("-u", "--unrestricted", help="list everything: -H and -I together"),
    flag("--gitignore", help="follow .gitignore and .ignore outside of repositories too"),
]
DIRS = flag("--dirs", help="list directories too, also those in which files came or went")
COLOR = value("--color", metavar="WHEN", help="use colours: auto, always or never [default: auto]")
QUIET = flag("-q", "--quiet", help="print nothing: the status says whether something was found")
ZEROS = flag("-0", dest="print0", help="end each name with a byte 0 in place of a newline")
JSON = flag("--json", help="print the server's reply")
JSONL = flag("--jsonl", help="print each file as a JSON object on a line of its own")
PRINTING = [ABSOLUTE, ZEROS, JSON, JSONL, COLOR]
NUMBERS = [
    value("--interval", metavar="MS", type=within(10, 3_600_000), help="pause MS ms between two scans [default: 100]"),
    value(
        "--share", metavar="P", type=within(1, 100), help="scans take at most P percent of one processor [default: 10]"
    ),
    value(
        "--quiet-after",
        metavar="S",
        type=within(0, 86_400),
        help="after S seconds without a change or a request, scan less; 0 is never [default: 600]",
    ),
    value("--workers", metavar="N", type=within(1, 16, "auto"), help="use N threads for a query [default: auto]"),
]
WORDS = value("words", metavar="WORD", nargs="*", default=[], help=argparse.SUPPRESS)
DIRECTORY = value("directory", metavar="DIR", nargs="?", default=".", help="a directory of the root")
EXECUTE_EACH = value(
    "-x",
    "--exec",
    metavar="CMD",
    dest="each",
    help="run CMD for each name; all words that follow are its own, up to ';' if options of wq come after it: {} is "
    "the name, {/} the base name, {//} the directory, {.} and {/.} the name and the base name without suffix",
)
EXECUTE_ONCE = value(
    "-x",
    "--exec",
    metavar="CMD",
    dest="each",
    help="if something changed, run CMD once as `wq run` does ({} stands for the names), and count the changes as "
    "told only if it ends with status 0",
)


# The options of a page of help that have a title of their own, each by its last name. Before them come those that say
# how a command works.
TITLES = {
    "which files": [
        *(option.names[-1] for option in (*SEARCHING, *IGNORING, DIRS)),
        "--size",
        "--changed-within",
        "--changed-before",
        "--expression",
        "--program",
    ],
    "output": [
        *(option.names[-1] for option in (*PRINTING, QUIET)),
        "-l",
        "--count",
        "--max-results",
    ],
}


class Form(NamedTuple):
    """The words of a command: a line of usage, what it does, and its options."""

    usage: str
    about: str
    options: List[Option]


FORMS: Dict[str, Form] = {
    "find": Form(
        "[DIR|GLOB]...",
        "print the names that match, one a line",
        [
            *SEARCHING,
            *IGNORING,
            value(
                "--size",
                metavar="SIZE",
                help="list files, and no directories, of at least (+10k) or at most (-10k) a size; k is 1,024 bytes, "
                "kB 1,000",
            ),
            value(
                "--newer",
                "--changed-within",
                metavar="WHEN",
                dest="newer",
                help="list files modified within a time, such as 30s, 10min, 2h, 3d, 1w, or since 2026-11-28",
            ),
            value("--older", "--changed-before", metavar="WHEN", dest="older", help="list files modified before that"),
            value("--expression", metavar="JSON", help="list files that an expression of the protocol matches"),
            value(
                "--program",
                metavar="NAME",
                help="list files for which a stored program says yes; globs or -e say which it is asked about",
            ),
            *PRINTING,
            flag("-l", dest="long", help="print kind, size, time and name"),
            flag("--count", help="print how many there are"),
            value("--max-results", metavar="N", type=whole, help="print the first N names only"),
            QUIET,
            Option(("--no-sync",), {"dest": "sync", "action": "store_false", "help": "answer from the last scan"}),
            flag("--keep", help="go on watching a root that was not watched before"),
            EXECUTE_EACH,
            value(
                "-X",
                "--exec-batch",
                metavar="CMD",
                dest="batch",
                help="run CMD once, with all names; all words that follow are its own, as those of -x",
            ),
            WORDS,
        ],
    ),
    "since": Form(
        "[DIR|GLOB]...",
        "print what changed since this was last asked: + came, - went, ~ changed",
        [
            value("-n", "--name", metavar="NAME", help="ask under a name, which has its own place in time"),
            *SEARCHING,
            *IGNORING,
            DIRS,
            *PRINTING,
            QUIET,
            flag("--peek", help="show what since would print, without marking it as seen"),
            EXECUTE_ONCE,
            WORDS,
        ],
    ),
    "follow": Form(
        "[DIR|GLOB]...",
        "print changes as they come, until you stop it",
        [*SEARCHING, *IGNORING, DIRS, *PRINTING, flag("-q", "--quiet", help="print changes and errors only"), WORDS],
    ),
    "wait": Form(
        "[DIR|GLOB]...",
        "wait for the first change, and print it",
        [
            *SEARCHING,
            *IGNORING,
            DIRS,
            *PRINTING,
            QUIET,
            value(
                "--timeout",
                metavar="S",
                type=seconds,
                help="give up after S seconds, and not before the first scan has ended, with status 1",
            ),
            WORDS,
        ],
    ),
    "run": Form(
        "[DIR|GLOB]... -- COMMAND...",
        "run a command here, now and after each change; {} stands for the names",
        [
            *NARROWING,
            *IGNORING,
            DIRS,
            value(
                "--debounce",
                metavar="MS",
                type=milliseconds,
                default=100,
                help="wait until nothing has changed for MS ms [default: 100]",
            ),
            value("--delay", metavar="MS", type=milliseconds, default=0, help="wait MS ms longer [default: 0]"),
            flag("--restart", help="end a running command at a change: by SIGTERM, after 5 seconds by SIGKILL"),
            value(
                "--on-busy",
                metavar="HOW",
                help="what a change does while the command runs: wait, restart, ignore, signal [default: wait]",
            ),
            value(
                "--stop-signal",
                metavar="SIG",
                default="TERM",
                help="the signal for restart and signal [default: TERM]",
            ),
            flag("--no-self", help="leave out what changes while the command runs"),
            flag("--shell", help="run the words as a text for sh, in which {} stands for the names"),
            flag("--notify", help="show a message on the desktop, or ring, when a run ends"),
            flag("--once", help="end after one run, with its status"),
            flag("--postpone", help="wait for the first change"),
            flag("--clear", help="clear the terminal before each run"),
            flag("--stdin", help="write the names as lines to the standard input of COMMAND"),
            flag("-0", dest="print0", help="with --stdin, end each name with a byte 0"),
            flag("-q", "--quiet", help="print errors only"),
            COLOR,
            WORDS,
        ],
    ),
    "trigger": Form(
        "NAME [DIR|GLOB]... -- COMMAND...",
        "have the server run a command in the root, now and after changes",
        [
            *NARROWING,
            flag("--stdin", help="write the names as lines to the standard input of COMMAND"),
            WORDS,
        ],
    ),
    "triggers": Form("[DIR]", "print the triggers of a root", [JSON, COLOR, DIRECTORY]),
    "untrigger": Form("NAME [DIR]", "remove a trigger", [WORDS]),
    "watch": Form(
        "[DIR]...",
        "watch the projects of directories, and print their roots",
        [flag("--root", help="make each DIR a root of its own, for every command below it until `wq unwatch`"), WORDS],
    ),
    "unwatch": Form("[DIR]...", "stop watching, also directories that are gone", [WORDS]),
    "roots": Form("", "print the roots that are watched", [ZEROS, JSON]),
    "status": Form("", "print what the server does and costs", [JSON, COLOR]),
    "log": Form("", "print what the server said", [flag("-f", "--follow", help="go on printing what it says")]),
    "sockname": Form("", "print the path of the socket", [flag("--start", help="start a server if none listens")]),
    "doctor": Form("[DIR]", "say whether wqd is right for a directory, and what it costs there", [DIRECTORY]),
    "ask": Form("LINE...", "send lines of the protocol, and print the replies", [WORDS]),
    "start": Form("", "start a server, unless one listens", NUMBERS),
    "stop": Form("", "end the server", []),
    "restart": Form("", "end the server and start one with the same words", NUMBERS),
    "explain": Form(
        "EXPRESSION",
        "say what an expression means, its program and what that costs",
        [
            flag("--terms", help="list the terms and what they take"),
            value("expression", metavar="EXPRESSION", nargs="?", help=argparse.SUPPRESS),
        ],
    ),
}


def parser_of(command: str) -> Parser:
    form = FORMS[command]
    usage = f"wq {command}{' [OPTION]...' if options_of(command) else ''} {form.usage}".rstrip()
    parser = Parser(
        prog=f"wq {command}",
        usage=usage,
        description=form.about,
        allow_abbrev=False,
        formatter_class=lambda prog: argparse.RawDescriptionHelpFormatter(prog, width=COLUMNS),
    )
    groups = {title: parser.add_argument_group(title) for title in TITLES}
    for option in form.options:
        title = next((title for title, names in TITLES.items() if option.names[-1] in names), None)
        (groups[title] if title else parser).add_argument(*option.names, **option.settings)
    return parser


def options_of(command: str) -> List[str]:
    """The names of the options of a command."""
    return [name for option in FORMS[command].options for name in option.names if name.startswith("-")]


def read(command: str, words: List[str]) -> argparse.Namespace:
    """The words of a command. Those after two dashes are the command that it runs, and else no options."""
    rest: List[str] = []
    words, commands = without_commands(command, words)
    has_dashes = "--" in words
    if has_dashes:
        place = words.index("--")
        words, rest = words[:place], words[place + 1 :]
    words = with_joined_sizes(with_own_words(command, words))
    parser = parser_of(command)
    found = read_any_order(parser, command, words, () if command in NEEDS_DASHES else rest, has_dashes)
    if command in NEEDS_DASHES:
        found.command, found.given = rest, words
    for name, given in commands.items():
        setattr(found, name, given)
    if getattr(found, "unrestricted", False):
        found.hidden, found.ignore = True, False
    return found


def with_own_words(command: str, words: List[str]) -> List[str]:
    """The words with those of wq in place of options of other tools."""
    known = options_of(command)
    are_known = all(not word.startswith("-") or word.partition("=")[0] in known for word in words)
    # Two of its options have other meanings in inotifywait.
    may_be_others = command in ("follow", "wait") and any(word in ("-e", "-t") for word in words)
    if are_known and not may_be_others:
        return words
    from .other_words import of_inotifywait, own_words  # most people know those of wq

    return own_words(command, of_inotifywait(command, words) if may_be_others else words, known)


def without_commands(command: str, words: List[str]) -> Tuple[List[str], Dict[str, List[str]]]:
    """The words without the command of `-x` or `-X`, which goes on to the end or to a semicolon; and that command."""
    executing = EXECUTING.get(command, {})
    end = words.index("--") if "--" in words else len(words)
    place = next((place for place in range(end) if words[place] in executing), None)
    if place is None or place + 1 == len(words):
        return words, {}
    last = words.index(";", place) if ";" in words[place:] else len(words)
    return words[:place] + words[last + 1 :], {executing[words[place]]: words[place + 1 : last]}


def with_joined_sizes(words: List[str]) -> List[str]:
    """A size may begin with a dash, and argparse takes that for an option unless it is joined to its own."""
    found: List[str] = []
    for word in words:
        if found and found[-1] == "--size" and word.startswith("-"):
            found[-1] = f"--size={word}"
        else:
            found.append(word)
    return found


def no_option(command: str, word: str, has_dashes: bool) -> str:
    """That there is no such option, with the one that was probably meant."""
    import difflib  # few are mistyped

    given = word.partition("=")[0]
    known = options_of(command)
    if given == VERSION:
        return f"{command} has no option {VERSION}; write: wq {VERSION}"
    if GONE.get(given) in known:
        return f"there is no option {given}; write {GONE[given]}"
    like = difflib.get_close_matches(given, [name for name in known if name.startswith("--")], 1, LIKENESS)
    dashes = "; the words of COMMAND come after `--`" if command in NEEDS_DASHES and not has_dashes else ""
    return f"there is no option {given}" + (f"; did you mean {like[0]}?" if like else dashes)


def read_any_order(
    parser: Parser, command: str, words: List[str], rest: Any = (), has_dashes: bool = False
) -> argparse.Namespace:
    """Options may be before, between and after the other words. The rest has none."""
    found, left = parser.parse_known_intermixed_args(words)
    if left:
        is_option = left[0].startswith("-") and len(left[0]) > 1
        parser.error(
            no_option(command, left[0], has_dashes) if is_option else f"{command} takes no further words: {left[0]}"
        )
    for word in rest:
        if hasattr(found, "words"):
            found.words = [*found.words, word]
        elif command in ONE_WORD and getattr(found, ONE_WORD[command]) == parser.get_default(ONE_WORD[command]):
            setattr(found, ONE_WORD[command], word)
        else:
            parser.error(f"{command} takes no further words: {word}")
    return found
