"""Options and commands of fd, find, watchexec, entr, nodemon, inotifywait and Watchman, and what wq has for them."""

from typing import Dict, List

from .trouble import WrongWords

# The words of wq in place of an option. With none it changes nothing here, or its value is a word by itself.
Own = Dict[str, str]
OF_LISTS: Own = {
    # fd
    "--print0": "-0",
    "--no-ignore-vcs": "-I",
    "-s": "",
    "--case-sensitive": "",
    "-g": "",
    "--glob": "",
    "-S": "--size",
    "--list-details": "-l",
    "-1": "--max-results=1",
    "-c": "--color",
    "--search-path": "",
    "--changed-after": "--newer",
    "--change-newer-than": "--newer",
    "--change-older-than": "--older",
    # find
    "-name": "",
    "-path": "",
    "-iname": "-i",
    "-type": "-t",
    "-maxdepth": "--max-depth",
    "-mindepth": "--min-depth",
    "-empty": "-t=e",
    "-size": "--size",
    "-print": "",
    "-print0": "-0",
    # inotifywait
    "-r": "",
    "--recursive": "",
    "-m": "",
    "--monitor": "",
}
# What inotifywait calls changes. Here all of them are told, and `-e` is for suffixes.
EVENTS = {
    *("access", "attrib", "close", "close_nowrite", "close_write", "create", "delete", "delete_self", "modify"),
    *("move", "move_self", "moved_from", "moved_to", "open", "unmount"),
}
OF_RUNS: Own = {
    # watchexec, entr and nodemon
    "-r": "--restart",
    "-c": "--clear",
    "-p": "--postpone",
    "-N": "--notify",
    "-z": "--once",
    "-o": "--on-busy",
    "--on-busy-update": "--on-busy",
    "-w": "",
    "--watch": "",
    "-f": "",
    "--filter": "",
    "--ignore": "-E",
    "-i": "-E",
    "--exts": "-e",
    "--ext": "-e",
    "--signal": "--stop-signal",
    "--bell": "--notify",
    "-a": "",
    "-n": "",
    "--no-shell": "",
    "--delay-run": "--delay",
    "--no-vcs-ignore": "-I",
    "--no-project-ignore": "-I",
    "--no-default-ignore": "-H",
}
COMMANDS: Own = {
    "watch-project": "watch",
    "watch-list": "roots",
    "watch-del": "unwatch",
    "trigger-list": "triggers",
    "get-sockname": "sockname",
    "shutdown-server": "stop",
    "version": "--version",
    "ls": "find",
}
# Commands that people look for by another word.
MEANT: Own = {
    "list": "find",
    "search": "find",
    "exec": "run",
    "logs": "log",
    "info": "status",
    "ps": "status",
    "stat": "status",
    "tail": "log",
    "serve": "start",
    "kill": "stop",
    "quit": "stop",
    "remove": "unwatch",
    "-v": "--version",
    "-V": "--version",
}
# What watchexec calls the ways of --on-busy.
WAYS: Own = {"queue": "wait", "do-nothing": "ignore"}

# What can be done in place of an option that wq does not have, since no option of wq is the same.
BY_SCANS = "wq always scans, and `wq restart --interval MS` sets the pause"
AFTER_DASHES = "the command comes after `--`, such as: wq run -- make"
NAME_FIRST = "the name comes first, such as: wq trigger build '*.c' -- make"
HINTS_OF_RUNS: Own = {
    **dict.fromkeys(("-x", "--exec"), AFTER_DASHES),
    **dict.fromkeys(("--poll", "--force-poll", "--legacy-watch"), BY_SCANS),
    "-d": "--debounce MS and --delay MS wait before a run, and --dirs is for directories",
    "-s": "--shell -- 'TEXT' is a text for sh, and --stop-signal SIG a signal",
    "--stop-timeout": "a command has 5 seconds to end",
    "-W": "--max-depth 1 is for what lies directly in a DIR",
    "--why": "the variable WQ_CHANGED of the command has the names",
}
HINTS_OF_LISTS: Own = {
    **dict.fromkeys(("-not", "!", "-prune"), "-E GLOB leaves out what matches"),
    **dict.fromkeys(("-mtime", "-mmin", "-newer", "-newermt"), "--newer WHEN takes an age, such as 2h, or a date"),
    **dict.fromkeys(("-o", "-or"), "several globs are alternatives"),
    **dict.fromkeys(("--regex", "-regex"), "globs are taken, such as '*.{c,h}'"),
    **dict.fromkeys(("-p", "--full-path"), "a glob with a slash is for the whole name, such as 'src/**/*.c'"),
    **dict.fromkeys(("-L", "--follow"), "links are listed, and not followed"),
    "-delete": "-X rm runs rm with what is found",
}
HINTS_OF_TRIGGERS: Own = dict.fromkeys(("-n", "--name"), NAME_FIRST)


def own_words(command: str, words: List[str], known: List[str]) -> List[str]:
    """The words of a command line with those of wq, as far as the command has them."""
    table = OF_RUNS if command == "run" else OF_LISTS
    found: List[str] = []
    for word in words:
        option, is_joined, value = word.partition("=")
        own = table.get(option) if option not in known else None
        if own is None or own.partition("=")[0] not in ("", *known):
            require_no_hint(command, option, known)
            found.append(word)
        else:
            found += [part for part in (own, value if is_joined else "") if part]
    return found


def require_no_hint(command: str, option: str, known: List[str]) -> None:
    """Says what can be done in place of an option of another tool."""
    tables = {"run": HINTS_OF_RUNS, "trigger": HINTS_OF_TRIGGERS, "untrigger": HINTS_OF_TRIGGERS}
    hint = tables.get(command, HINTS_OF_LISTS).get(option)
    if hint is not None and option not in known:
        raise WrongWords(f"there is no option {option}; {hint}; see `wq {command} --help`")


def of_inotifywait(command: str, words: List[str]) -> List[str]:
    """The words of a command that waits, as inotifywait has them: `-t` takes seconds, which are no kind of file."""
    pairs = [*zip(words, [*words[1:], ""])]
    for option, value in pairs:
        if option == "-e" and value and set(value.split(",")) <= EVENTS:
            raise WrongWords(f"-e is for suffixes, and {value} is an event: leave it out, since each change is told")
    return [
        "--timeout" if option == "-t" and value[:1].isdigit() and command == "wait" else option
        for option, value in pairs
    ]
