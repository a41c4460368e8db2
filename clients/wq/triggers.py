"""`wq trigger`, `wq triggers` and `wq untrigger`: commands that the server starts after changes."""

import argparse
import json
import os
import shlex
from typing import Any, Dict, Iterator, List, Tuple

from .braces import has_braces
from .commands_run import PLACE
from .globs import any_of, expression_of
from .home import Home
from .outside import require_below
from .places import directories_and_globs
from .roots import is_directory, is_pattern, place_of, require_utf8, root_to_unwatch
from .server import Server, Value, reached
from .server_log import Log, note_registered, words_noted
from .terminal import name_shown, say, show
from .trouble import FOUND, NOTHING, WrongWords
from .values_shown import json_shown

NOT_WATCHED = "E14:"
# The server hands names as they are. So a command that takes names is run by a shell, which puts `./` before each name,
# as `wq run` does. Its text has the numbers of the words alone; after this the count of the command's own words comes.
NUMBERS = r"""BEGIN { for (i = 2; i <= all; i++) printf " \"%s${%d}\"", (i > own + 1 ? "./" : ""), i }"""
WITH_NAMES = ["/bin/sh", "-c", f"""words=$(awk -v own="$1" -v all="$#" '{NUMBERS}') && eval "exec $words\"""", "wq"]


def trigger(options: argparse.Namespace, home: Home) -> int:
    """Registers a trigger. The names of the files take the place of `{}`, the last word of its command."""
    for word in [*options.words, *options.command]:
        require_utf8(word, "a word of the command line")
    if not options.command:
        raise WrongWords("trigger takes `--` and a command after it, such as: wq trigger build '*.c' -- make")
    name, words = named(options.words, "trigger build '*.c' -- make")
    command = command_asked(options)
    with reached(home, first=lambda: asked_files(words, options, [])) as server:
        watched = server.roots()
        root, expression = asked_files(words, options, watched)
        server.watch(root, watched)
        asked = {"name": name, **command, **({} if expression == "true" else {"expression": expression})}
        note_registered(server, root, name, words_shown(options.given, name, root))
        found = server.ask("trigger", root, asked)
    say(f"trigger {name} of {root} is {found['disposition']}; its command runs there")
    return FOUND


def words_shown(given: List[str], name: str, root: str) -> str:
    """The words that say which files a trigger is for, as they were typed, and in which directory; nothing if it is for
    all files."""
    words = [word for word in given if word != "--stdin"]
    words.remove(name)
    below = os.path.relpath(os.path.realpath("."), root)
    text = shlex.join(words) or ("all files" if below != "." else "")
    return text if below == "." or not text else f"{text} in {below}"


def command_asked(options: argparse.Namespace) -> Dict[str, Any]:
    """The keys of a trigger that say what is run, and how it is handed the names."""
    appends = options.command[-1] == PLACE
    command: List[str] = options.command[:-1] if appends else options.command
    if PLACE in command or not command:
        raise WrongWords("the names of files come last in the command of a trigger, so {} may be its last word alone")
    asked: Dict[str, Any] = {"command": command}
    if appends:
        asked = {"append_files": True, "command": [*WITH_NAMES, str(len(command)), *command]}
    return {**asked, "stdin": "NAME_PER_LINE"} if options.stdin else asked


def asked_files(words: List[str], options: argparse.Namespace, watched: List[str]) -> Tuple[str, Any]:
    """The root of a trigger, and the expression of its files."""
    directories, globs = directories_and_globs(words)
    for word in globs:
        is_there = any(os.path.lexists(os.path.join(directory, word)) for directory in directories)
        if not (is_pattern(word) or has_braces(word) or word.startswith("./") or is_there):
            # Before 1.0 the directory came first.
            first = options.words[0]
            hint = (
                f"; the name comes first: wq trigger {shlex.join([word, first])} -- .." if is_directory(first) else ""
            )
            raise WrongWords(f"{word} is no file here; write './{word}' for one that may come{hint}")
    places = [place_of(directory, watched) for directory in directories]
    require_below(globs, places)
    roots = list(dict.fromkeys(place.root for place in places))
    if len(roots) > 1:
        raise WrongWords(f"a trigger is of one root, and these directories are of several: {', '.join(roots)}")
    return roots[0], any_of([expression_of(place, globs, options) for place in places])


def named(words: List[str], example: str) -> Tuple[str, List[str]]:
    """The name, which comes first whatever is on disk, and the other words."""
    command = example.split()[0]
    if not words or is_pattern(words[0]):
        raise WrongWords(f"the name of the trigger is missing, such as in: wq {example}")
    if is_path(words[0]):
        form = shlex.join([words[1], words[0], *words[2:]]) if len(words) > 1 else f"NAME {words[0]}"
        raise WrongWords(f"the name of the trigger comes first: wq {command} {form}")
    return words[0], words[1:]


def is_path(word: str) -> bool:
    """Whether a word can only be meant as a directory."""
    return word in (".", "..") or word.startswith(("/", "./", "../")) or word.endswith("/")


def root_of(server: Server, word: str) -> str:
    """The watched root that a directory means; if none is, the root that would be watched, of which the server says
    so."""
    require_utf8(word, "a word of the command line")
    watched = server.roots()
    return root_to_unwatch(word, watched) or place_of(word, watched).root


def triggers(options: argparse.Namespace, home: Home) -> int:
    with reached(home, starts=False) as server:
        root = root_of(server, options.directory)
        found = server.reply(["trigger-list", root])
        if is_not_watched(found, root):
            return NOTHING
        server.checked(["trigger-list", root], found)
        if options.json:
            show([json_shown(found)])
        else:
            show(rows_of(found["triggers"], Log(server), root, server))
    return FOUND if found["triggers"] else NOTHING


def is_not_watched(found: Value, root: str) -> bool:
    """Says that a root has no triggers, since it is not watched."""
    if not found.get("error", "").startswith(NOT_WATCHED):
        return False
    say(f"{root} is not watched, so it has no triggers")
    return True


def rows_of(triggers: List[Dict[str, Any]], log: Log, root: str, server: Server) -> Iterator[str]:
    for one in triggers:
        yield name_shown(row_of(one), None)
        files = files_of(one, root, server)
        if files:
            yield name_shown(f"  for {files}", None)
        failures = log.failures(root, one["name"]).sentence()
        if failures:
            yield name_shown(f"  {failures}", "red")


def files_of(found: Dict[str, Any], root: str, server: Server) -> str:
    """Which files a trigger is for: in the words of its user, or by its expression if another client registered it."""
    words = words_noted(server, root, found["name"])
    if words is None:
        return json.dumps(found["expression"], ensure_ascii=False) if "expression" in found else ""
    return words


def row_of(found: Dict[str, Any]) -> str:
    return f"{found['name']}: {command_of(found)}"


def command_of(found: Dict[str, Any]) -> str:
    """The command of a trigger, as a person wrote it."""
    command, begin = found["command"], len(WITH_NAMES)
    own = command[begin + 1 :] if command[:begin] == WITH_NAMES else command
    return shlex.join(own) + (f" {PLACE}" if found.get("append_files") else "")


def untrigger(options: argparse.Namespace, home: Home) -> int:
    name, words = named(options.words, "untrigger build")
    if len(words) > 1:
        raise WrongWords(f"untrigger takes a name and a directory, and no further words: {' '.join(words[1:])}")
    require_utf8(name, "the name")
    with reached(home, starts=False) as server:
        root = root_of(server, words[0] if words else ".")
        found = server.reply(["trigger-del", root, name])
        if is_not_watched(found, root):
            return NOTHING
        server.checked(["trigger-del", root, name], found)
        if not found["deleted"]:
            names = [one["name"] for one in server.look("trigger-list", root).get("triggers", [])]
            say(f"{root} has no trigger {name}{'; there are ' + ', '.join(names) if names else ''}")
    return FOUND if found["deleted"] else NOTHING
