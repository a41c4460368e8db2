"""`wq since`: what changed since this was last asked, perhaps under a name. The clock of the last call is kept, and
moves only when what changed was read, or when the command ended well that ran for it."""

import argparse
import base64
import contextlib
import hashlib
import json
import shlex
import time
import zlib
from functools import partial
from typing import Any, Dict, Iterator, List, NamedTuple, Optional, Set

from wqclient.kept import CLOCKS, keep, kept, path_of, room
from wqclient.root_notes import SINCE
from wqclient.starting import Unstarted, alone

from .became_links import Links
from .changes import FIELDS, counted, print_changes
from .commands_run import Command, run_once
from .globs import note, restrictions
from .home import Home
from .ignore_rules import Said
from .names_handed import variables
from .places import Places, UnknownWord, directories_and_globs, require_words
from .roots import Place, real_path, require_utf8
from .server import Value, reached
from .server_log import tell_left_out
from .terminal import require_read, say
from .trouble import COMMAND_FAILED, FOUND, NOTHING, Trouble, WrongWords

LONGEST_NAME = 255
# So many letters of rules are kept beside a clock.
MOST_OF_RULES = 60_000


class Asked(NamedTuple):
    """What changed below a directory, and what is kept for the next call under a key: the clock, and the rules."""

    place: Place
    key: str
    kept: Dict[str, str]
    found: Value


def since(options: argparse.Namespace, home: Home) -> int:
    options.name = name_of(options.name)
    first = partial(require_words, options)
    with reached(home, first=first) as server, one_after_other(server.sockname, options):
        try:
            places = Places(server, options.words, options, SINCE)
        except UnknownWord as error:
            hint = f"; for a name write: wq since -n {shlex.join(options.words)}"
            raise UnknownWord(error.word, "" if options.name or error.word != options.words[0] else hint) from None
        with places:
            asked = [ask(places, number) for number in range(len(places.places))]
            tell_left_out(server, places.roots())
            fault = tell(asked, options)
            if not options.peek and not fault:
                for one in asked:
                    keep_clock(one, server.sockname, options.name)
    return fault or (FOUND if any(one.found["files"] for one in asked) else NOTHING)


def name_of(given: Optional[str]) -> str:
    """The name of a question; "" if it has none."""
    if given == "":
        raise WrongWords("-n takes a name, and not an empty one, as of a variable that is not set")
    name = given or ""
    require_utf8(name, "the name")
    if len(name.encode()) > LONGEST_NAME:
        raise WrongWords(f"the name has {len(name.encode()):,} bytes, and 1 to {LONGEST_NAME} may be")
    return name


@contextlib.contextmanager
def one_after_other(sockname: str, options: argparse.Namespace) -> Iterator[None]:
    """Of two calls that ask the same at once, one is told after the other."""
    directories, globs = directories_and_globs(options.words)
    question = json.dumps([options.name, sorted(map(real_path, directories)), restrictions(globs, options)])
    with contextlib.ExitStack() as stack:
        if not options.peek:
            # A lock that cannot be made is no reason to tell nothing: the clock that cannot be kept is one to say so.
            with contextlib.suppress(OSError, Unstarted):
                room(CLOCKS)
                waits = "waiting for another `wq since` that asks the same"
                stack.enter_context(alone(path_of(CLOCKS, sockname, question), lambda: say(waits)))
        yield


def ask(places: Places, number: int) -> Asked:
    """What changed below a directory since the clock that was kept."""
    place, sockname = places.places[number], places.server.sockname
    key = key_of(place, places)
    note_of = kept(CLOCKS, sockname, place.root, key)
    before = clock_of(note_of)
    query: Dict[str, Any] = {"fields": FIELDS, "expression": places.expression(number)}
    found = places.ask(place, query if before is None else {**query, "since": before})
    clock = found["clock"]
    if found["is_fresh_instance"]:
        why = why_all(before, clock, place) or why_first(places.options.name, place, sockname)
        note(f"{why}: listing everything")
    if places.links and not found["is_fresh_instance"]:
        places.links[number] = Links(links_kept(note_of))
    found = places.told(number, found)
    if not found["is_fresh_instance"]:
        by_rules = {file["name"]: file for file in places.told_by_rules(number, rules_kept(note_of), FIELDS, before)}
        found["files"] = [*(file for file in found["files"] if file["name"] not in by_rules), *by_rules.values()]
    found["files"] = counted(found["files"], places.options)
    rules = rules_to_keep(places.ignored[number].said)
    links = links_to_keep(places.links[number], rules) if places.links else {}
    return Asked(place, key, {"clock": clock, **rules, **links}, found)


def key_of(place: Place, places: Places) -> str:
    """The name of a clock. Each question has one of its own, since a clock moves past what a list left out."""
    directories = sorted({other.path() for other in places.places})
    question = [places.options.name, place.below, directories, restrictions(places.globs, places.options)]
    return hashlib.sha256(json.dumps(question).encode()).hexdigest()[:32]


def tell(asked: List[Asked], options: argparse.Namespace) -> int:
    """Prints what changed, until that was read; or runs a command for it. The status is 0 if that was told."""
    lists = [one.found for one in asked]
    if options.each and any(found["files"] for found in lists):
        return run_for(asked, options.each, options.quiet)
    if not options.each and not options.quiet:
        print_changes(lists, options)
        if not options.peek:
            require_read()
    return 0


def run_for(asked: List[Asked], words: List[str], is_quiet: bool) -> int:
    """Runs a command for what changed. Its status is not that of wq, which would mean other things."""
    command = Command(words, on_input=False, with_zeros=False, is_alone=False, by_shell=False)
    files = [file for one in asked for file in one.found["files"]]
    names = [file["name"] for file in files if file["exists"]]
    if command.takes_names and not names:
        return 0
    added = variables(asked[0].place.root, asked[0].kept["clock"], [file["name"] for file in files])
    status = run_once(command, names, added)
    if status and not is_quiet:
        say(f"{command.name} ended with status {status}; so the next call tells this again")
    return COMMAND_FAILED if status else 0


def clock_of(kept_before: Dict[str, Any]) -> Optional[str]:
    """The clock up to which the last call told what changed."""
    clock = kept_before.get("clock")
    return clock if isinstance(clock, str) and clock.count(":") == 4 else None


def packed(value: object) -> str:
    return base64.b64encode(zlib.compress(json.dumps(value).encode())).decode()


def unpacked(text: object) -> Any:
    return json.loads(zlib.decompress(base64.b64decode(text if isinstance(text, str) else "")))


def rules_to_keep(said: Optional[Said]) -> Dict[str, str]:
    """What the rules of git say, for the next call, unless that is too long."""
    rules = packed(said)
    return {"rules": rules} if said is not None and len(rules) <= MOST_OF_RULES else {}


def rules_kept(kept_before: Dict[str, Any]) -> Optional[Said]:
    """What the rules of git said at the last call, if that was kept."""
    try:
        return Said(*unpacked(kept_before.get("rules")))
    except (TypeError, ValueError, zlib.error):
        return None


def links_to_keep(links: Links, rules: Dict[str, str]) -> Dict[str, str]:
    """The names of links, for the next call, if there is room for them beside the rules."""
    names = packed(sorted(links.names or ()))
    return (
        {"links": names}
        if links.names is not None and len(names) + len(rules.get("rules", "")) <= MOST_OF_RULES
        else {}
    )


def links_kept(kept_before: Dict[str, Any]) -> Optional[Set[str]]:
    """The names of links that were kept at the last call, if they were."""
    try:
        return {str(name) for name in unpacked(kept_before.get("links"))}
    except (TypeError, ValueError, zlib.error):
        return None


def keep_clock(asked: Asked, sockname: str, name: str) -> None:
    root = asked.place.root
    try:
        keep(asked.kept, CLOCKS, sockname, root, asked.key)
        if not kept(CLOCKS, sockname, root, note_of_name(name)):
            keep({"asked": True}, CLOCKS, sockname, root, note_of_name(name))
    except OSError as error:
        where = error.filename or path_of(CLOCKS, sockname, root, asked.key)
        raise Trouble(f"{where}: {error.strerror}; so the next call tells this again") from None


def why_first(name: str, place: Place, sockname: str) -> str:
    """That this was not asked before. Something else may have been, under the same name."""
    with_these = " with these words" if kept(CLOCKS, sockname, place.root, note_of_name(name)) else ""
    return f"first since {f'as {name}' if name else 'here'}{with_these}"


def note_of_name(name: str) -> str:
    """The key under which it is kept that a name was asked about."""
    return f"name {name}"


def why_all(before: Optional[str], now: str, place: Place) -> str:
    """Why the server does not know the clock of the last call, by that clock and the one of this call; nothing if there
    was no call."""
    if before is None:
        return ""
    _, start, process, root, _ = before.split(":")
    _, other_start, other_process, other_root, _ = now.split(":")
    if (start, process) != (other_start, other_process):
        return f"the server was restarted at {time_of(other_start)}, after the last call"
    if root != other_root:
        return f"{place.root} was unwatched since the last call"
    return "the server no longer knows the last call"


def time_of(second: str) -> str:
    try:
        return time.strftime("%Y-%m-%d %H:%M:%S", time.localtime(int(second)))
    except (OverflowError, ValueError, OSError):
        return f"second {second}"
