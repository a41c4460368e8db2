"""`wq find`: the names that match."""

import argparse
import time
from typing import Any, Dict, Iterator, List, Optional

from wqclient.root_notes import KEPT, MOMENT

from .home import Home
from .places import Places, directories_and_globs, require_words
from .roots import is_pattern
from .server import Value, reached
from .server_log import tell_left_out
from .stored import query_of, require_no_other
from .terminal import OF_KINDS, name_shown, say, show
from .trouble import FOUND, NOTHING
from .values_shown import print_lists_as_json

ROW_FIELDS = ["name", "type", "size", "mtime_ms"]


def find(options: argparse.Namespace, home: Home) -> int:
    if options.program is not None:
        require_no_other(options, directories_and_globs(options.words)[1])
    with reached(home, first=lambda: require_words(options)) as server:
        with Places(server, options.words, options, KEPT if options.keep else MOMENT) as places:
            asked = enumerate(queries(places, options))
            lists = [places.told(number, places.ask(places.places[number], query)) for number, query in asked]
            tell_left_out(server, places.roots())
            if not options.quiet and not any(found["files"] for found in lists):
                tell_left_out_words(places, options)
    cut(lists, options.max_results)
    if options.each or options.batch:
        from .for_each import run_for_all, run_for_each

        names = [file["name"] for found in lists for file in found["files"]]
        return run_for_each(options.each, names) if options.each else run_for_all(options.batch, names)
    if not options.quiet:
        print_lists(lists, options)
    return FOUND if any(found["files"] for found in lists) else NOTHING


def tell_left_out_words(places: Places, options: argparse.Namespace) -> None:
    """Says of a word that is the name of a file here why nothing is found, if no other option can be the cause."""
    others = (options.type, options.ext, options.exclude, options.size, options.newer, options.older)
    more = (options.max_depth, options.min_depth, options.expression, options.program)
    if options.sync and not options.unrestricted and not any(value is not None for value in (*others, *more)):
        for word in places.words:
            if not is_pattern(word) and places.has_file(word):
                say(f"{word} is left out by a rule of git or by its name; -u lists it", "yellow")


def cut(lists: List[Value], most: Optional[int]) -> None:
    """Leaves the first files of the lists together, as many as are asked for."""
    if most is not None:
        for found in lists:
            found["files"] = found["files"][:most]
            most -= len(found["files"])


def queries(places: Places, options: argparse.Namespace) -> Iterator[Dict[str, Any]]:
    fields = ROW_FIELDS if options.long else ["name"] if options.count else ["name", "type"]
    if options.json and not options.long and not options.jsonl:
        fields = ["name"]
    for number, place in enumerate(places.places):
        if options.program is None:
            yield {"fields": fields, "expression": places.expression(number)}
        else:
            yield {"fields": fields, **query_of(place, places.globs, options)}


def print_lists(lists: List[Value], options: argparse.Namespace) -> None:
    ending = "\0" if options.print0 else "\n"
    files = [file for found in lists for file in found["files"]]
    if options.json or options.jsonl:
        print_lists_as_json(lists, options)
    elif options.count:
        show([str(len(files))])
    elif options.long:
        show(rows_of(files, ending), ending)
    else:
        show((shown(file, ending) for file in files), ending)


def shown(file: Dict[str, Any], ending: str) -> str:
    return name_shown(file["name"], OF_KINDS.get(file["type"]), ending)


def rows_of(files: List[Dict[str, Any]], ending: str) -> List[str]:
    """A row for each file: its kind, size, time and name."""
    width = max((len(str(file["size"])) for file in files), default=0)
    return [
        f"{file['type']} {file['size']:>{width}} {time_of(file['mtime_ms'])} {shown(file, ending)}" for file in files
    ]


def time_of(milliseconds: int) -> str:
    try:
        return time.strftime("%Y-%m-%d %H:%M:%S", time.localtime(milliseconds // 1000))
    except (OverflowError, ValueError, OSError):
        return f"{milliseconds} ms"
