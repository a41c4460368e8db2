"""Queries in Watchman's words, said in the server's; and its replies, told in Watchman's."""

from typing import Dict, List, NamedTuple, Sequence

from bridge.checking import check_term, unparsed
from bridge.clocks import said_clock
from bridge.expressions import Place, Term, all_of, any_of, below, of_globs, said_at
from bridge.fields import BY_DEFAULT, Lister, fields_of

Query = Dict[str, object]
GLOB_FLAGS = {"includedotfiles": "glob_includedotfiles", "noescape": "glob_noescape"}
GENERATORS = ("suffix", "path", "glob")
# Keys that the bridge says otherwise, or obeys by itself.
OWN_KEYS = (
    "relative_root",
    "case_sensitive",
    "glob",
    *GLOB_FLAGS.values(),
    "settle_period",
    "settle_timeout",
    "defer",
    "drop",
    "defer_vcs",
    "lock_timeout",
)
TRUTHS = ("case_sensitive", "dedup_results", "empty_on_fresh_instance", *GLOB_FLAGS.values())
TIMES = ("sync_timeout", "lock_timeout", "settle_period", "settle_timeout")
# A step of these in a path leads to no file.
NO_STEPS = ("", ".", "..")


class Asking(NamedTuple):
    """The query to the server for one of a client, and how its list becomes the client's."""

    query: Query
    lister: Lister


def asking_of(
    root: str,
    query: object,
    is_in_json: bool,
    left_out: Sequence[Term] = (),
    has_later_lists: bool = False,
) -> Asking:
    """The query to the server for one of a client, without the files that the root's configuration leaves out. One for
    which the server has no words is refused."""
    if not isinstance(query, dict):
        raise unparsed("case_sensitive must be a boolean")  # the first key that Watchman looks for
    check_values(query)
    is_fresh = "since" not in query and not has_later_lists
    fields = fields_of(query.get("fields", BY_DEFAULT), is_in_json, is_fresh)
    place = Place(directory_of(query), query.get("case_sensitive", True) is True)
    asked = {key: value for key, value in query.items() if key not in OWN_KEYS}
    asked["fields"] = fields.asked
    if asked.get("suffix") == []:
        del asked["suffix"]  # in Watchman an empty list is no generator
    if "since" in asked:
        asked["since"] = said_clock(asked["since"])
    if "path" in asked:
        take_paths(asked, place)
    terms = [*below(place), *terms_of_globs(query, asked, place), *terms_of_expression(query, place)]
    if "program" not in query:
        terms += left_out
    elif place.directory or "glob" in query:
        raise unparsed("a program is asked of names below the root alone, so it has no relative_root and no glob")
    if terms:
        asked["expression"] = all_of(terms)
    if place.directory and not any(key in asked for key in ("since", *GENERATORS)) and "glob" not in query:
        asked["path"] = [place.directory] if is_plain(place.directory) else []
    return Asking(asked, Lister(fields, root, place.directory))


def asking_of_subscription(root: str, query: object, left_out: Sequence[Term] = ()) -> Asking:
    """As of a query. A subscription starts from every file: as in Watchman, its other generators are looked at and
    change nothing."""
    if isinstance(query, dict):
        check_values(query)
        query = {key: value for key, value in query.items() if key not in GENERATORS}
    asking = asking_of(root, query, is_in_json=True, left_out=left_out, has_later_lists=True)
    asking.query.pop("path", None)
    return asking


def directory_of(query: Query) -> str:
    """The `relative_root` of a query, without slashes at its end."""
    value = query.get("relative_root", "")
    if not isinstance(value, str):
        raise unparsed("'relative_root' must be a string")
    return value.rstrip("/")


def is_plain(path: str) -> bool:
    """Whether a path below a root can lead to a file. As in Watchman, `.` and `..` in it lead nowhere."""
    return not any(step in NO_STEPS for step in path.split("/"))


def check_values(query: Query) -> None:
    """Refuses values in the words of Watchman, of the first key that it looks at first."""
    for key in TRUTHS:
        if not isinstance(query.get(key, False), bool):
            raise unparsed(f"{key} must be a boolean")
    for key in TIMES:
        time = query.get(key, 0)
        if isinstance(time, bool) or not isinstance(time, int) or time < 0:
            raise unparsed(f"{key} must be an integer value >= 0")
    directory_of(query)
    if query.get("since", "") is None:
        raise unparsed("invalid value for 'since'")
    for key in ("path", "glob"):
        if not isinstance(query.get(key, []), list):
            raise unparsed(f"'{key}' must be an array")
    for entry in entries_of(query, "path"):
        check_path(entry)
    for suffix in entries_of(query, "suffix"):
        if not isinstance(suffix, str):
            raise unparsed("'suffix' must be a string or an array of strings")


def entries_of(query: Query, key: str) -> List[object]:
    value = query.get(key, [])
    return value if isinstance(value, list) else [value]


def check_path(entry: object) -> None:
    if isinstance(entry, str):
        return
    path, depth = (entry.get("path"), entry.get("depth")) if isinstance(entry, dict) else (None, None)
    if not isinstance(path, str) or isinstance(depth, bool) or not isinstance(depth, int):
        raise unparsed("expected object with 'path' and 'depth' properties")
    if depth < -1:
        raise unparsed("the depth of a path must be an integer >= -1")


def take_paths(asked: Query, place: Place) -> None:
    """The paths in the server's words. An empty list is no generator in Watchman; a path that leads nowhere gives
    nothing."""
    given = entries_of(asked, "path")
    asked["path"] = [path_at(entry, place) for entry in given if leads_somewhere(entry)]
    if not given:
        del asked["path"]


def leads_somewhere(entry: object) -> bool:
    path = str(entry["path"] if isinstance(entry, dict) else entry).rstrip("/")
    return not path or is_plain(path)


def path_at(entry: object, place: Place) -> object:
    if isinstance(entry, dict):
        return {"path": place.path_of(str(entry["path"]).rstrip("/")), "depth": entry["depth"]}
    return place.path_of(str(entry).rstrip("/"))


def terms_of_expression(query: Query, place: Place) -> List[Term]:
    if "expression" not in query:
        return []
    check_term(query["expression"])
    return [said_at(query["expression"], place)]


def terms_of_globs(query: Query, asked: Query, place: Place) -> List[Term]:
    """That a file fits a glob, or is given by another generator beside it. The server then starts from every file,
    unless it has a `since`: it knows globs beside one itself."""
    if "glob" not in query:
        return []
    globs, flags = entries_of(query, "glob"), {name: query.get(key) is True for name, key in GLOB_FLAGS.items()}
    fits = of_globs(globs, place, flags)
    if "since" in query and place.has_case and not flags["noescape"]:
        asked["glob"] = [place.pattern_of(str(glob), True) for glob in globs]
        asked["glob_includedotfiles"] = flags["includedotfiles"]
        return []
    if "since" in query:
        raise unparsed("glob and since together take case_sensitive and no glob_noescape")
    terms = [fits]
    if "suffix" in asked:
        terms.append(["suffix", asked.pop("suffix")])
    for entry in entries_of({"path": asked.pop("path", [])}, "path"):
        terms += terms_of_path(entry)
    return [any_of(terms)]


def terms_of_path(entry: object) -> List[Term]:
    """That a file is given by an entry of `path`: it has that name and is no directory, or lies below it."""
    directory = str(entry["path"] if isinstance(entry, dict) else entry)
    lies: List[object] = ["dirname", directory]
    if isinstance(entry, dict) and isinstance(entry["depth"], int) and entry["depth"] >= 0:
        lies.append(["depth", "le", entry["depth"]])
    if not directory:
        return [lies]
    return [lies, ["allof", ["name", directory, "wholename"], ["not", ["type", "d"]]]]
