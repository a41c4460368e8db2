"""Counts how often each case came in generated scripts, so that a reader sees that none is missing."""

from collections import Counter
from typing import Any, Dict, Iterator, List, Set

from generators import ANY_DEPTH
from queries import FIELDS, LEFT_OUT_KEYS, Query, listed_records
from replay import EndOfRun, Malformed, Turn, turns
from scripted import at_root, clock_id
from triggers import Round, Start, has_input
from views import View
from wqclient import names
from wqprogram import clocks, errors
from wqprogram.json_values import NotJson, read
from wqprogram.limits import MAX_NUMBER
from wqprogram.patterns import Flags, atoms_of
from wqprogram.terms import COMBINATIONS, RELATIONS, SINCE_FIELDS, TERMS, TYPE_LETTERS, read_term

ATOMS = ["literal", "one", "class", "star", "directories", "rest", "nothing"]
BOUNDS = ["no since", "fresh clock id", "tick", "tick beyond the view", "second"]
SCOPED_TERMS = ["name", "iname", "match", "imatch"]
TERMS_OF_LISTS = ["name", "iname", "suffix"]
# The server compares fewer texts of a list one by one, and searches among so many.
MANY = 17
SUBSCRIPTION_CASES = [
    "first list",
    "first list of a replacement",
    "later list",
    "end of a subscription",
    "first list without files",
    "subscription deleted",
    "no subscription deleted",
    "idle moment that tells nothing",
    "idle moment with several lists",
    "later list after the end of another subscription",
    "later list of one field",
    "later list of several fields",
    "later list of a program",
    "deleted file in a later list",
    "file in a later list that is new",
    "file in a later list that is not new",
]
TRIGGER_CASES = [
    "trigger created",
    "trigger replaced",
    "trigger deleted",
    "no trigger deleted",
    "trigger listed",
    "no trigger listed",
    "round with several starts",
    "round of a root that is not watched",
    "trigger passed over while its command runs",
    "trigger passed over that was replaced",
    "trigger without files",
    "failed start",
    "start after one that failed",
    "start of a fresh batch",
    "start of a later batch",
    "start with deleted files",
    "start by a program",
    "start with names in its arguments",
    "start without input",
    "start with names as input",
    "start with a JSON list of one field",
    "start with a JSON list of several fields",
    "start whose input is cut",
    "end of a run",
    "end of no run",
]
SCRIPT_FAULTS = [
    "not a line",
    "in a pass",
    "outside of a pass",
    "line too long",
    "second out of range",
    "name not valid",
    "number out of range",
    "name twice",
]


def expected_cases() -> List[str]:
    """Every case that has to come."""
    cases = [f"{name} answered" for name in names.COMMANDS] + ["files listed", "no file listed", "deleted file listed"]
    cases += ["empty on fresh instance", "one field", "several fields", "a field twice", "default fields"]
    cases += ["cursor at its first use", "cursor that was used", "query by a program"]
    cases += SUBSCRIPTION_CASES + TRIGGER_CASES
    cases += [
        f"{kind} since a {bound}" for kind in ("first list", "later list") for bound in ("fresh", "tick", "second")
    ]
    cases += ["root watched", "root watched no more", "root listed", "no root listed", "clock id of an earlier root"]
    cases += [f"error {error}" for error in errors.ALL]
    cases += ["script ends well"] + [f"script line: {fault}" for fault in SCRIPT_FAULTS]
    cases += [f"key {key}" for key in names.QUERY_KEYS]
    cases += [f"field {name}" for name in FIELDS] + [f"bound: {bound}" for bound in BOUNDS]
    cases += [f"new is {value} after a {kind}" for kind in ("tick", "second") for value in ("true", "false")]
    cases += [f"generator {name} with {bound}" for name in ("suffix", "path", "glob") for bound in BOUNDS]
    cases += ["generator with no entry", "path to any depth", "path to a depth", "deleted file by a generator"]
    cases += ["patterns that take dots", "patterns that take no dots"]
    cases += [f"left out key {key}" for key in LEFT_OUT_KEYS]
    cases += [f"term {name} {answer}" for name in [*COMBINATIONS, *TERMS] for answer in answers_of(name)]
    cases += [f"term {name} of many texts {answer}" for name in TERMS_OF_LISTS for answer in answers_of(name)]
    cases += [
        f"since {field} with a {kind}"
        for field in SINCE_FIELDS
        for kind in ("fresh", "tick", "second")
        if field != "mtime" or kind == "second"
    ]
    cases += [f"type {letter}" for letter in TYPE_LETTERS]
    cases += [f"relation {relation} in {term}" for relation in RELATIONS for term in ("size", "dirname", "idirname")]
    cases += [f"{term} of {scope}" for term in SCOPED_TERMS for scope in ("basename", "wholename")]
    cases += [f"{term} with {flag}" for term in ("match", "imatch") for flag in ("includedotfiles", "noescape")]
    cases += [f"atom {kind} in {term}" for kind in ATOMS for term in ("match", "imatch")]
    return cases


def answers_of(term: str) -> List[str]:
    return {"true": ["matches"], "false": ["does not match"]}.get(term, ["matches", "does not match"])


def count_cases(script: bytes, counts: Counter) -> None:
    failed: Set[str] = set()
    try:
        for turn in turns(script):
            if isinstance(turn, Turn):
                count_turn(turn, counts)
            elif isinstance(turn, EndOfRun):
                counts["end of a run" if turn.ran else "end of no run"] += 1
            else:
                count_round(turn, failed, counts)
        counts["script ends well"] += 1
    except Malformed as malformed:
        counts[f"script line: {malformed.reason}"] += 1


def count_turn(turn: Turn, counts: Counter) -> None:
    count_told(turn, counts)
    if turn.reply is None or turn.line is None:
        return
    reply = read(turn.reply)
    if "error" in reply:
        counts[f"error {reply['error']}"] += 1
        count_left_out_keys(turn.line, counts)
        return
    counts[f"{read(turn.line)[0]} answered"] += 1
    if "files" not in reply:
        if "unsubscribe" in reply:
            counts["subscription deleted" if reply["deleted"] else "no subscription deleted"] += 1
        count_roots(reply, counts)
        count_triggers(reply, counts)
    else:
        assert turn.query is not None
        count_query(read(turn.line)[2], turn.query, turn.view, counts)


def count_told(turn: Turn, counts: Counter) -> None:
    kinds = [told.kind for told in turn.told]
    if turn.line is None:
        counts["idle moment that tells nothing"] += not kinds
        counts["idle moment with several lists"] += kinds.count("later list") > 1
        counts["later list after the end of another subscription"] += len(set(kinds)) > 1
    for told in turn.told:
        counts[told.kind] += 1
        query = told.subscription.query
        if told.kind != "end of a subscription":
            counts[f"{told.kind} since a {query.bound.kind}"] += 1
        if told.kind == "later list":
            count_later_list(told.line["files"], query, counts)
        else:
            counts["first list without files"] += told.line.get("files") == []


def count_later_list(files: List[Any], query: Query, counts: Counter) -> None:
    is_one = len(query.fields) == 1
    counts["later list of one field" if is_one else "later list of several fields"] += 1
    counts["later list of a program"] += query.program is not None
    told = [{query.fields[0]: file} if is_one else file for file in files]
    counts["deleted file in a later list"] += any(file.get("exists") is False for file in told)
    counts["file in a later list that is new"] += any(file.get("new") is True for file in told)
    counts["file in a later list that is not new"] += any(file.get("new") is False for file in told)


def count_triggers(reply: Dict[str, Any], counts: Counter) -> None:
    if "triggerid" in reply:
        counts[f"trigger {reply['disposition']}"] += 1
    if "trigger" in reply:
        counts["trigger deleted" if reply["deleted"] else "no trigger deleted"] += 1
    if "triggers" in reply:
        counts["trigger listed" if reply["triggers"] else "no trigger listed"] += 1


def count_round(done: Round, failed: Set[str], counts: Counter) -> None:
    """Counts a round. `failed` has the names of the triggers whose last start failed."""
    counts["round of a root that is not watched"] += not done.is_watched
    counts["round with several starts"] += len(done.starts) > 1
    counts["trigger passed over while its command runs"] += len(done.passed_over)
    counts["trigger passed over that was replaced"] += any(trigger.last is None for trigger in done.passed_over)
    counts["trigger without files"] += len(done.quiet)
    for start in done.starts:
        name = start.trigger.name
        if not start.succeeds:
            counts["failed start"] += 1
            failed.add(name)
            continue
        counts["start after one that failed"] += name in failed
        failed.discard(name)
        count_start(start, counts)


def count_start(start: Start, counts: Counter) -> None:
    trigger = start.trigger
    counts["start of a fresh batch" if trigger.last is None else "start of a later batch"] += 1
    counts["start with deleted files"] += any(not record.exists for record in start.files)
    counts["start by a program"] += trigger.query.program is not None
    counts["start with names in its arguments"] += len(start.line["args"]) > len(trigger.asked["command"])
    counts["start whose input is cut"] += "WATCHMAN_FILES_OVERFLOW" in start.line["env"]
    if not has_input(trigger):
        counts["start without input"] += 1
    elif trigger.asked["stdin"] == "NAME_PER_LINE":
        counts["start with names as input"] += 1
    else:
        is_one = len(trigger.query.fields) == 1
        counts["start with a JSON list of one field" if is_one else "start with a JSON list of several fields"] += 1


def count_roots(reply: Dict[str, Any], counts: Counter) -> None:
    counts["root watched"] += "watch" in reply
    counts["root watched no more"] += "watch-del" in reply
    if "roots" in reply:
        counts["root listed" if reply["roots"] else "no root listed"] += 1


def count_left_out_keys(line: bytes, counts: Counter) -> None:
    try:
        value = read(line)
    except NotJson:
        return
    if isinstance(value, list) and len(value) == 3 and isinstance(value[2], dict):
        counts.update(f"left out key {key}" for key in LEFT_OUT_KEYS if key in value[2])


def count_query(asked: Dict[str, Any], query: Query, view: View, counts: Counter) -> None:
    files = listed_records(query, view)
    counts["files listed" if files else "no file listed"] += 1
    counts["deleted file listed"] += any(not record.exists for record in files)
    counts.update(f"key {key}" for key in names.QUERY_KEYS if key in asked)
    counts["cursor at its first use"] += query.cursor is not None and query.bound.kind == "fresh"
    counts["cursor that was used"] += query.cursor is not None and query.bound.kind == "tick"
    counts["query by a program"] += query.program is not None
    counts["clock id of an earlier root"] += is_of_an_earlier_root(asked.get("since"), query.root)
    counts[f"bound: {bound_case(asked, query, view)}"] += 1
    counts["empty on fresh instance"] += query.bound.kind == "fresh" and query.is_empty_on_fresh
    count_fields(asked, query, counts)
    count_generators(asked, query, view, counts)
    for record in files:
        is_new = "true" if FIELDS["new"](record, query) else "false"
        counts[f"new is {is_new} after a {query.bound.kind}"] += "new" in query.fields
    if "expression" in asked:
        for term in terms_in(asked["expression"]):
            count_term(term, query.root, view, counts)


def count_generators(asked: Dict[str, Any], query: Query, view: View, counts: Counter) -> None:
    for name in ("suffix", "path", "glob"):
        counts[f"generator {name} with {bound_case(asked, query, view)}"] += name in asked
        counts["generator with no entry"] += asked.get(name) == []
    for path in query.generators.paths or []:
        counts["path to any depth" if path.depth == ANY_DEPTH else "path to a depth"] += 1
    if query.generators.globs:
        counts["patterns that take dots" if query.generators.takes_dots else "patterns that take no dots"] += 1
    alone = query._replace(bound=query.bound._replace(number=MAX_NUMBER)) if query.bound.kind != "fresh" else query
    counts["deleted file by a generator"] += any(not record.exists for record in listed_records(alone, view))


def is_of_an_earlier_root(spec: Any, root: int) -> bool:
    ids = [clock_id(earlier, 0)[:-1] for earlier in range(1, root)]
    return isinstance(spec, str) and any(spec.startswith(start) for start in ids)


def bound_case(asked: Dict[str, Any], query: Query, view: View) -> str:
    if "since" not in asked:
        return "no since"
    if query.bound.kind == "fresh":
        return "fresh clock id"
    if query.bound.kind == "tick" and query.bound.number > view.tick:
        return "tick beyond the view"
    return query.bound.kind


def count_fields(asked: Dict[str, Any], query: Query, counts: Counter) -> None:
    counts["one field" if len(query.fields) == 1 else "several fields"] += 1
    counts["a field twice"] += len(set(query.fields)) < len(query.fields)
    counts["default fields"] += "fields" not in asked
    counts.update(f"field {name}" for name in set(query.fields))


def terms_in(value: Any) -> Iterator[List[Any]]:
    """The term and all terms in it, each as a head and its arguments."""
    parts = [value] if isinstance(value, str) else value
    yield parts
    if parts[0] in COMBINATIONS:
        for inner in parts[1:]:
            yield from terms_in(inner)


def count_term(term: List[Any], root: int, view: View, counts: Counter) -> None:
    head = term[0]
    test = read_term(term, at_root(root))
    form = f"{head} of many texts" if has_many_texts(term) else head
    for answer in {test(record) for record in view.records}:
        counts[f"term {form} {'matches' if answer else 'does not match'}"] += 1
    if head == "type":
        counts[f"type {term[1]}"] += 1
    elif head == "size":
        counts[f"relation {term[1]} in size"] += 1
    elif head in ("dirname", "idirname") and len(term) == 3:
        counts[f"relation {term[2][1]} in {head}"] += 1
    elif head in ("name", "iname"):
        counts[f"{head} of {scope_of(term)}"] += 1
    elif head in ("match", "imatch"):
        count_match(term, counts)
    elif head == "since":
        field = term[2] if len(term) == 3 else "oclock"
        counts[f"since {field} with a {clocks.bound_of(term[1], at_root(root)).kind}"] += 1


def has_many_texts(term: List[Any]) -> bool:
    return term[0] in TERMS_OF_LISTS and isinstance(term[1], list) and sum(map(bool, term[1])) >= MANY


def scope_of(term: List[Any]) -> str:
    return term[2] if len(term) >= 3 else "basename"


def count_match(term: List[Any], counts: Counter) -> None:
    options = term[3] if len(term) == 4 else {}
    counts[f"{term[0]} of {scope_of(term)}"] += 1
    counts.update(f"{term[0]} with {flag}" for flag in options if options[flag])
    flags = Flags(wholename=scope_of(term) == "wholename", noescape=options.get("noescape", False))
    counts.update(f"atom {kind} in {term[0]}" for kind in {atom.kind for atom in atoms_of(term[1].encode(), flags)})
